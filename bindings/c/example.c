/* The worked example in C: shows the query's pattern, tells whether there is a calm station at ana's hubs, lists them by name, asks with too
 * little working memory, renames a stored book, and makes a partner's book tidy. */
#include "../hifmuneth.h"
#include <stdio.h>
#include <string.h>

static const char BOOK[] =
    "(vattr kind str)\n(vattr rate int)\n(label runs)\n(label feeds)\n"
    "(node ana)\n(node hub (kind 'hub'))\n(node S5 (rate 40))\n(node S6)\n"
    "(rel runs ana hub)\n(rel feeds S5 hub)\n(rel feeds S6 hub)\n";
static const char RULES[] =
    "(category view (actors requestor) (over))\n"
    "(policy view \"Match (requestor)-[r:runs]->(h) Return h\")\n";
static const char QUERY[] =
    "Match (requestor)-[a:runs]->(h)<-[b:feeds]-(s) Where s.rate < 50 Return s";
static const char REQUEST[] = "(request view (id requestor ana))\n";
static const char STORED[] = "(node S6)\n(node s6)\n";
static const char UNTIDY[] = "(vattr kind str)\n(vattr rate int)\n( node  S6(rate 3)(kind 'mast') )\n(label feeds)\n";

static uint32_t work[HIFMUNETH_WORK_WORDS];

static uint8_t names[HIFMUNETH_NAME_BYTES * HIFMUNETH_NODES];

static void pattern(void)
{
    size_t vertices, edges, conditions, returns;
    size_t v[2 * HIFMUNETH_VERTICES], e[5 * HIFMUNETH_EDGES], c[7 * HIFMUNETH_CONDITIONS], r[HIFMUNETH_RETURN_NAMES];
    uint32_t number, text, line;
    if (!hifmuneth_read_query((const uint8_t *)BOOK, strlen(BOOK), (const uint8_t *)QUERY, strlen(QUERY), work, HIFMUNETH_WORK_WORDS,
                              &vertices, &edges, &conditions, &returns, v, e, c, r, &number, &text, &line))
        return;
    for (size_t i = 0; i < edges; i++)
        printf("edge %.*s from vertex %zu to vertex %zu\n", (int)e[5 * i + 1], QUERY + e[5 * i], e[5 * i + 3], e[5 * i + 4]);
    for (size_t i = 0; i < conditions; i++)
        if (c[7 * i] == HIFMUNETH_OF_VERTEX && c[7 * i + 3] == HIFMUNETH_LESS && c[7 * i + 4] == HIFMUNETH_NUMBER)
            printf("vertex %.*s: attribute %zu is less than %lld\n", (int)v[2 * c[7 * i + 1] + 1], QUERY + v[2 * c[7 * i + 1]],
                   c[7 * i + 2], (long long)HIFMUNETH_INT64(c[7 * i + 5]));
}

/* What a lamp on a panel shows: whether the list has any row. */
static void lamp(void)
{
    uint32_t yes, number, text, line;
    if (hifmuneth_lamp((const uint8_t *)BOOK, strlen(BOOK), (const uint8_t *)RULES, strlen(RULES),
                       (const uint8_t *)QUERY, strlen(QUERY), (const uint8_t *)REQUEST, strlen(REQUEST),
                       work, HIFMUNETH_WORK_WORDS, &yes, &number, &text, &line))
        printf("lamp %s\n", yes ? "yes" : "no");
    else
        printf("refused %u text %u line %u\n", number, text, line);
}

static void list(size_t work_words)
{
    uint32_t rows[8], number, text, line;
    size_t count, width;
    if (!hifmuneth_list((const uint8_t *)BOOK, strlen(BOOK), (const uint8_t *)RULES, strlen(RULES),
                        (const uint8_t *)QUERY, strlen(QUERY), (const uint8_t *)REQUEST, strlen(REQUEST),
                        rows, 8, work, work_words, &count, &width, &number, &text, &line)) {
        printf("refused %u text %u line %u\n", number, text, line);
        return;
    }
    printf("rows %zu\n", count);
    for (size_t i = 0; i < count * width; i++)
        printf("node %u %s\n", rows[i], (const char *)names + HIFMUNETH_NAME_BYTES * rows[i]);
}

/* Room for a book that is written. */
static uint8_t out[HIFMUNETH_BOOK_BYTES];

/* A book that was stored before names that differ only by case were refused, in a buffer of so many bytes. */
static void rename_stored(size_t bytes)
{
    uint32_t number, text, line;
    size_t length;
    if (hifmuneth_rename_book((const uint8_t *)STORED, strlen(STORED), out, bytes, work, HIFMUNETH_WORK_WORDS, &length, &number, &text, &line))
        printf("%.*s", (int)length, (const char *)out);
    else
        printf("refused %u text %u line %u\n", number, text, line);
}

/* A book as a partner sent it, in a buffer of so many bytes. */
static void tidy_partners(size_t bytes)
{
    uint32_t number, text, line;
    size_t length;
    if (hifmuneth_tidy_book((const uint8_t *)UNTIDY, strlen(UNTIDY), out, bytes, work, HIFMUNETH_WORK_WORDS, &length, &number, &text, &line))
        printf("%.*s", (int)length, (const char *)out);
    else
        printf("refused %u text %u line %u\n", number, text, line);
}

int main(void)
{
    uint32_t number, text, line;
    size_t count;
    pattern();
    hifmuneth_node_names((const uint8_t *)BOOK, strlen(BOOK), work, HIFMUNETH_WORK_WORDS, &count, names, &number, &text, &line);
    lamp();
    list(HIFMUNETH_WORK_WORDS);
    list(HIFMUNETH_WORK_WORDS - 1);
    rename_stored(HIFMUNETH_BOOK_BYTES);
    rename_stored(strlen(STORED));
    tidy_partners(HIFMUNETH_BOOK_BYTES);
    tidy_partners(10);
    return 0;
}
