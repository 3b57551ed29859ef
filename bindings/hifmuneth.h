/* Hifmuneth: the station list for C. The library is target/staticlib/libhifmuneth.a, made by `sh tests/build`.
 *
 * Every function takes its texts as a pointer and a length in bytes, and its buffers as a pointer and a length in words or bytes. It
 * returns true if it accepts; the numbers of a refusal are then 0. If it returns false, *number, *text and *line are the refusal, and
 * every other number is 0. Whatever it answers, the working memory ends all ones. No function keeps a pointer, allocates memory or fails
 * in any other way.
 *
 * How long a call takes: a text within its limits is read or refused in a few milliseconds on a machine of today, whatever it says, nearly every one in under a
 * tenth of that (measured; see docs/SPEED.md). List and lamp search besides, and the search has no bound yet: a dense book and a query of many vertices that
 * hardly narrow each other can keep it busy for long. Call them where a slow answer holds up nothing else.
 *
 * What a caller owes: every pointer is valid, aligned, and not NULL (also where its length is 0); no two of the buffers and numbers
 * that a call writes overlap, and none overlaps a text; no other thread uses them during the call. The deepest search was measured to
 * need about 120 KB of stack.
 */
#ifndef HIFMUNETH_H
#define HIFMUNETH_H

#include <stdbool.h>
#include <stddef.h>
#include <stdint.h>

#ifdef __cplusplus
extern "C" {
#endif

/* Working memory, in words of 32 bits. With fewer words every function refuses with 15. */
#define HIFMUNETH_WORK_WORDS 16384

/* How much fits: bytes of the texts, and counts. */
#define HIFMUNETH_BOOK_BYTES 65536
#define HIFMUNETH_RULES_BYTES 16384
#define HIFMUNETH_QUERY_BYTES 2048
#define HIFMUNETH_REQUEST_BYTES 2048
#define HIFMUNETH_NODES 256
#define HIFMUNETH_RELATIONSHIPS 1024
#define HIFMUNETH_ENTRIES 2048
#define HIFMUNETH_CATEGORIES 16
#define HIFMUNETH_IDENTITIES 8
#define HIFMUNETH_VERTICES 8
#define HIFMUNETH_EDGES 16
#define HIFMUNETH_CONDITIONS 32
#define HIFMUNETH_RETURN_NAMES 4

/* A node's name and a zero behind it take so many bytes at most. */
#define HIFMUNETH_NAME_BYTES 25

/* The texts of a refusal: *text is one of these, or 0 for refusal 15. */
#define HIFMUNETH_BOOK 1
#define HIFMUNETH_RULES 2
#define HIFMUNETH_QUERY 3
#define HIFMUNETH_REQUEST 4
#define HIFMUNETH_WOVEN 5

/* The numbers of a refusal: what *number says is wrong. docs/REFUSALS.md has a text that gets each, and what to do. */
#define HIFMUNETH_TOO_LONG 1             /* the text is too long */
#define HIFMUNETH_BYTE_NOT_ALLOWED 2     /* a byte that is not allowed */
#define HIFMUNETH_GRAMMAR_BROKEN 3       /* the grammar is broken */
#define HIFMUNETH_NOT_DECLARED 4         /* a name is not declared */
#define HIFMUNETH_SECOND_TIME 5          /* a second time */
#define HIFMUNETH_OTHER_TYPE 6           /* not of the declared type */
#define HIFMUNETH_LIMIT_PASSED 7         /* a count passes its limit */
#define HIFMUNETH_EXCLUDED_FROM_ITSELF 8 /* a vertex excluded from itself */
#define HIFMUNETH_ACTOR_MISSING 9        /* a category without an actor that it needs */
#define HIFMUNETH_POLICY_MISSING 10      /* a category without a policy */
#define HIFMUNETH_NO_REQUESTOR 11        /* no identity for requestor */
#define HIFMUNETH_WOVEN_TOO_LARGE 12     /* the woven pattern passes a limit */
#define HIFMUNETH_VERTEX_UNTIED 13       /* a vertex hangs on nothing */
#define HIFMUNETH_NO_SPACE 14            /* what is to be given does not fit the buffer */
#define HIFMUNETH_MEMORY_MISSING 15      /* working memory is missing */

/* Which condition it is: the first of its words. */
#define HIFMUNETH_DIFFER 1
#define HIFMUNETH_OF_VERTEX 2
#define HIFMUNETH_OF_EDGE 3

/* The relations of a condition. */
#define HIFMUNETH_EQUAL 1
#define HIFMUNETH_UNEQUAL 2
#define HIFMUNETH_LESS 3
#define HIFMUNETH_AT_MOST 4
#define HIFMUNETH_GREATER 5
#define HIFMUNETH_AT_LEAST 6

/* The types of a condition's value, and the number that a word says: the number z stands as z + 2^63. */
#define HIFMUNETH_NUMBER 1
#define HIFMUNETH_TEXT 2
#define HIFMUNETH_TRUTH 3
#define HIFMUNETH_INT64(word) ((int64_t)((uint64_t)(word) ^ UINT64_C(0x8000000000000000)))

/* A row word past the rows: all ones, which is no node. */
#define HIFMUNETH_NO_NODE UINT32_C(0xffffffff)

/* Reads a book and tells how many nodes, relationships and attribute entries it has. A node name that is an earlier one but for the case of letters is
 * refused with HIFMUNETH_SECOND_TIME, here and wherever a book is read; hifmuneth_rename_book gives a stored book with such names new ones. */
bool hifmuneth_read_book(const uint8_t *book, size_t book_length,
                         uint32_t *work, size_t work_words,
                         size_t *nodes, size_t *relationships, size_t *entries,
                         uint32_t *number, uint32_t *text, uint32_t *line);

/* Tells the names of a book's nodes, and how many nodes it has. names + HIFMUNETH_NAME_BYTES * n is the name of node n, ended by a zero; what
 * is past the last node is 0. Call it once for a book, and print the rows of any list over it. */
bool hifmuneth_node_names(const uint8_t *book, size_t book_length,
                          uint32_t *work, size_t work_words,
                          size_t *count, uint8_t names[HIFMUNETH_NAME_BYTES * HIFMUNETH_NODES],
                          uint32_t *number, uint32_t *text, uint32_t *line);

/* Reads rules over a book and tells how many categories and policies they have. */
bool hifmuneth_read_rules(const uint8_t *book, size_t book_length,
                          const uint8_t *rules, size_t rules_length,
                          uint32_t *work, size_t work_words,
                          size_t *categories, size_t *policies,
                          uint32_t *number, uint32_t *text, uint32_t *line);

/* Reads a query over a book and tells its pattern: how many vertices, edges, conditions and Return names it has, and their words. What is
 * past the counts is 0.
 *
 * Vertex i, numbered by first appearance: vertex_words[2 * i] is where its name first stands in the query, vertex_words[2 * i + 1] the
 * name's length.
 *
 * Edge i, in the order of the text: edge_words[5 * i] and [5 * i + 1] are start and length of its name, [5 * i + 2] its label's number (from
 * 0, in the order of the book), [5 * i + 3] and [5 * i + 4] the vertices it runs from and to.
 *
 * Condition i, in the order of the text, has seven words from condition_words[7 * i] on. HIFMUNETH_DIFFER: the two vertices that differ; the
 * other four are 0. HIFMUNETH_OF_VERTEX or HIFMUNETH_OF_EDGE: the vertex or edge, the attribute's number (from 0, in the order of the book's
 * vattr or eattr lines), the relation, the value's type, its two words: for HIFMUNETH_NUMBER HIFMUNETH_INT64 gives the number from the first;
 * for HIFMUNETH_TEXT start and length in the query; for HIFMUNETH_TRUTH 1 or 0. A second word that a value does not have is 0.
 *
 * Return name i: return_words[i] is its vertex. */
bool hifmuneth_read_query(const uint8_t *book, size_t book_length,
                          const uint8_t *query, size_t query_length,
                          uint32_t *work, size_t work_words,
                          size_t *vertices, size_t *edges, size_t *conditions, size_t *return_names,
                          size_t vertex_words[2 * HIFMUNETH_VERTICES], size_t edge_words[5 * HIFMUNETH_EDGES],
                          size_t condition_words[7 * HIFMUNETH_CONDITIONS], size_t return_words[HIFMUNETH_RETURN_NAMES],
                          uint32_t *number, uint32_t *text, uint32_t *line);

/* Reads a request over a book and rules and tells its category's number (from 0, in the order of the rules) and its identities, in the
 * order of the request. Identity i has three numbers: identities[3 * i] is where its actor's name starts in the request,
 * identities[3 * i + 1] that name's length, identities[3 * i + 2] the number of its node. What is past the count is 0. */
bool hifmuneth_read_request(const uint8_t *book, size_t book_length,
                            const uint8_t *rules, size_t rules_length,
                            const uint8_t *request, size_t request_length,
                            uint32_t *work, size_t work_words,
                            size_t *category, size_t *count, size_t identities[3 * HIFMUNETH_IDENTITIES],
                            uint32_t *number, uint32_t *text, uint32_t *line);

/* Writes a query into the text buffer in the one form that reads back as the same pattern, and tells its length in bytes. Bytes past it
 * are unchanged; a refusal changes none. */
bool hifmuneth_write_query(const uint8_t *book, size_t book_length,
                           const uint8_t *rules, size_t rules_length,
                           const uint8_t *query, size_t query_length,
                           uint8_t *out, size_t out_length,
                           uint32_t *work, size_t work_words,
                           size_t *length,
                           uint32_t *number, uint32_t *text, uint32_t *line);

/* Renames the nodes of a stored book whose names differ only by case, and writes the new book into the text buffer; tells its length in bytes. Of
 * names that are equal case aside the first stays, and each later one gets _b at its end, on its own line and at both ends of rel lines; every other
 * byte stays. A book without such names is written unchanged. Bytes past the new book are unchanged; a refusal changes none.
 *
 * The book is read by the rules from before such names were refused, and gets its own refusal by them first. Then HIFMUNETH_SECOND_TIME on the line of
 * the first later name that cannot have its new one: that is another node's, case aside, or one given on a line above; or it passes 24 bytes; or with it
 * the book passes HIFMUNETH_BOOK_BYTES. Last HIFMUNETH_NO_SPACE, text HIFMUNETH_BOOK, line 0, if the new book does not fit the buffer:
 * HIFMUNETH_BOOK_BYTES are always enough. A full book is renamed in at most twice the time in which it is read (measured by tests/bench). */
bool hifmuneth_rename_book(const uint8_t *book, size_t book_length,
                           uint8_t *out, size_t out_length,
                           uint32_t *work, size_t work_words,
                           size_t *length,
                           uint32_t *number, uint32_t *text, uint32_t *line);

/* Writes a book tidily into the text buffer, and tells its length in bytes: the lines by kind (vattr, eattr, label, node, rel), each kind in its old order;
 * the attributes of a node in the order of the vattr lines, those of a relationship in the order of the eattr lines; one space between the items of a list,
 * and so before an inner bracket, and no other; a line feed behind each line. Two accepted books with the same declarations, nodes and relationships in those
 * orders give equal bytes; a tidy book is written unchanged; every list from the tidy book is that from the book it came from. Bytes past the tidy book are
 * unchanged; a refusal changes none.
 *
 * The book gets its own refusal first. Last HIFMUNETH_NO_SPACE, text HIFMUNETH_BOOK, line 0, if the tidy book does not fit the buffer or has more than
 * HIFMUNETH_BOOK_BYTES: it can be longer than the book, which may leave out the space before an inner bracket. A full book is made tidy in at most twice the
 * time in which it is read (measured by tests/bench). */
bool hifmuneth_tidy_book(const uint8_t *book, size_t book_length,
                         uint8_t *out, size_t out_length,
                         uint32_t *work, size_t work_words,
                         size_t *length,
                         uint32_t *number, uint32_t *text, uint32_t *line);

/* Lists every row that may be had, each once, ascending, and tells how many, and how wide a row is: the number of Return names. Row i stands
 * in the row words from rows[i * *width] on, a word for each Return name: the number of its node. Row words past the rows are all ones; after
 * a refusal all of them are. */
bool hifmuneth_list(const uint8_t *book, size_t book_length,
                    const uint8_t *rules, size_t rules_length,
                    const uint8_t *query, size_t query_length,
                    const uint8_t *request, size_t request_length,
                    uint32_t *rows, size_t row_words,
                    uint32_t *work, size_t work_words,
                    size_t *count, size_t *width,
                    uint32_t *number, uint32_t *text, uint32_t *line);

/* Tells whether the list of the same texts has any row, for a lamp on a panel: *yes is 1 if hifmuneth_list, given row words enough, has a row, and 0 if it has
 * none. It needs no row words, and refuses exactly as hifmuneth_list does, but never with HIFMUNETH_NO_SPACE. The search stops at the first row that it finds;
 * where there is none it goes as far as the list's. */
bool hifmuneth_lamp(const uint8_t *book, size_t book_length,
                    const uint8_t *rules, size_t rules_length,
                    const uint8_t *query, size_t query_length,
                    const uint8_t *request, size_t request_length,
                    uint32_t *work, size_t work_words,
                    uint32_t *yes,
                    uint32_t *number, uint32_t *text, uint32_t *line);

#ifdef __cplusplus
}
#endif

#endif
