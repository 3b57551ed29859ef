//! The wrapper itself: what it makes of the library's numbers, words and bytes.
use hifmuneth::{lent, refusal, Condition, Refusal, Relation, Value};

const BOOK: &[u8] = b"(vattr kind str)\n(vattr rate int)\n(eattr since int)\n(label runs)\n(label feeds)\n(node ana)\n(node hub (kind 'hub'))\n\
(node S5 (rate 40))\n(node S6)\n(rel runs ana hub (since -7))\n(rel feeds S5 hub)\n(rel feeds S6 hub)\n";
const RULES: &[u8] = b"(category view (actors requestor) (over))\n(policy view \"Match (requestor)-[r:runs]->(h) Return h\")\n";
const QUERY: &[u8] = b"Match (requestor)-[a:runs]->(h)<-[b:feeds]-(s) Where s.rate < 50 AND a.since >= -7 AND h.kind <> '' AND s <> h Return s, h";
const REQUEST: &[u8] = b"(request view (id requestor ana))\n";

fn refused<T: std::fmt::Debug>(answer: Result<T, Refusal>) -> Refusal {
    answer.expect_err("it is to be refused")
}

#[test]
fn counts_of_a_book_and_of_rules() {
    let book = hifmuneth::read_book(BOOK).unwrap();
    assert_eq!((book.nodes, book.relationships, book.entries), (4, 3, 3));
    let rules = hifmuneth::read_rules(BOOK, RULES).unwrap();
    assert_eq!((rules.categories, rules.policies), (1, 1));
}

#[test]
fn names_by_number() {
    assert_eq!(hifmuneth::node_names(BOOK).unwrap(), ["ana", "hub", "S5", "S6"]);
    let longest = b"(label l)\n(node abcdefghijklmnopqrstuvwx)\n";
    assert_eq!(hifmuneth::node_names(longest).unwrap(), ["abcdefghijklmnopqrstuvwx"]);
}

#[test]
fn a_pattern_with_its_names_and_values() {
    let p = hifmuneth::read_query(BOOK, QUERY).unwrap();
    assert_eq!(p.vertices, ["requestor", "h", "s"]);
    let edges: Vec<_> = p.edges.iter().map(|e| (e.name, e.label, e.from, e.to)).collect();
    assert_eq!(edges, [("a", 0, 0, 1), ("b", 1, 2, 1)]);
    assert_eq!(p.returns, [2, 1]);
    assert_eq!(p.conditions.len(), 4);
    match &p.conditions[0] {
        Condition::OfVertex(2, r) => assert_eq!((r.attribute, r.relation, &r.value), (1, Relation::Less, &Value::Number(50))),
        other => panic!("{other:?}"),
    }
    match &p.conditions[1] {
        Condition::OfEdge(0, r) => assert_eq!((r.attribute, r.relation, &r.value), (0, Relation::AtLeast, &Value::Number(-7))),
        other => panic!("{other:?}"),
    }
    match &p.conditions[2] {
        Condition::OfVertex(1, r) => assert_eq!((r.attribute, r.relation, &r.value), (0, Relation::Differs, &Value::Text(""))),
        other => panic!("{other:?}"),
    }
    assert!(matches!(p.conditions[3], Condition::Differ(2, 1)));
}

#[test]
fn identities_of_a_request() {
    let r = hifmuneth::read_request(BOOK, RULES, REQUEST).unwrap();
    assert_eq!((r.category, r.identities.len()), (0, 1));
    assert_eq!((&REQUEST[r.identities[0].actor.clone()], r.identities[0].node), (&b"requestor"[..], 0));
}

#[test]
fn a_written_query_reads_back() {
    let written = hifmuneth::write_query(BOOK, RULES, QUERY).unwrap();
    assert_eq!(hifmuneth::write_query(BOOK, RULES, &written).unwrap(), written);
    assert_eq!(hifmuneth::read_query(BOOK, &written).unwrap().vertices, ["requestor", "h", "s"]);
}

#[test]
fn names_that_differ_by_case() {
    let stored = b"(label near)\n(node S6)\n( node  s6 )\n(rel near S6 s6)\n(rel near s6 s6)\n";
    let renamed = b"(label near)\n(node S6)\n( node  s6_b )\n(rel near S6 s6_b)\n(rel near s6_b s6_b)\n";
    let second = refused(hifmuneth::read_book(stored));
    assert_eq!(second, Refusal { number: refusal::SECOND_TIME, text: 1, line: 3 });
    assert_eq!(second.to_string(), "book, line 3: a second time (refused 5 text 1 line 3)");
    assert_eq!(hifmuneth::rename_book(stored).unwrap(), renamed);
    assert_eq!(hifmuneth::node_names(renamed).unwrap(), ["S6", "s6_b"]);
    assert_eq!(hifmuneth::rename_book(BOOK).unwrap(), BOOK);
}

#[test]
fn a_renaming_that_is_refused() {
    let at = |book: &[u8]| refused(hifmuneth::rename_book(book));
    assert_eq!(at(b"(node ab)\n(node Ab)\n(node aB)\n"), Refusal { number: refusal::SECOND_TIME, text: 1, line: 3 });
    assert_eq!(at(b"(node S6)\n(node s6)\n(node S6_B)\n"), Refusal { number: refusal::SECOND_TIME, text: 1, line: 2 });
    assert_eq!(at(b"(node S6)\n(node s6)\n(node s7\n"), Refusal { number: refusal::GRAMMAR_BROKEN, text: 1, line: 3 });
}

#[test]
fn a_renamed_book_in_lent_buffers() {
    let (stored, mut work) = (b"(node S6)\n(node s6)\n", vec![7; hifmuneth::WORK_WORDS]);
    let mut short = [b'.'; 21];
    let r = refused(lent::rename_book(stored, &mut short, &mut work));
    assert_eq!(r, Refusal { number: refusal::NO_SPACE, text: 1, line: 0 });
    assert_eq!(r.to_string(), "book: what is to be given does not fit the buffer (refused 14 text 1 line 0)");
    assert_eq!(short, [b'.'; 21]);
    let mut long = [b'.'; 24];
    assert_eq!(lent::rename_book(stored, &mut long, &mut work), Ok(22));
    assert_eq!(&long, b"(node S6)\n(node s6_b)\n..");
    assert!(work.iter().all(|w| *w == u32::MAX));
    assert_eq!(refused(lent::rename_book(stored, &mut long, &mut work[1..])).number, refusal::MEMORY_MISSING);
}

/// A book as a partner may send it: kinds of lines mixed, attributes in any order, any spacing; and the same book tidy.
const UNTIDY: &[u8] = b"(vattr kind str)\n  ( node hub(kind 'hub') )\n(label feeds)\n(eattr since int)\n(vattr rate int)\n( eattr  open  bool )\n\
(node S5 (rate -9223372036854775808)   (kind ''))\n(rel feeds S5 hub(open true)( since 9223372036854775807 ))\n(node S6)\n";
const TIDY: &[u8] = b"(vattr kind str)\n(vattr rate int)\n(eattr since int)\n(eattr open bool)\n(label feeds)\n(node hub (kind 'hub'))\n\
(node S5 (kind '') (rate -9223372036854775808))\n(node S6)\n(rel feeds S5 hub (since 9223372036854775807) (open true))\n";

#[test]
fn a_tidy_book() {
    assert_eq!(String::from_utf8_lossy(&hifmuneth::tidy_book(UNTIDY).unwrap()), String::from_utf8_lossy(TIDY));
    assert_eq!(hifmuneth::tidy_book(TIDY).unwrap(), TIDY);
    assert_eq!(hifmuneth::tidy_book(BOOK).unwrap(), BOOK);
    assert_eq!(hifmuneth::tidy_book(b"").unwrap(), b"");
    assert_eq!(hifmuneth::read_book(TIDY), hifmuneth::read_book(UNTIDY));
    assert_eq!(hifmuneth::node_names(TIDY), hifmuneth::node_names(UNTIDY));
}

/// A book without a space before an inner bracket, whose tidy form has so many bytes.
fn dense(bytes: usize) -> Vec<u8> {
    let text = |length: usize| "x".repeat(length);
    let declared: String = (0..8).map(|a| format!("(vattr a{a} str)\n")).collect();
    let entries: String = (0..8).map(|a| format!("(a{a} '{}')", text(40))).collect();
    let nodes: String = (0..165).map(|i| format!("(node n{i:03}{entries})\n")).collect();
    let tidy = declared.len() + nodes.len() + 165 * 8 + "(node last (a0 '') (a1 ''))\n".len();
    format!("{declared}{nodes}(node last(a0 '{}')(a1 '{}'))\n", text(40), text(bytes - tidy - 40)).into_bytes()
}

#[test]
fn a_tidy_book_that_is_refused() {
    let at = |book: &[u8]| refused(hifmuneth::tidy_book(book));
    assert_eq!(at(b"(node S6)\n(node s6)\n"), Refusal { number: refusal::SECOND_TIME, text: 1, line: 2 });
    assert_eq!(at(b"(node S6 (rate 3))\n(vattr rate int)\n"), Refusal { number: refusal::NOT_DECLARED, text: 1, line: 1 });
    assert_eq!(at(&[b' '; 65_537]), Refusal { number: refusal::TOO_LONG, text: 1, line: 0 });
    assert_eq!(hifmuneth::tidy_book(&dense(65_536)).unwrap().len(), 65_536);
    assert_eq!(at(&dense(65_537)), Refusal { number: refusal::NO_SPACE, text: 1, line: 0 });
    let (mut long, mut work) = (vec![b'.'; 70_000], vec![7; hifmuneth::WORK_WORDS]);
    assert_eq!(refused(lent::tidy_book(&dense(65_537), &mut long, &mut work)), Refusal { number: refusal::NO_SPACE, text: 1, line: 0 });
    assert!(long.iter().all(|b| *b == b'.'));
}

#[test]
fn a_tidy_book_in_lent_buffers() {
    let (book, mut work) = (b"( node a )\n(label l)\n", vec![7; hifmuneth::WORK_WORDS]);
    let mut short = [b'.'; 18];
    let r = refused(lent::tidy_book(book, &mut short, &mut work));
    assert_eq!(r, Refusal { number: refusal::NO_SPACE, text: 1, line: 0 });
    assert_eq!(r.to_string(), "book: what is to be given does not fit the buffer (refused 14 text 1 line 0)");
    assert_eq!(short, [b'.'; 18]);
    let mut long = [b'.'; 21];
    assert_eq!(lent::tidy_book(book, &mut long, &mut work), Ok(19));
    assert_eq!(&long, b"(label l)\n(node a)\n..");
    assert!(work.iter().all(|w| *w == u32::MAX));
    let mut left = [b'.'; 21];
    assert_eq!(refused(lent::tidy_book(b"(node a", &mut left, &mut work[1..])), Refusal { number: refusal::MEMORY_MISSING, text: 0, line: 0 });
    assert_eq!(left, [b'.'; 21]);
}

#[test]
fn rows_by_their_width() {
    let rows = hifmuneth::list(BOOK, RULES, QUERY, REQUEST, 1024).unwrap();
    assert_eq!(rows, [[2, 1]]);
    let all = b"Match (requestor)-[a:runs]->(h)<-[b:feeds]-(s) Return s";
    assert_eq!(hifmuneth::list(BOOK, RULES, all, REQUEST, 2).unwrap(), [[2], [3]]);
    assert_eq!(refused(hifmuneth::list(BOOK, RULES, all, REQUEST, 1)).number, refusal::NO_SPACE);
    let none = b"Match (requestor)-[a:feeds]->(h) Return h";
    assert!(hifmuneth::list(BOOK, RULES, none, REQUEST, 0).unwrap().is_empty());
}

#[test]
fn a_lamp_for_a_row() {
    let lamp = |query: &[u8]| hifmuneth::lamp(BOOK, RULES, query, REQUEST);
    assert_eq!(lamp(QUERY), Ok(true));
    assert_eq!(lamp(b"Match (requestor)-[a:feeds]->(h) Return h"), Ok(false));
    assert_eq!(lamp(b"Match (requestor) Match (t) Return t"), Err(Refusal { number: refusal::VERTEX_UNTIED, text: 5, line: 0 }));
    assert_eq!(lamp(b"Match (requestor)-[a:feeds]->(h) Return s"), Err(Refusal { number: refusal::NOT_DECLARED, text: 3, line: 1 }));
}

#[test]
fn a_lamp_in_lent_memory() {
    let mut work = vec![7; hifmuneth::WORK_WORDS];
    assert_eq!(refused(lent::list(BOOK, RULES, QUERY, REQUEST, &mut [], &mut work)).number, refusal::NO_SPACE);
    work.fill(7);
    assert_eq!(lent::lamp(BOOK, RULES, QUERY, REQUEST, &mut work), Ok(true));
    assert!(work.iter().all(|w| *w == u32::MAX));
    work.fill(7);
    assert_eq!(lent::lamp(BOOK, RULES, QUERY, REQUEST, &mut work[1..]), Err(Refusal { number: refusal::MEMORY_MISSING, text: 0, line: 0 }));
    assert!(work[0] == 7 && work[1..].iter().all(|w| *w == u32::MAX));
}

#[test]
fn lent_buffers_end_as_promised() {
    let (mut rows, mut work) = (vec![7; 5], vec![7; hifmuneth::WORK_WORDS]);
    let counts = lent::list(BOOK, RULES, QUERY, REQUEST, &mut rows, &mut work).unwrap();
    assert_eq!((counts.rows, counts.width), (1, 2));
    assert_eq!(rows, [2, 1, hifmuneth::NO_NODE, hifmuneth::NO_NODE, hifmuneth::NO_NODE]);
    assert!(work.iter().all(|w| *w == u32::MAX));
    let mut text = *b"untouched";
    assert_eq!(refused(lent::write_query(BOOK, RULES, QUERY, &mut text, &mut work)).number, refusal::NO_SPACE);
    assert_eq!(&text, b"untouched");
}

#[test]
fn a_refusal_in_words() {
    let shown = |r: Refusal| r.to_string();
    assert_eq!(shown(refused(hifmuneth::read_book(b"(label l)\n(node l\n"))), "book, line 2: the grammar is broken (refused 3 text 1 line 2)");
    assert_eq!(shown(refused(hifmuneth::read_book(&[b' '; 65_537]))), "book: the text is too long (refused 1 text 1 line 0)");
    assert_eq!(shown(refused(lent::read_book(BOOK, &mut [0; 9]))), "working memory is missing (refused 15 text 0 line 0)");
    let untied = b"Match (requestor) Match (t) Return t";
    let r = refused(hifmuneth::list(BOOK, RULES, untied, REQUEST, 9));
    assert_eq!((r.number, shown(r)), (refusal::VERTEX_UNTIED, "woven pattern: a vertex hangs on nothing (refused 13 text 5 line 0)".to_string()));
    let odd = Refusal { number: 99, text: 99, line: 1 };
    assert_eq!(shown(odd), "refused (refused 99 text 99 line 1)");
}

/// Every number has its words in the table that people read, and the C header has the same numbers.
#[test]
fn numbers_and_names_agree() {
    let header = include_str!("../../hifmuneth.h");
    let table = include_str!("../../../docs/REFUSALS.md");
    let named = [
        ("TOO_LONG", refusal::TOO_LONG), ("BYTE_NOT_ALLOWED", refusal::BYTE_NOT_ALLOWED), ("GRAMMAR_BROKEN", refusal::GRAMMAR_BROKEN),
        ("NOT_DECLARED", refusal::NOT_DECLARED), ("SECOND_TIME", refusal::SECOND_TIME), ("OTHER_TYPE", refusal::OTHER_TYPE),
        ("LIMIT_PASSED", refusal::LIMIT_PASSED), ("EXCLUDED_FROM_ITSELF", refusal::EXCLUDED_FROM_ITSELF), ("ACTOR_MISSING", refusal::ACTOR_MISSING),
        ("POLICY_MISSING", refusal::POLICY_MISSING), ("NO_REQUESTOR", refusal::NO_REQUESTOR), ("WOVEN_TOO_LARGE", refusal::WOVEN_TOO_LARGE),
        ("VERTEX_UNTIED", refusal::VERTEX_UNTIED), ("NO_SPACE", refusal::NO_SPACE), ("MEMORY_MISSING", refusal::MEMORY_MISSING),
    ];
    for (name, number) in named {
        let line = format!("#define HIFMUNETH_{name} {number} ");
        assert!(header.lines().any(|l| (l.to_string() + " ").starts_with(&line)), "the header lacks {line}");
        assert!(table.contains(&format!("## {number}: ")), "docs/REFUSALS.md lacks {number}");
        let meaning = Refusal { number, text: 0, line: 0 }.meaning();
        assert!(header.contains(&format!("/* {meaning} */")), "the header lacks {meaning}");
    }
}
