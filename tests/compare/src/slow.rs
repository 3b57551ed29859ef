//! Texts that are made to be slow: as long as they may be, and of one kind throughout. Each is read by every reader, its book renamed and made tidy and the
//! lamp asked, which must agree with plain Rust and end within the limit of `timed`.
use crate::cases::Texts;
use crate::crowded;
use crate::timed::{timed, LIMIT};
use hifmuneth::Refusal;
use std::time::Duration;

const BOOK: &str = "(vattr k str)\n(eattr e int)\n(label l)\n(node n)\n";
const RULES: &str = "(category view (actors requestor) (over))\n(policy view \"Match (requestor)-[r:l]->(h) Return h\")\n";
const QUERY: &str = "Match (requestor)-[a:l]->(h) Return h";
const REQUEST: &str = "(request view (id requestor n))\n";

/// A beginning, a piece again and again while the whole has at most so many bytes, an end.
pub fn filled(begin: &str, end: &str, bytes: usize, piece: impl Fn(usize) -> String) -> String {
    let mut out = begin.to_string();
    for i in 0.. {
        let p = piece(i);
        if out.len() + p.len() + end.len() > bytes {
            break;
        }
        out += &p;
    }
    out + end
}

/// Queries of at most so many bytes.
fn queries(bytes: usize) -> Vec<String> {
    let start = "Match (requestor)";
    let fill = |begin: &str, end: &str, piece: &dyn Fn(usize) -> String| filled(begin, end, bytes, piece);
    vec![
        fill(start, " Return v0", &|i| format!("-[e{i}:l]->(v{i})")),
        fill(start, " Return v", &|_| "-[e:l]->(v)".into()),
        fill(start, " Return v", &|i| format!("-[e{i}:l]->(v)")),
        fill(start, " Return v0", &|i| format!(" Match (v{i})")),
        fill(start, " Return requestor", &|_| " Match (requestor)".into()),
        fill("Match (requestor)-[e:l]->(v) Where v <> v", " Return v", &|_| " AND v <> requestor".into()),
        fill("Match (requestor)-[e:l]->(v) Where v.k = 'x'", " Return v", &|i| format!(" AND v.k <> '{i}'")),
        fill("Match (requestor)-[e:l]->(v) Where e.e = 0", " Return v", &|i| format!(" AND e.e <> -{}", i + 1)),
        fill("Match (requestor)-[e:l]->(v) Where w.k = 'x'", " Return v", &|i| format!(" AND w{i}.k = ''")),
        fill("Match (requestor)-[e:l]->(v) Return v", "", &|i| format!(", v{i}")),
        fill("Match (requestor)-[e:l]->(v) Return v", "", &|_| ", v".into()),
        fill(start, " Return v", &|_| " ".into()),
        fill(start, " Return v", &|_| "\n".into()),
        fill("Match (", ") Return v", &|_| "v".into()),
        fill(start, "", &|_| "<-[e:l]-(v)".into()),
        fill("", "", &|_| "-".into()),
        fill("", "", &|_| "'".into()),
    ]
}

/// Names of five bytes that share one slot of the index of names (`chains::slots`), so that each look-up walks all those before it.
fn in_one_slot() -> Vec<String> {
    let digits = b"abcdefghijklmnopqrstuvwxyz0123456789";
    let name = |n: usize| "n".to_string() + &[46_656, 1_296, 36, 1].map(|p| (digits[n / p % 36] as char).to_string()).concat();
    let four = |w: &[u8]| w.iter().rev().fold(0u64, |n, b| n * 256 + *b as u64 % 32);
    let slot = |w: &String| (four(&w.as_bytes()[..4]) * 5 + four(&w.as_bytes()[1..])) % 233;
    let wanted = slot(&name(0));
    (0..36 * 46_656).map(name).filter(|w| slot(w) == wanted).take(2_800).collect()
}

fn rules() -> Vec<String> {
    let policy = |q: &String| format!("(category view (actors requestor) (over))\n(policy view \"{q}\")\n");
    let long = queries(16_384 - policy(&String::new()).len());
    let fill = |begin: &str, end: &str, piece: &dyn Fn(usize) -> String| filled(begin, end, 16_384, piece);
    let mut all: Vec<String> = long.iter().map(|q| policy(&q.replace('\n', " "))).collect();
    all.push(fill("(category view (actors requestor", ") (over))\n", &|i| format!(" a{i}")));
    all.push(fill("(category view (actors requestor", ") (over))\n", &|_| " requestor".into()));
    let shared = in_one_slot();
    all.push(fill("(category view (actors requestor", ") (over))\n", &|i| format!(" {}", shared[i])));
    all.push(fill("(category view (actors requestor) (over", "))\n", &|i| format!(" c{i}")));
    all.push(fill("(category view (actors requestor) (over))\n", "", &|_| "(policy view \"Match (requestor)-[r:l]->(h) Return h\")\n".into()));
    all.push(fill("", "", &|i| format!("(category c{i} (actors requestor) (over))\n")));
    all.push(fill("(category view ", "\n", &|_| "(".into()));
    all.push(fill("(category view (actors requestor) (over))", "\n", &|_| " ".into()));
    all.push(fill("", "", &|_| "\n".into()));
    all
}

/// Names of 24 bytes whose bytes are those of one another in another order, or differ by case only.
fn alike(i: usize) -> String {
    let letters: String = (0..8).map(|bit| if i >> bit & 1 == 1 { "aB" } else { "Ba" }).collect();
    letters + "_______x"
}

fn books() -> Vec<String> {
    let fill = |begin: &str, end: &str, piece: &dyn Fn(usize) -> String| filled(begin, end, 65_536, piece);
    let attributes: String = (0..32).map(|i| format!("(vattr attribute_number_{i} int)\n")).collect();
    let entries: String = (0..32).map(|i| format!(" (attribute_number_{i} -{})", i + 1)).collect();
    let nodes: String = (0..256).map(|i| format!("(node {})\n", alike(i))).collect();
    let cased: String = (0..256).map(|i| format!("(node {})\n", (0..8).map(|b| if i >> b & 1 == 1 { 'a' } else { 'A' }).collect::<String>())).collect();
    let labels: String = (0..32).map(|i| format!("(label label_number_{i})\n")).collect();
    let from_one: String = (0..1024).map(|i| format!("(rel label_number_{} {} {})\n", i / 256, alike(0), alike(i % 256))).collect();
    vec![
        fill(&attributes, "", &|i| format!("(node n{i}{entries})\n")),
        fill(&attributes, "", &|i| format!("(node n{i} (attribute_number_31 1))\n")),
        fill(&(attributes.clone() + "(node n"), ")\n", &|_| " (attribute_number_31 1)".into()),
        fill(&(nodes.clone() + &labels + &from_one), "", &|_| format!("(rel label_number_3 {} {})\n", alike(0), alike(255))),
        fill(&(nodes.clone() + &labels), "", &|i| format!("(rel label_number_31 {} {})\n", alike(i / 256 % 256), alike(i % 256))),
        fill(&(cased + "(label l)\n"), "", &|i| format!("(rel l aaaaaaaa {})\n", if i % 2 == 0 { "AAAAAAAA" } else { "AaAaAaAa" })),
        fill("(node n (k ", ")\n", &|_| "(".into()),
        fill("(node n (k '", "'))\n", &|_| "x".into()),
        fill("(node n (k ", "))\n", &|_| "9".into()),
        fill("(node ", ")\n", &|_| "n".into()),
        fill("(node n", ")\n", &|_| " ".into()),
        fill("", "", &|i| format!("(node n{i})\n")),
        fill("", "", &|_| "\n".into()),
        fill("", "\x7f", &|_| "(label l)".into()),
    ]
}

/// The first or the later name of one of 128 pairs that differ only by case. The digit 0 and the letter p have the same remainder by 32, so
/// that all these names share one slot of the index of names, and so do all their new ones.
fn of_pair(i: usize, later: bool) -> String {
    let end: String = (0..7).map(|bit| if i >> bit & 1 == 1 { 'p' } else { '0' }).collect();
    format!("{}ast_tiltmet_{end}", if later { 'M' } else { 'm' })
}

/// Books that keep the renaming busy: full ones with pairs, renamed and refused at their last name.
fn stored_books() -> Vec<String> {
    let nodes = |pairs: usize| (0..pairs).map(|i| format!("(node {})\n(node {})\n", of_pair(i, false), of_pair(i, true))).collect::<String>();
    let rels: String = (0..1024).map(|i| format!("(rel l {} {})\n", of_pair(i % 128, true), of_pair((i * 7 + i / 128) % 128, true))).collect();
    let full = nodes(128) + "(label l)\n" + &rels;
    let growth = 2 * 128 + 4 * 1024;
    let too_long = full.clone() + "(label m)" + &" ".repeat(65_536 + 1 - growth - full.len() - 10) + "\n";
    let taken = nodes(127) + &format!("(node {}_B)\n", of_pair(126, false));
    let cases = |i: usize| (0..8).map(|bit| if i >> bit & 1 == 1 { 'p' } else { 'P' }).collect::<String>();
    let alike: String = (0..256).map(|i| format!("(node mast_tilt_{})\n", cases(i))).collect();
    vec![full, too_long, taken, alike]
}

/// A full book in which n has one relationship.
fn full_book() -> String {
    let name = |i: usize| format!("mast_tiltmet_{:03}", i % 255);
    let nodes: String = (0..255).map(|i| format!("(node {})\n", name(i))).collect();
    let rels: String = (0..1023).map(|i| format!("(rel l {} {})\n", name(i), name(i * 7 + i / 255))).collect();
    BOOK.to_string() + &nodes + &format!("(rel l n {})\n", name(254)) + &rels
}

/// Rules of seven long policies that are all enforced, and the same query: 48 exclusions in their woven pattern, and what the last policy adds to them.
fn woven(last: &str) -> Texts {
    let text = |more: &str| filled("Match (requestor)-[e:l]->(v) Where v <> requestor", &format!("{more} Return v"), 2_048, &|i| match i {
        0..=4 => " AND v <> requestor".into(),
        _ => " Match (requestor)".into(),
    });
    let category = |i: usize| {
        let (over, more) = (if i == 0 { String::new() } else { format!(" c{}", i - 1) }, if i == 6 { last } else { "" });
        format!("(category c{i} (actors requestor) (over{over}))\n(policy c{i} \"{}\")\n", text(more))
    };
    let rules: String = (0..7).map(category).collect();
    Texts { book: full_book().into(), rules: rules.into(), query: text("").into(), request: "(request c6 (id requestor n))\n".into() }
}

/// Texts that differ in the last of forty bytes, on nodes and on relationships, and as many conditions on their order as a woven pattern may have.
fn in_order() -> Texts {
    let value = |last: u8| format!("'{}{}'", "x".repeat(39), last as char);
    let named = |i: usize| format!("mast_tiltmet_{i:03}");
    let nodes: String = (0..255).map(|i| format!("(node {} (k {}))\n", named(i), value(b'b' + i as u8 % 24))).collect();
    let rels: String = (0..255).map(|i| format!("(rel l n {} (w {}))\n", named(i), value(b'b' + i as u8 % 24))).collect();
    let conditions = |owner: &str| format!("{owner} >= {} AND {owner} <= {}", value(b'b'), value(b'y'));
    let all = [conditions("v.k"), conditions("e.w"), conditions("v.k"), conditions("e.w")].join(" AND ");
    let text = format!("Match (requestor)-[e:l]->(v) Where {all} AND {all} Return v");
    let category = |i: usize| {
        let over = if i == 0 { String::new() } else { format!(" c{}", i - 1) };
        format!("(category c{i} (actors requestor v) (over{over}))\n(policy c{i} \"{text}\")\n")
    };
    let rules: String = (0..2).map(category).collect();
    let book = "(vattr k str)\n(eattr w str)\n(label l)\n(node n)\n".to_string() + &nodes + &rels;
    Texts { book: book.into(), rules: rules.into(), query: text.into(), request: "(request c1 (id requestor n))\n".into() }
}

fn requests() -> Vec<String> {
    let fill = |begin: &str, end: &str, piece: &dyn Fn(usize) -> String| filled(begin, end, 2_048, piece);
    vec![
        fill("(request view", ")\n", &|_| " (id requestor n)".into()),
        fill("(request view", ")\n", &|i| format!(" (id a{i} n{i})")),
        fill("(request view (id requestor n)", ")\n", &|_| " ".into()),
        fill("(request view ", "\n", &|_| "(".into()),
    ]
}

fn texts() -> Vec<Texts> {
    let set = |b: &str, r: &str, q: &str, x: &str| Texts { book: b.into(), rules: r.into(), query: q.into(), request: x.into() };
    let mut all: Vec<Texts> = books().iter().chain(&stored_books()).chain(&crowded::books()).map(|b| set(b, RULES, QUERY, REQUEST)).collect();
    all.extend(rules().iter().map(|r| set(BOOK, r, QUERY, REQUEST)));
    all.extend(queries(2_048).iter().map(|q| set(BOOK, RULES, q, REQUEST)));
    all.extend(requests().iter().map(|x| set(BOOK, RULES, QUERY, x)));
    // accepted, with one row; then a vertex that hangs on nothing; then an exclusion too many
    all.extend(["", " Match (t)", " Match (requestor) Where v <> requestor"].map(woven));
    all.push(in_order());
    all
}

/// The refusal of each reader, and how long it took; the least of three, since the first call of all meets cold memory.
fn read(t: &Texts) -> Vec<(&'static str, Option<Refusal>, Duration)> {
    let least = |name, call: &dyn Fn() -> Option<Refusal>| {
        let runs: Vec<_> = (0..3).map(|_| timed(call)).collect();
        (name, runs[0].0, runs.iter().map(|r| r.1).min().unwrap())
    };
    vec![
        least("book", &|| hifmuneth::read_book(&t.book).err()),
        least("names", &|| hifmuneth::node_names(&t.book).err()),
        least("rules", &|| hifmuneth::read_rules(&t.book, &t.rules).err()),
        least("query", &|| hifmuneth::read_query(&t.book, &t.query).err()),
        least("request", &|| hifmuneth::read_request(&t.book, &t.rules, &t.request).err()),
        least("write", &|| hifmuneth::write_query(&t.book, &t.rules, &t.query).err()),
        least("rename", &|| hifmuneth::rename_book(&t.book).err()),
        least("tidy", &|| hifmuneth::tidy_book(&t.book).err()),
        least("lamp", &|| hifmuneth::lamp(&t.book, &t.rules, &t.query, &t.request).err()),
    ]
}

fn refusal(r: plain::text::Refusal) -> Refusal {
    Refusal { number: r.number, text: r.text, line: r.line }
}

/// What plain Rust says of the texts that a reader reads, of those that are long, or of a book that is written.
fn expected(t: &Texts, name: &str) -> Option<Option<Refusal>> {
    let book = plain::book::read_book(&t.book);
    match name {
        "book" | "names" => Some(book.err().map(refusal)),
        "rules" => Some(book.and_then(|b| plain::rules::read_rules(&b, &t.rules)).err().map(refusal)),
        "query" => Some(book.and_then(|b| plain::query::read_query(&b, &t.query)).err().map(refusal)),
        "rename" => Some(plain::rename::renamed(&t.book).err().map(refusal)),
        "tidy" => Some(plain::tidy::tidied(&t.book).err().map(refusal)),
        _ => None,
    }
}

pub fn run() -> bool {
    let (mut fine, mut slowest, all) = (true, Duration::ZERO, texts());
    for (i, t) in all.iter().enumerate() {
        if hifmuneth::rename_book(&t.book).ok() != plain::rename::renamed(&t.book).ok() {
            println!("slow text {i}: the renamed book differs");
            fine = false;
        }
        if hifmuneth::tidy_book(&t.book).ok() != plain::tidy::tidied(&t.book).ok() {
            println!("slow text {i}: the tidy book differs");
            fine = false;
        }
        let lamp = plain::list::lamp(&t.book, &t.rules, &t.query, &t.request, hifmuneth::WORK_WORDS).map_err(refusal);
        if hifmuneth::lamp(&t.book, &t.rules, &t.query, &t.request) != lamp {
            println!("slow text {i}: the lamp differs, {lamp:?} wanted");
            fine = false;
        }
        for (name, refusal, time) in read(t) {
            slowest = slowest.max(time);
            if time > LIMIT {
                println!("slow text {i}: {name} took {time:?}");
                fine = false;
            }
            if expected(t, name).is_some_and(|e| e != refusal) {
                println!("slow text {i}: {name} differs, {refusal:?}");
                fine = false;
            }
        }
    }
    println!("{} texts that are made to be slow: the slowest call took {slowest:?}", all.len());
    fine
}
