//! Texts at a limit of document 01, or one past it; some of their books have node names that differ by case.
use crate::cases::Texts;
use crate::random::Random;
use plain::{book, query, rules};

const LENGTHS: [usize; 4] = [65_536, 16_384, 2_048, 2_048];

fn text(texts: &mut Texts, i: usize) -> &mut Vec<u8> {
    match i {
        0 => &mut texts.book,
        1 => &mut texts.rules,
        2 => &mut texts.query,
        _ => &mut texts.request,
    }
}

/// A text of exactly so many bytes, by spaces before its last line feed, or at its end.
fn long(r: &mut Random, texts: &mut Texts, over: usize) {
    let i = r.below(4);
    let t = text(texts, i);
    let wanted = LENGTHS[i] + over;
    let at = if t.last() == Some(&b'\n') { t.len() - 1 } else { t.len() };
    let spaces = vec![b' '; wanted.saturating_sub(t.len())];
    t.splice(at..at, spaces);
}

fn append(text: &mut Vec<u8>, lines: impl IntoIterator<Item = String>) {
    for l in lines {
        text.extend(l.bytes());
        text.push(b'\n');
    }
}

fn declarations(r: &mut Random, texts: &mut Texts, over: usize) {
    let Ok(b) = book::read_book(&texts.book) else { return };
    let (have, form): (usize, fn(usize) -> String) = match r.below(3) {
        0 => (b.labels.len(), |i| format!("(label z{i})")),
        1 => (b.vattrs.len(), |i| format!("(vattr z{i} int)")),
        _ => (b.eattrs.len(), |i| format!("(eattr z{i} bool)")),
    };
    append(&mut texts.book, (have..32 + over).map(form));
}

/// The name of a node by its number; in pairs every other one is the one before but for case.
fn node(pairs: bool, i: usize) -> String {
    if pairs && i % 2 == 1 { format!("Z{}", i - 1) } else { format!("z{i}") }
}

fn nodes(r: &mut Random, texts: &mut Texts, over: usize) {
    let Ok(b) = book::read_book(&texts.book) else { return };
    let pairs = r.percent(50);
    append(&mut texts.book, (b.nodes.len()..256 + over).map(|i| format!("(node {})", node(pairs, i))));
}

fn relationships(r: &mut Random, texts: &mut Texts, over: usize) {
    let Ok(b) = book::read_book(&texts.book) else { return };
    let pairs = r.percent(50);
    append(&mut texts.book, (0..33).map(|i| format!("(node {})", node(pairs, i))));
    append(&mut texts.book, ["(label zz)".to_string()]);
    append(&mut texts.book, (b.rels.len()..1024 + over).map(|i| format!("(rel zz {} {})", node(pairs, i / 33), node(pairs, i % 33))));
}

fn entries(texts: &mut Texts, over: usize) {
    let Ok(b) = book::read_book(&texts.book) else { return };
    append(&mut texts.book, (0..12).map(|i| format!("(vattr z{i} bool)")));
    let mut left = 2048 + over - b.entries();
    let mut i = 0;
    while left > 0 {
        let n = left.min(12);
        let given: String = (0..n).map(|a| format!(" (z{a} true)")).collect();
        append(&mut texts.book, [format!("(node z{i}{given})")]);
        left -= n;
        i += 1;
    }
}

/// A query with as many of one kind as fit, or one more; the vertices stay tied to requestor.
fn big_query(r: &mut Random, texts: &mut Texts, over: usize) {
    let Ok(b) = book::read_book(&texts.book) else { return };
    let label = String::from_utf8(b.labels[0].clone()).unwrap();
    let edge = |i: usize, to: &str| format!("Match (requestor)-[z{i}:{label}]->({to}) ");
    let out = match r.below(5) {
        0 => (0..7 + over).map(|i| edge(i, &format!("x{i}"))).collect::<String>() + "Return x0",
        1 => (0..16 + over).map(|i| edge(i, if i % 2 == 0 { "requestor" } else { "x" })).collect::<String>() + "Return x",
        2 => edge(0, "x") + "Where " + &vec!["x <> requestor"; 16 + over].join(" AND ") + " Return x",
        3 if !b.vattrs.is_empty() => {
            let (name, value) = (String::from_utf8(b.vattrs[0].0.clone()).unwrap(), ["0", "'a'", "true"][b.vattrs[0].1 as usize]);
            edge(0, "x") + "Where " + &vec![format!("x.{name} <> {value}"); 16 + over].join(" AND ") + " Return x"
        }
        _ => (0..4 + over).map(|i| edge(i, &format!("x{i}"))).collect::<String>() + "Return " + &(0..4 + over).map(|i| format!("x{i}")).collect::<Vec<_>>().join(", "),
    };
    texts.query = out.into_bytes();
}

fn big_rules(r: &mut Random, texts: &mut Texts, over: usize) {
    let known = book::read_book(&texts.book).and_then(|b| rules::read_rules(&b, &texts.rules));
    let Ok(known) = known else { return };
    let lowest = &known.categories[0];
    let actors: Vec<String> = lowest.actors.iter().map(|a| String::from_utf8(a.clone()).unwrap()).collect();
    let name = String::from_utf8(lowest.name.clone()).unwrap();
    match r.below(3) {
        0 => append(&mut texts.rules, (known.categories.len()..16 + over).map(|i| format!("(category z{i} (actors {}) (over {name}))", actors.join(" ")))),
        1 => {
            let more: String = (actors.len()..8 + over).map(|i| format!(" z{i}")).collect();
            append(&mut texts.rules, [format!("(category zz (actors {}{more}) (over {name}))", actors.join(" "))]);
        }
        _ => {
            let policy = format!("{:<width$}", "Match (requestor) Return requestor", width = 2048 + over);
            append(&mut texts.rules, ["(category zz (actors requestor) (over))".to_string(), format!("(policy zz \"{policy}\")")]);
        }
    }
}

/// A woven pattern with as many of one kind as fit, or one more.
fn big_woven(r: &mut Random, texts: &mut Texts, over: usize) {
    let Ok(b) = book::read_book(&texts.book) else { return };
    let label = String::from_utf8(b.labels[0].clone()).unwrap();
    let node = String::from_utf8(b.nodes[0].name.clone()).unwrap();
    let kind = r.below(3);
    let part = |n: usize| {
        let edges = |n: usize| (0..n).map(|i| format!("Match (requestor)-[z{i}:{label}]->(x{i}) ")).collect::<String>();
        match kind {
            0 => edges(n) + "Return requestor",
            1 => (0..n).map(|i| format!("Match (requestor)-[z{i}:{label}]->(requestor) ")).collect::<String>() + "Match (requestor) Return requestor",
            _ => edges(1) + "Where " + &vec!["x0 <> requestor"; n].join(" AND ") + " Return x0",
        }
    };
    let counts = if kind == 0 { [7, 7, 7, 2 + over] } else { [16, 16, 15 + over, 1] };
    let mut rules = Vec::new();
    for i in 0..3 {
        let lower: String = if i == 0 { String::new() } else { format!(" w{}", i - 1) };
        append(&mut rules, [format!("(category w{i} (actors requestor) (over{lower}))"), format!("(policy w{i} \"{}\")", part(counts[i + 1]))]);
    }
    texts.rules = rules;
    texts.query = part(counts[0]).into_bytes();
    texts.request = format!("(request w2 (id requestor {node}))\n").into_bytes();
}

/// A query whose written form has about 2,048 bytes.
fn long_written(r: &mut Random, texts: &mut Texts) {
    let Ok(b) = book::read_book(&texts.book) else { return };
    let label = String::from_utf8(b.labels[0].clone()).unwrap();
    let name = |c: &str, i: usize| format!("{c}{:0>23}", i);
    let mut q = String::new();
    let edges = r.from_to(12, 16);
    for i in 0..edges {
        q += &format!("Match ({})-[{}:{label}]->({}) ", name("v", 0), name("e", i), name("v", i % 8));
    }
    if q.len() + 40 <= 2048 {
        texts.query = (q + "Return " + &name("v", 0)).into_bytes();
        debug_assert!(query::read_query(&b, &texts.query).is_ok());
    }
}

pub fn at_limit(r: &mut Random, texts: &mut Texts) {
    let over = r.below(2);
    match r.below(14) {
        0 => long(r, texts, over),
        1 => declarations(r, texts, over),
        2 => nodes(r, texts, over),
        3 => relationships(r, texts, over),
        4 => entries(texts, over),
        5..=7 => big_query(r, texts, over),
        8..=10 => big_rules(r, texts, over),
        11 | 12 => big_woven(r, texts, over),
        _ => long_written(r, texts),
    }
}
