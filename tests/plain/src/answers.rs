//! What the programs print and what files of vectors say: the answer of each service as a text.
use crate::sets::Set;
use crate::{book::*, list, query::*, rename::rename_book, rules::*, text::*, tidy::tidy_book};

/// A number of a call, or what it is where it was not given.
pub fn number(numbers: &[usize], at: usize, otherwise: usize) -> usize {
    numbers.get(at).copied().unwrap_or(otherwise)
}

/// Rows as the list program prints them.
pub fn rows_text(names: &[Vec<u8>], rows: &[Vec<usize>]) -> Vec<u8> {
    let mut out = format!("(rows {})\n", rows.len()).into_bytes();
    for row in rows {
        let shown: Vec<u8> = row.iter().flat_map(|n| [b" ", names[*n].as_slice()].concat()).collect();
        out.extend([b"(row", shown.as_slice(), b")\n"].concat());
    }
    out
}

/// The lamp's answer as its program prints it.
pub fn lamp_text(yes: bool) -> Vec<u8> {
    if yes { b"(lamp yes)\n".to_vec() } else { b"(lamp no)\n".to_vec() }
}

fn request_text(x: &Request) -> Vec<u8> {
    let ids: Vec<u8> = x.identities.iter().flat_map(|(a, n)| [b" (", a.as_slice(), format!(" {n})").as_bytes()].concat()).collect();
    [format!("(request {}", x.category).as_bytes(), &ids, b")\n"].concat()
}

/// Refusal 15 first.
fn with_work<T>(words: usize, answer: impl FnOnce() -> Result<T, Refusal>) -> Result<T, Refusal> {
    if words < 16_384 { refuse(15, 0, 0) } else { answer() }
}

/// The answer of plain Rust to a command of the vectors, with the numbers that its file's name gives.
pub fn answer(t: &Set, command: &str, numbers: &[usize]) -> Result<Vec<u8>, Refusal> {
    let book = || read_book(&t.book);
    let rules = || book().and_then(|b| read_rules(&b, &t.rules));
    let query = || book().and_then(|b| read_query(&b, &t.query));
    let at = |i: usize, otherwise: usize| number(numbers, i, otherwise);
    let work = |i: usize| at(i, 16_384);
    match command {
        "book" => with_work(work(0), || book().map(|b| format!("(book {} {} {})\n", b.nodes.len(), b.rels.len(), b.entries()).into_bytes())),
        "rules" => with_work(work(0), || rules().map(|r| format!("(rules {} {})\n", r.categories.len(), r.policies.len()).into_bytes())),
        "query" => with_work(work(0), || query().map(|q| [shown(&q), b"\n".to_vec()].concat())),
        "request" => with_work(work(0), || rules().and_then(|r| read_request(&book()?, &r, &t.request)).map(|x| request_text(&x))),
        "write" => with_work(work(1), || {
            rules()?;
            let text = written(&book()?, &query()?);
            if text.len() > at(0, 2048).min(2048) { refuse(14, 3, 1) } else { Ok(text) }
        }),
        "rename" => rename_book(&t.book, at(0, MOST_BOOK_BYTES), work(1)),
        "tidy" => tidy_book(&t.book, at(0, MOST_BOOK_BYTES), work(1)),
        "list" => list::list(&t.book, &t.rules, &t.query, &t.request, at(0, 16_384), work(1), false).map(|rows| {
            let names: Vec<Vec<u8>> = book().unwrap().nodes.into_iter().map(|n| n.name).collect();
            rows_text(&names, &rows)
        }),
        "lamp" => list::lamp(&t.book, &t.rules, &t.query, &t.request, work(0)).map(lamp_text),
        _ => panic!("no such command: {command}"),
    }
}
