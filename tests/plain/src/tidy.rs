//! The tidy book: its declarations by kind, each kind in its old order, attributes in the order of their declarations, one space between items, no other.
use crate::book::*;
use crate::query::value_text;
use crate::text::*;

/// The tidy book: 15, the book's own refusals, then 14 if it passes so many bytes or those that a book may have.
pub fn tidy_book(book: &[u8], room: usize, work: usize) -> Result<Vec<u8>, Refusal> {
    if work < 16_384 {
        return refuse(15, 0, 0);
    }
    let tidy = tidied(book)?;
    if tidy.len() > room { refuse(14, 1, 0) } else { Ok(tidy) }
}

/// The tidy book, whatever its buffer.
pub fn tidied(book: &[u8]) -> Result<Vec<u8>, Refusal> {
    let text = tidy_text(&read_book(book)?);
    if text.len() > MOST_BOOK_BYTES { refuse(14, 1, 0) } else { Ok(text) }
}

/// The tidy text of what a book holds, however long.
pub fn tidy_text(b: &Book) -> Vec<u8> {
    let mut lines: Vec<Vec<u8>> = Vec::new();
    lines.extend(b.vattrs.iter().map(|a| attribute("vattr", a)));
    lines.extend(b.eattrs.iter().map(|a| attribute("eattr", a)));
    lines.extend(b.labels.iter().map(|l| list(&[b"label".to_vec(), l.clone()])));
    lines.extend(b.nodes.iter().map(|n| list(&[vec![b"node".to_vec(), n.name.clone()], entries(&b.vattrs, &n.entries)].concat())));
    lines.extend(b.rels.iter().map(|r| {
        let ends = [r.from, r.to].map(|n| b.nodes[n].name.clone());
        list(&[vec![b"rel".to_vec(), b.labels[r.label].clone()], ends.to_vec(), entries(&b.eattrs, &r.entries)].concat())
    }));
    lines.iter().flat_map(|l| [l.as_slice(), b"\n"].concat()).collect()
}

/// Items in brackets, one space between two.
fn list(items: &[Vec<u8>]) -> Vec<u8> {
    [b"(", items.join(&b' ').as_slice(), b")"].concat()
}

fn attribute(head: &str, (name, kind): &(Vec<u8>, Kind)) -> Vec<u8> {
    list(&[head.as_bytes().to_vec(), name.clone(), kind_text(*kind).as_bytes().to_vec()])
}

pub fn kind_text(kind: Kind) -> &'static str {
    match kind {
        Kind::Int => "int",
        Kind::Str => "str",
        Kind::Bool => "bool",
    }
}

/// Entries in the order in which their attributes are declared.
fn entries(attrs: &[(Vec<u8>, Kind)], entries: &[(usize, Value)]) -> Vec<Vec<u8>> {
    let entry = |a: usize| entries.iter().find(|e| e.0 == a).map(|e| list(&[attrs[a].0.clone(), value_text(&e.1)]));
    (0..attrs.len()).filter_map(entry).collect()
}
