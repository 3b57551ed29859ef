//! The book, read plainly.
use crate::text::*;

pub const MOST_BOOK_BYTES: usize = 65_536;

#[derive(Clone, Debug)]
pub struct Node {
    pub name: Vec<u8>,
    pub entries: Vec<(usize, Value)>,
}

#[derive(Clone, Debug)]
pub struct Rel {
    pub label: usize,
    pub from: usize,
    pub to: usize,
    pub entries: Vec<(usize, Value)>,
}

#[derive(Clone, Debug, Default)]
pub struct Book {
    pub vattrs: Vec<(Vec<u8>, Kind)>,
    pub eattrs: Vec<(Vec<u8>, Kind)>,
    pub labels: Vec<Vec<u8>>,
    pub nodes: Vec<Node>,
    pub rels: Vec<Rel>,
}

impl Default for Kind {
    fn default() -> Self {
        Kind::Int
    }
}

pub fn find_attr(attrs: &[(Vec<u8>, Kind)], name: &[u8]) -> Option<usize> {
    attrs.iter().position(|(n, _)| n == name)
}

impl Book {
    pub fn node(&self, name: &[u8]) -> Option<usize> {
        self.nodes.iter().position(|n| n.name == name)
    }

    pub fn label(&self, name: &[u8]) -> Option<usize> {
        self.labels.iter().position(|n| n == name)
    }

    pub fn entries(&self) -> usize {
        self.nodes.iter().map(|n| n.entries.len()).sum::<usize>() + self.rels.iter().map(|r| r.entries.len()).sum::<usize>()
    }
}

fn entries_of(items: &[Item]) -> Option<Vec<(Vec<u8>, Value)>> {
    items
        .iter()
        .map(|i| match as_list(i)? {
            [a, v] => Some((as_name(a)?, as_value(v)?)),
            _ => None,
        })
        .collect()
}

fn kind_of(item: &Item) -> Option<Kind> {
    match as_word(item)? {
        b"int" => Some(Kind::Int),
        b"str" => Some(Kind::Str),
        b"bool" => Some(Kind::Bool),
        _ => None,
    }
}

/// The faults of entries among declared attributes: (4, 5, 6), and the entries by number where there is none.
fn check_entries(attrs: &[(Vec<u8>, Kind)], entries: &[(Vec<u8>, Value)]) -> (bool, bool, bool, Vec<(usize, Value)>) {
    let numbers: Vec<Option<usize>> = entries.iter().map(|(a, _)| find_attr(attrs, a)).collect();
    let undeclared = numbers.iter().any(|n| n.is_none());
    let repeated = twice(&entries.iter().map(|(a, _)| a).collect::<Vec<_>>());
    let mistyped = entries.iter().zip(&numbers).any(|((_, v), n)| n.map_or(true, |n| attrs[n].1 != v.kind()));
    let known = entries.iter().zip(&numbers).filter_map(|((_, v), n)| n.map(|n| (n, v.clone()))).collect();
    (undeclared, repeated, mistyped, known)
}

fn lowest(tests: &[(u32, bool)]) -> Result<(), u32> {
    match tests.iter().find(|t| t.1) {
        Some(t) => Err(t.0),
        None => Ok(()),
    }
}

fn declare(attrs: &mut Vec<(Vec<u8>, Kind)>, name: &Item, kind: &Item) -> Result<(), u32> {
    let (name, kind) = (as_name(name).ok_or(3u32)?, kind_of(kind).ok_or(3u32)?);
    lowest(&[(5, find_attr(attrs, &name).is_some()), (7, attrs.len() >= 32)])?;
    attrs.push((name, kind));
    Ok(())
}

/// Whether two node names are taken for the same.
pub type Alike = fn(&[u8], &[u8]) -> bool;

/// The rule of books: case aside.
pub fn same_but_case(a: &[u8], b: &[u8]) -> bool {
    a.eq_ignore_ascii_case(b)
}

/// The rule before it, by which stored books are read for their renaming: the very name.
pub fn same(a: &[u8], b: &[u8]) -> bool {
    a == b
}

fn add_line(book: &mut Book, items: &[Item], alike: Alike) -> Result<(), u32> {
    let head = items.first().and_then(as_word).ok_or(3u32)?;
    match (head, &items[1..]) {
        (b"vattr", [n, k]) => declare(&mut book.vattrs, n, k),
        (b"eattr", [n, k]) => declare(&mut book.eattrs, n, k),
        (b"label", [n]) => {
            let name = as_name(n).ok_or(3u32)?;
            lowest(&[(5, book.labels.contains(&name)), (7, book.labels.len() >= 32)])?;
            book.labels.push(name);
            Ok(())
        }
        (b"node", [n, rest @ ..]) => {
            let name = as_name(n).ok_or(3u32)?;
            let entries = entries_of(rest).ok_or(3u32)?;
            let (undeclared, repeated, mistyped, known) = check_entries(&book.vattrs, &entries);
            let second = book.nodes.iter().any(|n| alike(&n.name, &name));
            lowest(&[
                (4, undeclared),
                (5, second || repeated),
                (6, mistyped),
                (7, book.nodes.len() >= 256 || book.entries() + entries.len() > 2048),
            ])?;
            book.nodes.push(Node { name, entries: known });
            Ok(())
        }
        (b"rel", [l, x, y, rest @ ..]) => {
            let (l, x, y) = (as_name(l).ok_or(3u32)?, as_name(x).ok_or(3u32)?, as_name(y).ok_or(3u32)?);
            let entries = entries_of(rest).ok_or(3u32)?;
            let (label, from, to) = (book.label(&l), book.node(&x), book.node(&y));
            let (undeclared, repeated, mistyped, known) = check_entries(&book.eattrs, &entries);
            let there = book.rels.iter().any(|r| Some(r.label) == label && Some(r.from) == from && Some(r.to) == to);
            lowest(&[
                (4, label.is_none() || from.is_none() || to.is_none() || undeclared),
                (5, there || repeated),
                (6, mistyped),
                (7, book.rels.len() >= 1024 || book.entries() + entries.len() > 2048),
            ])?;
            book.rels.push(Rel { label: label.unwrap(), from: from.unwrap(), to: to.unwrap(), entries: known });
            Ok(())
        }
        _ => Err(3),
    }
}

pub fn read_book(bytes: &[u8]) -> Result<Book, Refusal> {
    read_book_by(bytes, same_but_case)
}

pub fn read_book_by(bytes: &[u8], alike: Alike) -> Result<Book, Refusal> {
    check_bytes(bytes, MOST_BOOK_BYTES, 1, false)?;
    let mut book = Book::default();
    for (i, (line, ended)) in lines(bytes).into_iter().enumerate() {
        let done = form(line, ended).ok_or(3).and_then(|items| add_line(&mut book, &items, alike));
        if let Err(number) = done {
            return refuse(number, 1, i as u32 + 1);
        }
    }
    Ok(book)
}
