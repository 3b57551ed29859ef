//! The renaming of a stored book: of node names that are equal case aside, each later one gets `_b` at its end wherever it names a node.
use crate::book::*;
use crate::text::*;

const MOST_NAME_BYTES: usize = 24;

/// The new book: 15, the book's own refusals by the old rules, 5, then 14 if it passes so many bytes.
pub fn rename_book(book: &[u8], room: usize, work: usize) -> Result<Vec<u8>, Refusal> {
    if work < 16_384 {
        return refuse(15, 0, 0);
    }
    let new = renamed(book)?;
    if new.len() > room { refuse(14, 1, 0) } else { Ok(new) }
}

/// The new book, whatever its buffer: name after name in the order of their lines, each with all its places at once.
pub fn renamed(book: &[u8]) -> Result<Vec<u8>, Refusal> {
    read_book_by(book, same)?;
    let mut text: Vec<Vec<u8>> = book.split_inclusive(|b| *b == b'\n').map(|l| l.to_vec()).collect();
    let nodes: Vec<(u32, Vec<u8>)> = text.iter().enumerate().filter_map(|(i, l)| Some((i as u32 + 1, declared(l)?))).collect();
    let mut given: Vec<Vec<u8>> = Vec::new();
    for (i, (line, name)) in nodes.iter().enumerate() {
        if !nodes[..i].iter().any(|(_, earlier)| same_but_case(earlier, name)) {
            continue;
        }
        let new = [name.as_slice(), b"_b"].concat();
        let taken = nodes.iter().map(|n| &n.1).chain(&given).any(|n| same_but_case(n, &new));
        text.iter_mut().for_each(|l| put(l, name, &new));
        let length: usize = text.iter().map(|l| l.len()).sum();
        if taken || new.len() > MOST_NAME_BYTES || length > MOST_BOOK_BYTES {
            return refuse(5, 1, *line);
        }
        given.push(new);
    }
    Ok(text.concat())
}

/// Where the pieces of a line stand that have spaces or brackets around them.
fn pieces(line: &[u8]) -> Vec<(usize, usize)> {
    let apart = |b: u8| b" ()\n".contains(&b);
    let mut out: Vec<(usize, usize)> = Vec::new();
    for (i, b) in line.iter().enumerate() {
        match out.last_mut() {
            _ if apart(*b) => {}
            Some(p) if p.1 == i => p.1 = i + 1,
            _ => out.push((i, i + 1)),
        }
    }
    out
}

/// Which pieces of an accepted line name a node: the name of `(node NAME`, the ends of `(rel LABEL FROM TO`.
fn naming(line: &[u8]) -> Vec<(usize, usize)> {
    let all = pieces(line);
    let of = |places: &[usize]| places.iter().map(|i| all[*i]).collect();
    match &line[all[0].0..all[0].1] {
        b"node" => of(&[1]),
        b"rel" => of(&[2, 3]),
        _ => vec![],
    }
}

/// The node that an accepted line declares.
fn declared(line: &[u8]) -> Option<Vec<u8>> {
    match naming(line)[..] {
        [(from, to)] => Some(line[from..to].to_vec()),
        _ => None,
    }
}

/// A line with a new name wherever the old one names a node, from the right, so that places stay right.
fn put(line: &mut Vec<u8>, name: &[u8], new: &[u8]) {
    for (from, to) in naming(line).into_iter().rev() {
        if line[from..to] == *name {
            line.splice(from..to, new.iter().copied());
        }
    }
}
