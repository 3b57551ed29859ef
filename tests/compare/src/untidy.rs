//! Books as partners send them: lines of mixed kinds, attributes in any order, any spacing; and books about as long as a tidy book may be.
use crate::random::Random;
use crate::world::{value, INT, STR};
use plain::book::{read_book, read_book_by, same, Book, Node, Rel, MOST_BOOK_BYTES};
use plain::query::value_text;
use plain::text::{Kind, Value};
use plain::tidy::{kind_text, tidied, tidy_text};

/// How the pieces of a line are spaced: as a tidy book's, or with at most so many spaces between two, none where none is needed.
#[derive(Clone, Copy)]
enum Spacing {
    Tidy,
    AtMost(usize),
}

/// How a book is written: whether lines of all kinds are mixed, whether attributes come in any order, and how it is spaced.
#[derive(Clone, Copy)]
struct Style {
    mixed_kinds: bool,
    any_order: bool,
    spacing: Spacing,
}

fn style(r: &mut Random) -> Style {
    let spacing = *r.one(&[Spacing::Tidy, Spacing::AtMost(0), Spacing::AtMost(1), Spacing::AtMost(1), Spacing::AtMost(2), Spacing::AtMost(6)]);
    Style { mixed_kinds: r.percent(70), any_order: r.percent(70), spacing }
}

/// A style with as few bytes as may be.
fn dense(s: Style) -> Style {
    Style { spacing: Spacing::AtMost(0), ..s }
}

/// A line as its pieces, brackets among them, and how many lines of each kind (vattr, eattr, label, node, rel) must stand above it.
struct Line {
    pieces: Vec<Vec<u8>>,
    needs: [usize; 5],
}

fn line(words: &[&[u8]], entries: Vec<Vec<u8>>, needs: [usize; 5]) -> Line {
    let words: Vec<Vec<u8>> = words.iter().map(|w| w.to_vec()).collect();
    Line { pieces: [vec![b"(".to_vec()], words, entries, vec![b")".to_vec()]].concat(), needs }
}

/// The pieces of entries, in their own order or in any, and how many declarations they need.
fn entry_pieces(r: &mut Random, attrs: &[(Vec<u8>, Kind)], entries: &[(usize, Value)], s: Style) -> (Vec<Vec<u8>>, usize) {
    let mut entries = entries.to_vec();
    if s.any_order {
        r.shuffle(&mut entries);
    }
    let pieces = entries.iter().flat_map(|(a, v)| [b"(".to_vec(), attrs[*a].0.clone(), value_text(v), b")".to_vec()]).collect();
    (pieces, entries.iter().map(|e| e.0 + 1).max().unwrap_or(0))
}

fn node_line(r: &mut Random, b: &Book, n: &Node, s: Style) -> Line {
    let (pieces, vattrs) = entry_pieces(r, &b.vattrs, &n.entries, s);
    line(&[b"node", &n.name], pieces, [vattrs, 0, 0, 0, 0])
}

fn rel_line(r: &mut Random, b: &Book, x: &Rel, s: Style) -> Line {
    let (pieces, eattrs) = entry_pieces(r, &b.eattrs, &x.entries, s);
    let (label, from, to) = (&b.labels[x.label], &b.nodes[x.from].name, &b.nodes[x.to].name);
    line(&[b"rel", label, from, to], pieces, [0, eattrs, x.label + 1, x.from.max(x.to) + 1, 0])
}

/// The lines of a book by kind, each kind in its order.
fn by_kind(r: &mut Random, b: &Book, s: Style) -> [Vec<Line>; 5] {
    let declared = |head: &str, a: &(Vec<u8>, Kind)| line(&[head.as_bytes(), &a.0, kind_text(a.1).as_bytes()], vec![], [0; 5]);
    [
        b.vattrs.iter().map(|a| declared("vattr", a)).collect(),
        b.eattrs.iter().map(|a| declared("eattr", a)).collect(),
        b.labels.iter().map(|l| line(&[b"label", l], vec![], [0; 5])).collect(),
        b.nodes.iter().map(|n| node_line(r, b, n, s)).collect(),
        b.rels.iter().map(|x| rel_line(r, b, x, s)).collect(),
    ]
}

/// The lines of all kinds in one order: each kind in its own, each line below what it needs, some as far up as may be.
fn mixed(r: &mut Random, kinds: [Vec<Line>; 5]) -> Vec<Line> {
    let count: usize = kinds.iter().map(|k| k.len()).sum();
    let (mut left, mut placed, mut out) = (kinds.map(|k| k.into_iter().peekable()), [0; 5], Vec::new());
    while out.len() < count {
        let mut is_ready = |k: &usize| left[*k].peek().is_some_and(|l: &Line| (0..5).all(|j| l.needs[j] <= placed[j]));
        let ready: Vec<usize> = (0..5).filter(|k| is_ready(k)).collect();
        let k = if r.percent(40) { *ready.last().unwrap() } else { *r.one(&ready) };
        out.extend(left[k].next());
        placed[k] += 1;
    }
    out
}

/// How many spaces stand between two pieces of a line; its ends count as brackets.
fn gap(r: &mut Random, s: Spacing, before: &[u8], behind: &[u8]) -> usize {
    let is_bracket = |p: &[u8]| p == b"(" || p == b")";
    let least = (!is_bracket(before) && !is_bracket(behind)) as usize;
    match s {
        Spacing::Tidy => (before != b"(" && behind != b")") as usize,
        Spacing::AtMost(most) => r.from_to(least, most.max(least)),
    }
}

fn spaced(r: &mut Random, s: Spacing, line: &Line) -> Vec<u8> {
    let (mut out, mut before) = (Vec::new(), &b"("[..]);
    for piece in &line.pieces {
        out.extend(vec![b' '; gap(r, s, before, piece)]);
        out.extend(piece);
        before = piece;
    }
    out.extend(vec![b' '; gap(r, s, before, b")")]);
    out.push(b'\n');
    out
}

fn written(r: &mut Random, b: &Book, s: Style) -> Vec<u8> {
    let kinds = by_kind(r, b, s);
    let lines = if s.mixed_kinds { mixed(r, kinds) } else { kinds.into_iter().flatten().collect() };
    lines.iter().flat_map(|l| spaced(r, s.spacing, l)).collect()
}

/// What a book holds, written in any way that has room: its declarations of each kind, its nodes and its relationships in their orders.
pub fn untidy(r: &mut Random, b: &Book) -> Vec<u8> {
    let s = style(r);
    let text = written(r, b, s);
    if text.len() > MOST_BOOK_BYTES { written(r, b, dense(s)) } else { text }
}

/// Nodes without attributes, which have exactly so many bytes once tidy; none if there are fewer than twelve.
fn pad(b: &mut Book, mut bytes: usize) {
    for i in 0.. {
        let length = match bytes {
            0..=11 => return,
            12..=32 => bytes,
            33..=43 => bytes / 2,
            _ => 32,
        };
        let name = format!("pad_{i:02}").into_bytes();
        b.nodes.push(Node { name: [name, vec![b'_'; 18]].concat()[..length - 8].to_vec(), entries: vec![] });
        bytes -= length;
    }
}

/// A value of a type, a text mostly a long one.
fn long_value(r: &mut Random, kind: Kind) -> Value {
    match kind {
        Kind::Int => Value::Int(value(r, INT).parse().unwrap()),
        Kind::Str if r.percent(80) => Value::Str(vec![b'a' + r.below(26) as u8; r.from_to(30, 40)]),
        Kind::Str => Value::Str(value(r, STR).trim_matches('\'').as_bytes().to_vec()),
        Kind::Bool => Value::Bool(r.percent(50)),
    }
}

/// A node with many attributes.
fn long_node(r: &mut Random, b: &Book, i: usize) -> Node {
    let mut attrs: Vec<usize> = (0..b.vattrs.len()).collect();
    r.shuffle(&mut attrs);
    attrs.truncate(r.from_to(8, 16));
    Node { name: format!("grown_{i:03}").into_bytes(), entries: attrs.into_iter().map(|a| (a, long_value(r, b.vattrs[a].1))).collect() }
}

/// A book grown by attributes and nodes until its tidy text has exactly so many bytes, if its counts let it.
fn grow(r: &mut Random, b: &mut Book, bytes: usize) {
    let tidy = Style { mixed_kinds: false, any_order: false, spacing: Spacing::Tidy };
    for i in b.vattrs.len()..32 {
        let kind = *r.one(&[Kind::Str, Kind::Str, Kind::Str, Kind::Int, Kind::Bool]);
        b.vattrs.push((format!("grown_attribute_{i:02}").into_bytes(), kind));
    }
    let mut length = tidy_text(b).len();
    for i in 0.. {
        let node = long_node(r, b, i);
        let line = node_line(r, b, &node, tidy);
        let more = spaced(r, tidy.spacing, &line).len();
        if length + more + 12 > bytes || b.nodes.len() >= 200 || b.entries() + node.entries.len() > 2048 {
            break;
        }
        length += more;
        b.nodes.push(node);
    }
    pad(b, bytes.saturating_sub(length));
}

/// A book that once tidy is about as long as a book may be, or longer: it leaves out spaces that a tidy book has.
fn long_once_tidy(r: &mut Random, b: &mut Book) -> Vec<u8> {
    let bytes = MOST_BOOK_BYTES - 2 + if r.percent(80) { r.below(6) } else { r.below(600) };
    grow(r, b, bytes);
    let s = dense(style(r));
    written(r, b, s)
}

/// The book of a case in another form: tidy already, untidy, or long once it is tidy. One that cannot be read stays as it is.
pub fn reformed(r: &mut Random, book: &mut Vec<u8>) {
    let new = match r.below(100) {
        0..=14 => tidied(book).ok(),
        15..=59 => read_book_by(book, same).ok().map(|b| untidy(r, &b)),
        60 | 61 => read_book(book).ok().map(|mut b| long_once_tidy(r, &mut b)),
        _ => None,
    };
    *book = new.unwrap_or(std::mem::take(book));
}
