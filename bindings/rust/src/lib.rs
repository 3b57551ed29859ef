//! The proved station list for Rust.
//!
//! The functions of this module allocate what they need. Those of [`lent`] work in the caller's buffers and allocate nothing.
//!
//! ```text
//! let names = hifmuneth::node_names(book)?;
//! for row in hifmuneth::list(book, rules, query, request, 1024)? { .. names[row[0] as usize] .. }
//! ```
use std::ops::Range;

pub mod lent;
pub mod pattern;
pub mod raw;
pub mod refusal;

pub use pattern::{Condition, Edge, Pattern, Relation, Requirement, Value};
pub use refusal::Refusal;

/// Working memory, in words of 32 bits. With fewer words every function refuses with 15.
pub const WORK_WORDS: usize = 16_384;
/// How many bytes fit: book, rules, query or policy, request.
pub const BOOK_BYTES: usize = 65_536;
pub const RULES_BYTES: usize = 16_384;
pub const QUERY_BYTES: usize = 2_048;
pub const REQUEST_BYTES: usize = 2_048;
/// A row word past the rows: all ones, which is no node.
pub const NO_NODE: u32 = u32::MAX;

/// What a book has.
#[derive(Clone, Copy, Debug, PartialEq, Eq)]
pub struct BookCounts {
    pub nodes: usize,
    pub relationships: usize,
    pub entries: usize,
}

/// What rules have.
#[derive(Clone, Copy, Debug, PartialEq, Eq)]
pub struct RulesCounts {
    pub categories: usize,
    pub policies: usize,
}

/// What a query's pattern has.
#[derive(Clone, Copy, Debug, PartialEq, Eq)]
pub struct QueryCounts {
    pub vertices: usize,
    pub edges: usize,
    pub conditions: usize,
    pub return_names: usize,
}

/// What a list has: rows, and the width of each, which is the number of Return names.
#[derive(Clone, Copy, Debug, PartialEq, Eq)]
pub struct ListCounts {
    pub rows: usize,
    pub width: usize,
}

/// An identity: where its actor's name stands in the request, and the number of its node.
#[derive(Clone, Debug, PartialEq, Eq)]
pub struct Identity {
    pub actor: Range<usize>,
    pub node: usize,
}

/// What a request gives: its category's number, from 0 in the order of the rules, and its identities in its own order.
#[derive(Clone, Debug, PartialEq, Eq)]
pub struct Request {
    pub category: usize,
    pub identities: Vec<Identity>,
}

fn work() -> Vec<u32> {
    vec![0; WORK_WORDS]
}

/// Reads a book. Node names that differ only by case are refused with 5: [`rename_book`] gives a stored book with such names new ones.
pub fn read_book(book: &[u8]) -> Result<BookCounts, Refusal> {
    lent::read_book(book, &mut work())
}

/// The names of a book's nodes, by number: `names[n]` is the name of node `n`.
pub fn node_names(book: &[u8]) -> Result<Vec<String>, Refusal> {
    let mut bytes = [0; lent::NAME_BYTES];
    let count = lent::node_names(book, &mut bytes, &mut work())?;
    Ok(bytes.chunks(25).take(count).map(|n| n.iter().take_while(|b| **b != 0).map(|b| *b as char).collect()).collect())
}

/// Reads rules over a book.
pub fn read_rules(book: &[u8], rules: &[u8]) -> Result<RulesCounts, Refusal> {
    lent::read_rules(book, rules, &mut work())
}

/// Reads a query over a book and gives its pattern.
pub fn read_query<'a>(book: &[u8], query: &'a [u8]) -> Result<Pattern<'a>, Refusal> {
    let mut words = lent::PatternWords::default();
    let counts = lent::read_query(book, query, &mut words, &mut work())?;
    Ok(Pattern::of_words(query, &counts, &words))
}

/// Reads a request over a book and rules.
pub fn read_request(book: &[u8], rules: &[u8], request: &[u8]) -> Result<Request, Refusal> {
    let mut words = [0; lent::IDENTITY_WORDS];
    let (category, count) = lent::read_request(book, rules, request, &mut words, &mut work())?;
    let identities = words.chunks(3).take(count).map(|i| Identity { actor: i[0]..i[0] + i[1], node: i[2] }).collect();
    Ok(Request { category, identities })
}

/// Writes a query in the one form that reads back as the same pattern.
pub fn write_query(book: &[u8], rules: &[u8], query: &[u8]) -> Result<Vec<u8>, Refusal> {
    let mut text = vec![0; QUERY_BYTES];
    let length = lent::write_query(book, rules, query, &mut text, &mut work())?;
    text.truncate(length);
    Ok(text)
}

/// Renames the nodes of a stored book whose names differ only by case: of names that are equal case aside the first stays, each later one gets `_b` at its
/// end wherever it names a node, and every other byte stays. Refused with 5 on the line of the first later name that cannot have its new one.
pub fn rename_book(book: &[u8]) -> Result<Vec<u8>, Refusal> {
    let mut text = vec![0; BOOK_BYTES];
    let length = lent::rename_book(book, &mut text, &mut work())?;
    text.truncate(length);
    Ok(text)
}

/// Writes a book tidily: its lines by kind (vattr, eattr, label, node, rel), each kind in its old order, attributes in the order in which they are declared,
/// one space between the items of a list and no other. Every list from the tidy book is the one from the book it came from. Refused with 14 if the tidy book
/// has more than [`BOOK_BYTES`], which can be if the book leaves out spaces that a tidy one has.
pub fn tidy_book(book: &[u8]) -> Result<Vec<u8>, Refusal> {
    let mut text = vec![0; BOOK_BYTES];
    let length = lent::tidy_book(book, &mut text, &mut work())?;
    text.truncate(length);
    Ok(text)
}

/// Lists every row that may be had, each once, ascending; a row has the node's number for each Return name. Refused with 14 if the rows do
/// not fit so many words, a word for each node.
pub fn list(book: &[u8], rules: &[u8], query: &[u8], request: &[u8], row_words: usize) -> Result<Vec<Vec<u32>>, Refusal> {
    let mut rows = vec![0; row_words];
    let counts = lent::list(book, rules, query, request, &mut rows, &mut work())?;
    Ok(rows.chunks(counts.width).take(counts.rows).map(|row| row.to_vec()).collect())
}

/// Whether the list of the same texts has any row, for a lamp on a panel. It needs no row words and stops at the first row found; refused as [`list`] is,
/// but never with 14.
pub fn lamp(book: &[u8], rules: &[u8], query: &[u8], request: &[u8]) -> Result<bool, Refusal> {
    lent::lamp(book, rules, query, request, &mut work())
}
