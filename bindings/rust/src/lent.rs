//! The services in buffers that the caller lends. Whatever is answered, the working memory ends all ones.
use crate::raw::*;
use crate::{BookCounts, ListCounts, QueryCounts, Refusal, RulesCounts};

/// Three numbers for each of at most eight identities: start and length of the actor's name in the request, number of the node.
pub const IDENTITY_WORDS: usize = 24;

/// Two numbers for each of at most eight vertices: start and length of its name in the query.
pub const VERTEX_WORDS: usize = 16;
/// Five numbers for each of at most sixteen edges: start and length of its name in the query, its label, the vertices it runs from and to.
pub const EDGE_WORDS: usize = 80;
/// Seven numbers for each of at most 32 conditions: which it is (1 two vertices differ, 2 of a vertex, 3 of an edge), the first vertex or the
/// owner, the second vertex or the attribute, the relation (1 to 6 for = <> < <= > >=), the value's type (1 number, 2 text, 3 truth value),
/// its two words (z + 2^63 of a number z; start and length of a text in the query; 1 or 0 of a truth value).
pub const CONDITION_WORDS: usize = 224;
/// The vertex of each of at most four Return names.
pub const RETURN_WORDS: usize = 4;
/// 25 bytes for each of at most 256 nodes: its name, then zeros.
pub const NAME_BYTES: usize = 6_400;

/// The words of a pattern; what is past the counts is 0.
#[derive(Clone, Debug, PartialEq, Eq)]
pub struct PatternWords {
    pub vertices: [usize; VERTEX_WORDS],
    pub edges: [usize; EDGE_WORDS],
    pub conditions: [usize; CONDITION_WORDS],
    pub returns: [usize; RETURN_WORDS],
}

impl Default for PatternWords {
    fn default() -> Self {
        PatternWords { vertices: [0; VERTEX_WORDS], edges: [0; EDGE_WORDS], conditions: [0; CONDITION_WORDS], returns: [0; RETURN_WORDS] }
    }
}

const NO_REFUSAL: Refusal = Refusal { number: 0, text: 0, line: 0 };

/// Reads a book.
pub fn read_book(book: &[u8], work: &mut [u32]) -> Result<BookCounts, Refusal> {
    let (mut counts, mut r) = (BookCounts { nodes: 0, relationships: 0, entries: 0 }, NO_REFUSAL);
    let accepted = unsafe {
        hifmuneth_read_book(
            book.as_ptr(), book.len(), work.as_mut_ptr(), work.len(),
            &mut counts.nodes, &mut counts.relationships, &mut counts.entries,
            &mut r.number, &mut r.text, &mut r.line,
        )
    };
    if accepted { Ok(counts) } else { Err(r) }
}

/// The names of a book's nodes: how many there are. What is past a name and past the last is 0.
pub fn node_names(book: &[u8], names: &mut [u8; NAME_BYTES], work: &mut [u32]) -> Result<usize, Refusal> {
    let (mut count, mut r) = (0, NO_REFUSAL);
    let accepted = unsafe {
        hifmuneth_node_names(
            book.as_ptr(), book.len(), work.as_mut_ptr(), work.len(),
            &mut count, names,
            &mut r.number, &mut r.text, &mut r.line,
        )
    };
    if accepted { Ok(count) } else { Err(r) }
}

/// Reads rules over a book.
pub fn read_rules(book: &[u8], rules: &[u8], work: &mut [u32]) -> Result<RulesCounts, Refusal> {
    let (mut counts, mut r) = (RulesCounts { categories: 0, policies: 0 }, NO_REFUSAL);
    let accepted = unsafe {
        hifmuneth_read_rules(
            book.as_ptr(), book.len(), rules.as_ptr(), rules.len(), work.as_mut_ptr(), work.len(),
            &mut counts.categories, &mut counts.policies,
            &mut r.number, &mut r.text, &mut r.line,
        )
    };
    if accepted { Ok(counts) } else { Err(r) }
}

/// Reads a query over a book: how many of each its pattern has, and its words.
pub fn read_query(book: &[u8], query: &[u8], pattern: &mut PatternWords, work: &mut [u32]) -> Result<QueryCounts, Refusal> {
    let (mut counts, mut r) = (QueryCounts { vertices: 0, edges: 0, conditions: 0, return_names: 0 }, NO_REFUSAL);
    let accepted = unsafe {
        hifmuneth_read_query(
            book.as_ptr(), book.len(), query.as_ptr(), query.len(), work.as_mut_ptr(), work.len(),
            &mut counts.vertices, &mut counts.edges, &mut counts.conditions, &mut counts.return_names,
            &mut pattern.vertices, &mut pattern.edges, &mut pattern.conditions, &mut pattern.returns,
            &mut r.number, &mut r.text, &mut r.line,
        )
    };
    if accepted { Ok(counts) } else { Err(r) }
}

/// Reads a request over a book and rules: its category's number, and how many identities stand in the words.
pub fn read_request(
    book: &[u8], rules: &[u8], request: &[u8], identities: &mut [usize; IDENTITY_WORDS], work: &mut [u32],
) -> Result<(usize, usize), Refusal> {
    let (mut category, mut count, mut r) = (0, 0, NO_REFUSAL);
    let accepted = unsafe {
        hifmuneth_read_request(
            book.as_ptr(), book.len(), rules.as_ptr(), rules.len(), request.as_ptr(), request.len(), work.as_mut_ptr(), work.len(),
            &mut category, &mut count, identities,
            &mut r.number, &mut r.text, &mut r.line,
        )
    };
    if accepted { Ok((category, count)) } else { Err(r) }
}

/// Writes a query in front of the text buffer; its length in bytes. A refusal leaves the buffer as it is.
pub fn write_query(book: &[u8], rules: &[u8], query: &[u8], out: &mut [u8], work: &mut [u32]) -> Result<usize, Refusal> {
    let (mut length, mut r) = (0, NO_REFUSAL);
    let accepted = unsafe {
        hifmuneth_write_query(
            book.as_ptr(), book.len(), rules.as_ptr(), rules.len(), query.as_ptr(), query.len(),
            out.as_mut_ptr(), out.len(), work.as_mut_ptr(), work.len(),
            &mut length,
            &mut r.number, &mut r.text, &mut r.line,
        )
    };
    if accepted { Ok(length) } else { Err(r) }
}

/// Writes a stored book in front of the text buffer, each later one of names that differ only by case with `_b` at its end; its length in bytes.
/// A refusal leaves the buffer as it is.
pub fn rename_book(book: &[u8], out: &mut [u8], work: &mut [u32]) -> Result<usize, Refusal> {
    let (mut length, mut r) = (0, NO_REFUSAL);
    let accepted = unsafe {
        hifmuneth_rename_book(
            book.as_ptr(), book.len(), out.as_mut_ptr(), out.len(), work.as_mut_ptr(), work.len(),
            &mut length,
            &mut r.number, &mut r.text, &mut r.line,
        )
    };
    if accepted { Ok(length) } else { Err(r) }
}

/// Writes a book tidily in front of the text buffer; its length in bytes. A refusal leaves the buffer as it is.
pub fn tidy_book(book: &[u8], out: &mut [u8], work: &mut [u32]) -> Result<usize, Refusal> {
    let (mut length, mut r) = (0, NO_REFUSAL);
    let accepted = unsafe {
        hifmuneth_tidy_book(
            book.as_ptr(), book.len(), out.as_mut_ptr(), out.len(), work.as_mut_ptr(), work.len(),
            &mut length,
            &mut r.number, &mut r.text, &mut r.line,
        )
    };
    if accepted { Ok(length) } else { Err(r) }
}

/// Lists the rows that may be had into the row words: how many there are, and how wide each is. Row words past the rows end all ones, after a
/// refusal all of them.
pub fn list(
    book: &[u8], rules: &[u8], query: &[u8], request: &[u8], rows: &mut [u32], work: &mut [u32],
) -> Result<ListCounts, Refusal> {
    let (mut counts, mut r) = (ListCounts { rows: 0, width: 0 }, NO_REFUSAL);
    let accepted = unsafe {
        hifmuneth_list(
            book.as_ptr(), book.len(), rules.as_ptr(), rules.len(), query.as_ptr(), query.len(), request.as_ptr(), request.len(),
            rows.as_mut_ptr(), rows.len(), work.as_mut_ptr(), work.len(),
            &mut counts.rows, &mut counts.width,
            &mut r.number, &mut r.text, &mut r.line,
        )
    };
    if accepted { Ok(counts) } else { Err(r) }
}

/// Whether the list of the same texts has any row. No row words are needed, and 14 is never given.
pub fn lamp(book: &[u8], rules: &[u8], query: &[u8], request: &[u8], work: &mut [u32]) -> Result<bool, Refusal> {
    let (mut yes, mut r) = (0, NO_REFUSAL);
    let accepted = unsafe {
        hifmuneth_lamp(
            book.as_ptr(), book.len(), rules.as_ptr(), rules.len(), query.as_ptr(), query.len(), request.as_ptr(), request.len(),
            work.as_mut_ptr(), work.len(),
            &mut yes,
            &mut r.number, &mut r.text, &mut r.line,
        )
    };
    if accepted { Ok(yes == 1) } else { Err(r) }
}
