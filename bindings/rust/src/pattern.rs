//! The pattern of a query in types of its own, from the words that the library leaves.
use crate::{lent::PatternWords, QueryCounts};

/// A pattern. Vertices are numbered from 0 by their first appearance in the chains; edges and conditions stand in the order of the text.
#[derive(Clone, Debug, PartialEq, Eq)]
pub struct Pattern<'a> {
    /// The names of the vertices.
    pub vertices: Vec<&'a str>,
    pub edges: Vec<Edge<'a>>,
    pub conditions: Vec<Condition<'a>>,
    /// The vertex of each Return name.
    pub returns: Vec<usize>,
}

/// An edge between two vertices, by their numbers.
#[derive(Clone, Copy, Debug, PartialEq, Eq)]
pub struct Edge<'a> {
    pub name: &'a str,
    /// The label's number: its place among the `label` lines of the book, from 0.
    pub label: usize,
    pub from: usize,
    pub to: usize,
}

/// A condition: two vertices differ, or a vertex or an edge, by its number, meets a requirement.
#[derive(Clone, Copy, Debug, PartialEq, Eq)]
pub enum Condition<'a> {
    Differ(usize, usize),
    OfVertex(usize, Requirement<'a>),
    OfEdge(usize, Requirement<'a>),
}

/// What an attribute must be.
#[derive(Clone, Copy, Debug, PartialEq, Eq)]
pub struct Requirement<'a> {
    /// The attribute's number: its place among the `vattr` lines of the book, or for an edge among its `eattr` lines, from 0.
    pub attribute: usize,
    pub relation: Relation,
    pub value: Value<'a>,
}

/// The relations = <> < <= > >= in this order.
#[derive(Clone, Copy, Debug, PartialEq, Eq)]
pub enum Relation {
    Equal,
    Differs,
    Less,
    AtMost,
    Greater,
    AtLeast,
}

/// A value.
#[derive(Clone, Copy, Debug, PartialEq, Eq)]
pub enum Value<'a> {
    Number(i64),
    Text(&'a str),
    Truth(bool),
}

/// A part of an accepted query, all of whose bytes are ASCII.
fn part(query: &[u8], start: usize, length: usize) -> &str {
    std::str::from_utf8(&query[start..start + length]).expect("an accepted query")
}

impl Relation {
    fn of_word(word: usize) -> Relation {
        use Relation::*;
        [Equal, Differs, Less, AtMost, Greater, AtLeast][word - 1]
    }
}

impl<'a> Value<'a> {
    fn of_words(query: &'a [u8], w: &[usize]) -> Value<'a> {
        match w[0] {
            1 => Value::Number((w[1] as u64 ^ 1 << 63) as i64),
            2 => Value::Text(part(query, w[1], w[2])),
            _ => Value::Truth(w[1] == 1),
        }
    }
}

impl<'a> Condition<'a> {
    fn of_words(query: &'a [u8], w: &[usize]) -> Condition<'a> {
        let requirement = || Requirement { attribute: w[2], relation: Relation::of_word(w[3]), value: Value::of_words(query, &w[4..]) };
        match w[0] {
            1 => Condition::Differ(w[1], w[2]),
            2 => Condition::OfVertex(w[1], requirement()),
            _ => Condition::OfEdge(w[1], requirement()),
        }
    }
}

impl<'a> Pattern<'a> {
    /// The pattern of an accepted query, from its counts and its words.
    pub fn of_words(query: &'a [u8], counts: &QueryCounts, words: &PatternWords) -> Pattern<'a> {
        let edge = |w: &[usize]| Edge { name: part(query, w[0], w[1]), label: w[2], from: w[3], to: w[4] };
        Pattern {
            vertices: words.vertices.chunks(2).take(counts.vertices).map(|w| part(query, w[0], w[1])).collect(),
            edges: words.edges.chunks(5).take(counts.edges).map(edge).collect(),
            conditions: words.conditions.chunks(7).take(counts.conditions).map(|w| Condition::of_words(query, w)).collect(),
            returns: words.returns[..counts.return_names].to_vec(),
        }
    }
}
