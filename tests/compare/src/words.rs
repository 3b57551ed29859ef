//! The words and bytes that the library is expected to leave, from what plain Rust reads.
use hifmuneth::lent::{PatternWords, IDENTITY_WORDS, NAME_BYTES};
use plain::{book::Book, places::places, query::*, text::Value};

/// Rows of words one after another, then zeros.
fn rows<const N: usize>(rows: impl IntoIterator<Item = Vec<usize>>) -> [usize; N] {
    let mut out: Vec<usize> = rows.into_iter().flatten().collect();
    out.resize(N, 0);
    out.try_into().unwrap()
}

fn relation(r: Relation) -> usize {
    [Relation::Eq, Relation::Ne, Relation::Lt, Relation::Le, Relation::Gt, Relation::Ge].iter().position(|x| *x == r).unwrap() + 1
}

pub fn pattern_words(query: &[u8], p: &Pattern) -> PatternWords {
    let at = places(query);
    let mut texts = at.texts.iter();
    let mut value = |v: &Value| match v {
        Value::Int(z) => vec![1, (*z as i128 + (1 << 63)) as usize, 0],
        Value::Str(t) => {
            let (start, length) = *texts.next().unwrap();
            assert_eq!(query[start..start + length], t[..], "plain Rust's own places");
            vec![2, start, length]
        }
        Value::Bool(b) => vec![3, *b as usize, 0],
    };
    let mut demand = |kind: usize, owner: usize, a: usize, r: Relation, v: &Value| [vec![kind, owner, a, relation(r)], value(v)].concat();
    PatternWords {
        vertices: rows(at.vertices.iter().map(|v| vec![v.0, v.1])),
        edges: rows(p.edges.iter().zip(&at.edges).map(|(e, n)| vec![n.0, n.1, e.label, e.from, e.to])),
        conditions: rows(p.clauses.iter().map(|c| match c {
            Clause::Excluded(u, v) => vec![1, *u, *v, 0, 0, 0, 0],
            Clause::Vertex(i, a, r, v) => demand(2, *i, *a, *r, v),
            Clause::Edge(i, a, r, v) => demand(3, *i, *a, *r, v),
        })),
        returns: rows(p.returns.iter().map(|v| vec![*v])),
    }
}

/// Each identity's actor is the fourth word of the request, the seventh, and so on: `request CATEGORY id ACTOR NODE id ACTOR NODE ..`.
pub fn identity_words(request: &[u8], identities: &[(Vec<u8>, usize)]) -> [usize; IDENTITY_WORDS] {
    let is_word = |i: usize| request.get(i).map_or(false, |b| b.is_ascii_alphanumeric() || *b == b'_');
    let starts: Vec<usize> = (0..request.len()).filter(|i| is_word(*i) && (*i == 0 || !is_word(*i - 1))).collect();
    rows(identities.iter().enumerate().map(|(i, (actor, node))| {
        let start = starts[3 * i + 3];
        assert_eq!(request[start..start + actor.len()], actor[..], "plain Rust's own places");
        vec![start, actor.len(), *node]
    }))
}

pub fn name_bytes(book: Option<&Book>) -> [u8; NAME_BYTES] {
    let mut out = [0; NAME_BYTES];
    for (slot, node) in out.chunks_mut(25).zip(book.iter().flat_map(|b| &b.nodes)) {
        slot[..node.name.len()].copy_from_slice(&node.name);
    }
    out
}
