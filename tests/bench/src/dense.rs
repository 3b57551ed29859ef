//! Random dense sets: a book of one label, a query with cycles, two policies with vertices of their own. The same seed gives the same set.
use crate::lamp::Asked;
use std::fmt::Write;

/// How large a set is: nodes and relationships of its book, edges and Return names of its query.
pub struct Size {
    pub nodes: usize,
    pub relationships: usize,
    pub edges: usize,
    pub returns: usize,
}

pub struct Random(pub u64);

impl Random {
    /// A number below n.
    fn below(&mut self, n: usize) -> usize {
        self.0 = self.0.wrapping_add(0x9e37_79b9_7f4a_7c15);
        let x = (self.0 ^ (self.0 >> 30)).wrapping_mul(0xbf58_476d_1ce4_e5b9);
        let x = (x ^ (x >> 27)).wrapping_mul(0x94d0_49bb_1331_11eb);
        ((x ^ (x >> 31)) % n as u64) as usize
    }

    /// So many of the numbers below n, none twice.
    pub fn some(&mut self, count: usize, n: usize) -> Vec<usize> {
        let mut all: Vec<usize> = (0..n).collect();
        for i in 0..count {
            let j = i + self.below(n - i);
            all.swap(i, j);
        }
        all.truncate(count);
        all
    }
}

/// Edges that tie each vertex to an earlier one, then edges between any two; exclusions between any two.
fn pattern(r: &mut Random, vertices: &[&str], edges: usize, exclusions: usize) -> String {
    let mut text = String::new();
    for i in 0..edges {
        let ends = if i + 1 < vertices.len() { vec![r.below(i + 1), i + 1] } else { r.some(2, vertices.len()) };
        write!(text, "Match ({})-[e{i}:near]->({}) ", vertices[ends[0]], vertices[ends[1]]).unwrap();
    }
    for i in 0..exclusions {
        let two = r.some(2, vertices.len());
        write!(text, "{} {} <> {} ", if i == 0 { "Where" } else { "AND" }, vertices[two[0]], vertices[two[1]]).unwrap();
    }
    text
}

pub fn dense(name: &'static str, size: Size, seed: u64) -> Asked {
    let (n, mut r) = (size.nodes, Random(seed));
    let mut book = String::from("(label near)\n");
    (0..n).for_each(|i| writeln!(book, "(node n{i})").unwrap());
    r.some(size.relationships, n * n).iter().for_each(|p| writeln!(book, "(rel near n{} n{})", p / n, p % n).unwrap());
    let own = ["v0", "v1", "v2", "v3", "v4", "v5", "v6"];
    let returned: Vec<&str> = r.some(size.returns, own.len()).iter().map(|v| own[*v]).collect();
    let query = pattern(&mut r, &[&["requestor"], &own[..]].concat(), size.edges, 6) + "Return " + &returned.join(", ");
    let mut policy = |vertices: &[&str]| pattern(&mut r, vertices, size.edges * 5 / 8, 4) + "Return v0";
    let low = policy(&["requestor", "v0", "p0", "p1", "p2", "p3"]);
    let high = policy(&["requestor", "v0", "v1", "q0", "q1", "q2"]);
    let rules = format!(
        "(category low (actors requestor v0) (over))\n(policy low \"{low}\")\n(category high (actors requestor v0 v1) (over low))\n(policy high \"{high}\")\n"
    );
    Asked { name, book, rules, query, request: "(request high (id requestor n0))\n".into() }
}
