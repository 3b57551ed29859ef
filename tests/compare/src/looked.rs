//! How many requirements the sets of `channels` had tested, of what and with what outcome, so that it can be seen; too few of a kind are a failure.
use crate::check::Expected;
use plain::book::Book;
use plain::list::{asked, meets, weave, Woven};
use plain::query::{Clause, Relation};
use plain::text::Value;
use std::collections::BTreeMap;

/// Attribute, relation and value.
type Requirement<'a> = (usize, Relation, &'a Value);

#[derive(Default)]
pub struct Looked {
    sets: usize,
    rows: usize,
    /// Sets with rows, and those of them in which a node or relationship lacks an attribute that it is asked for.
    with_rows: usize,
    lacking: usize,
    refused: BTreeMap<u32, usize>,
    masts: usize,
    /// Masts of 32 entries, and sets in which a vertex has sixteen requirements or more.
    full: usize,
    sixteen: usize,
    /// Tests of nodes and of relationships, the entries up to their attributes, and tests of attributes that are absent or behind eight others.
    tests: [usize; 2],
    entries: usize,
    absent: usize,
    far: usize,
    /// By type and relation, how many tests found their attribute and missed or met.
    outcomes: BTreeMap<(u8, u8), [usize; 2]>,
}

/// Six relations of numbers and of texts, two of truth values.
const SUITED: usize = 14;

impl Looked {
    pub fn set(&mut self, e: &Expected) {
        self.sets += 1;
        if let Err(r) = &e.book {
            *self.refused.entry(r.number).or_default() += 1;
        }
        let (Ok(b), Ok(r), Ok(q), Ok(x), Ok(rows)) = (&e.book, &e.rules, &e.query, &e.request, &e.rows) else { return };
        self.with_rows += !rows.is_empty() as usize;
        self.rows += rows.len();
        self.masts += b.nodes.len();
        self.full += b.nodes.iter().filter(|n| n.entries.len() == 32).count();
        let w = weave(&asked(r, x, q), &x.identities);
        self.sixteen += (0..w.vertices.len()).any(|v| of_vertex(&w, v).len() >= 16) as usize;
        let before = self.absent;
        self.woven(b, &w);
        self.lacking += (!rows.is_empty() && self.absent > before) as usize;
    }

    /// Each vertex with the nodes that its identity leaves, each edge with the relationships of its label.
    fn woven(&mut self, b: &Book, w: &Woven) {
        for (v, identity) in w.identity.iter().enumerate() {
            let asked = of_vertex(w, v);
            let left = (0..b.nodes.len()).filter(|n| identity.is_none_or(|i| i == *n));
            left.for_each(|n| self.owner(0, &b.nodes[n].entries, &asked));
        }
        for (i, edge) in w.edges.iter().enumerate() {
            let asked = requirements(w, |c| matches!(c, Clause::Edge(f, ..) if *f == i));
            let labelled = b.rels.iter().filter(|x| x.label == edge.label);
            labelled.for_each(|x| self.owner(1, &x.entries, &asked));
        }
    }

    /// The tests of one node or relationship, up to one that it misses.
    fn owner(&mut self, kind: usize, entries: &[(usize, Value)], asked: &[Requirement]) {
        for (attribute, relation, value) in asked {
            let (place, met) = (entries.iter().position(|e| e.0 == *attribute), meets(entries, *attribute, *relation, value));
            self.tests[kind] += 1;
            self.entries += place.map_or(entries.len(), |p| p + 1);
            self.absent += place.is_none() as usize;
            self.far += place.is_some_and(|p| p >= 8) as usize;
            if place.is_some() {
                self.outcomes.entry((value.kind() as u8, *relation as u8)).or_default()[met as usize] += 1;
            }
            if !met {
                return;
            }
        }
    }

    /// Prints what there was; whether it was enough for the comparison to mean something.
    pub fn told(&self) -> bool {
        let refused: Vec<String> = self.refused.iter().map(|(n, count)| format!("{count} with {n}")).collect();
        println!("{} sets of channels; {} with rows, {} rows; books refused: {}", self.sets, self.with_rows, self.rows, refused.join(", "));
        let [of_nodes, of_relationships] = self.tests;
        println!("  {} masts, {} of them with 32 entries; {} sets with sixteen conditions or more on one vertex", self.masts, self.full, self.sixteen);
        println!("  {of_nodes} tests of nodes, {of_relationships} of relationships, {} entries up to their attributes or, absent, in all;", self.entries);
        println!("  {} tests of absent attributes, in {} sets beside rows; {} of attributes behind eight others", self.absent, self.lacking, self.far);
        let both = self.outcomes.values().filter(|o| o[0] > 0 && o[1] > 0).count();
        println!("  {both} of {SUITED} relations of numbers, texts and truth values both met and missed");
        let there = [self.with_rows, self.full, self.sixteen, of_nodes, of_relationships, self.lacking, self.far].iter().all(|n| *n > 0);
        let enough = there && both == SUITED && [4, 5, 6].iter().all(|n| self.refused.contains_key(n));
        if !enough {
            println!("too few kinds of channels");
        }
        enough
    }
}

fn of_vertex(w: &Woven, vertex: usize) -> Vec<Requirement<'_>> {
    requirements(w, |c| matches!(c, Clause::Vertex(u, ..) if *u == vertex))
}

/// The requirements among some clauses, in their order.
fn requirements(w: &Woven, of: impl Fn(&Clause) -> bool) -> Vec<Requirement<'_>> {
    let requirement = |c| match c {
        &Clause::Vertex(_, a, r, ref x) | &Clause::Edge(_, a, r, ref x) => Some((a, r, x)),
        Clause::Excluded(..) => None,
    };
    w.clauses.iter().filter(|c| of(c)).filter_map(requirement).collect()
}
