//! Times the tidying of full books against reading them: it is to take at most twice as long.
use crate::{call, shown, times, work};
use hifmuneth::{lent, BOOK_BYTES};

const NODES: usize = 256;
const ENTRIES: usize = 2048;

/// Where the entries of a book stand, how they are ordered and spaced, and what they say.
struct Shape {
    title: &'static str,
    /// How many attributes are declared for nodes, and for relationships.
    declared: [usize; 2],
    /// How many nodes and how many relationships have entries, the first ones, and how many each.
    nodes: (usize, usize),
    relationships: (usize, usize),
    /// The type of every attribute, and a value.
    kind: &'static str,
    value: fn(usize) -> String,
    /// Bytes of an attribute's name.
    name_bytes: usize,
    reversed: bool,
    /// What stands before an inner bracket.
    gap: &'static str,
    /// How many relationships each node has, at most four.
    related: usize,
    /// Whether the relationships from a node stand right below its line.
    mixed: bool,
}

const SHAPE: Shape = Shape {
    title: "",
    declared: [8, 2],
    nodes: (0, 0),
    relationships: (0, 0),
    kind: "int",
    value: |i| (i * 37 % 1000).to_string(),
    name_bytes: 9,
    reversed: false,
    gap: " ",
    related: 4,
    mixed: false,
};

fn attribute(a: usize, bytes: usize) -> String {
    format!("{}{a:02}", &"attribute_of_a_station"[..bytes - 2])
}

fn node(i: usize) -> String {
    format!("n{:03}", i % NODES)
}

impl Shape {
    fn attributes(&self, head: &str, count: usize) -> String {
        (0..count).map(|a| format!("({head} {} {})\n", attribute(a, self.name_bytes), self.kind)).collect()
    }

    /// So many entries of the last attributes, in the order of their declarations or the reverse.
    fn entries(&self, declared: usize, count: usize, owner: usize) -> String {
        let mut attributes: Vec<usize> = (declared - count..declared).collect();
        if self.reversed {
            attributes.reverse();
        }
        let entry = |a: &usize| format!("{}({} {})", self.gap, attribute(*a, self.name_bytes), (self.value)(owner * 32 + a));
        attributes.iter().map(entry).collect()
    }

    fn node_line(&self, i: usize) -> String {
        let count = if i < self.nodes.0 { self.nodes.1 } else { 0 };
        format!("(node {}{})\n", node(i), self.entries(self.declared[0], count, i))
    }

    /// Each node has relationships to itself and to nodes above it, by one of four labels.
    fn rel_line(&self, i: usize, label: usize) -> String {
        let at = i * 4 + label;
        let count = if at < self.relationships.0 { self.relationships.1 } else { 0 };
        format!("(rel l{label} {} {}{})\n", node(i), node(i * (label + 3) / 7), self.entries(self.declared[1], count, at))
    }

    /// 256 nodes, and up to 1,024 relationships.
    fn book(&self) -> String {
        let labels = "(label l0)\n(label l1)\n(label l2)\n(label l3)\n";
        let declared = self.attributes("vattr", self.declared[0]) + &self.attributes("eattr", self.declared[1]) + labels;
        let rels = |i: usize| (0..self.related).map(|label| self.rel_line(i, label)).collect::<String>();
        let lines: String = match self.mixed {
            true => (0..NODES).map(|i| self.node_line(i) + &rels(i)).collect(),
            false => (0..NODES).map(|i| self.node_line(i)).chain((0..NODES).map(rels)).collect(),
        };
        declared + &lines
    }
}

/// One of the least numbers.
fn least(i: usize) -> String {
    (i64::MIN + i as i64).to_string()
}

fn shapes() -> Vec<Shape> {
    let at_nodes = || Shape { nodes: (256, 8), name_bytes: 13, ..SHAPE };
    let at_rels = || Shape { relationships: (1024, 2), name_bytes: 13, ..SHAPE };
    let at_64 = || Shape { declared: [32, 2], nodes: (64, 32), name_bytes: 12, ..SHAPE };
    vec![
        Shape { title: "8 entries at each node", ..at_nodes() },
        Shape { title: "8 entries at each node, in reverse order", reversed: true, ..at_nodes() },
        Shape { title: "8 entries at each node, lines of mixed kinds, few spaces", name_bytes: 12, gap: "", mixed: true, ..at_nodes() },
        Shape { title: "2 entries at each relationship", ..at_rels() },
        Shape { title: "2 entries at each relationship, the last of 32 declared, in reverse order", declared: [8, 32], reversed: true, ..at_rels() },
        Shape { title: "32 entries at each of 64 nodes", ..at_64() },
        Shape { title: "32 entries at each of 64 nodes, in reverse order", reversed: true, ..at_64() },
        Shape { title: "32 entries at each of 64 nodes, in reverse order, wide spaces", reversed: true, name_bytes: 9, gap: "    ", ..at_64() },
        Shape { title: "6 numbers of 19 digits at each node", nodes: (256, 6), name_bytes: 3, value: |i| (i64::MAX - i as i64).to_string(), ..SHAPE },
        Shape { title: "8 numbers of 19 digits at each node, no relationships", name_bytes: 3, related: 0, value: least, ..at_nodes() },
        Shape { title: "8 texts at each node", name_bytes: 3, kind: "str", value: |i| format!("'tilting {:03}'", i % 1000), ..at_nodes() },
        Shape { title: "3 texts of 40 bytes at each node", nodes: (256, 3), kind: "str", value: |i| format!("'{i:040}'"), ..SHAPE },
        Shape { title: "no entries", ..SHAPE },
    ]
}

fn measure(shape: &Shape) {
    let book = shape.book();
    let tidy = hifmuneth::tidy_book(book.as_bytes()).expect("a tidy book");
    assert_eq!(Ok(&tidy), plain::tidy::tidied(book.as_bytes()).as_ref());
    let counts = hifmuneth::read_book(book.as_bytes()).expect("a book");
    assert_eq!((counts.nodes, counts.relationships), (NODES, NODES * shape.related));
    assert!(counts.entries <= ENTRIES);
    let (mut text, mut w1, mut w2) = (vec![0; BOOK_BYTES], work(), work());
    let read = book.as_bytes();
    let mut calls = vec![
        call("read_book", move || lent::read_book(read, &mut w1)),
        call("tidy_book", move || lent::tidy_book(read, &mut text, &mut w2)),
    ];
    let times = times(&mut calls);
    println!("tidying, {}: {} bytes, tidy {}, {} entries", shape.title, book.len(), tidy.len(), counts.entries);
    shown(&calls, &times);
    println!("  tidying takes {:.2} times the reading, by the least; at most 2 is wanted", times[1].0 / times[0].0);
}

pub fn run() {
    shapes().iter().for_each(measure);
}
