//! Full books that would be slow to make tidy if it were done badly: 32 attributes declared, used in the reverse order, their names alike but for the end.
use crate::slow::filled;

const ATTRIBUTES: usize = 32;
const LEAST: &str = "-9223372036854775808";

/// The name of an attribute, of so many bytes.
fn attribute(a: usize, bytes: usize) -> String {
    format!("{}{a:02}", "a".repeat(bytes - 2))
}

fn declared(head: &str, kind: &str, bytes: usize) -> String {
    (0..ATTRIBUTES).map(|a| format!("({head} {} {kind})\n", attribute(a, bytes))).collect()
}

/// So many entries of one value, the last declared first, without a space that can be left out.
fn reversed(count: usize, bytes: usize, value: &str) -> String {
    (ATTRIBUTES - count..ATTRIBUTES).rev().map(|a| format!("({} {value})", attribute(a, bytes))).collect()
}

fn name(i: usize) -> String {
    format!("n{:03}", i % 256)
}

/// Nodes with every attribute, as many as there may be.
fn at_nodes(kind: &str, bytes: usize, value: &str) -> String {
    let nodes: String = (0..64).map(|i| format!("(node {}{})\n", name(i), reversed(ATTRIBUTES, bytes, value))).collect();
    declared("vattr", kind, bytes) + &nodes
}

/// So many relationships between 256 nodes, each with some of the attributes.
fn at_relationships(count: usize, each: usize, kind: &str, value: &str) -> String {
    let nodes: String = (0..256).map(|i| format!("(node {})\n", name(i))).collect();
    let rel = |i: usize| format!("(rel l {} {}{})\n", name(i), name(i * 7 + i / 256 * 3 + 1), reversed(each, 5, value));
    nodes + "(label l)\n" + &declared("eattr", kind, 5) + &(0..count).map(rel).collect::<String>()
}

/// Four relationships to each node stand right below it, so that nearly every line moves.
fn mixed_kinds() -> String {
    let labels: String = (0..4).map(|l| format!("(label l{l})\n")).collect();
    let four = |i: usize| (0..4).map(|l| format!("(rel l{l} n000 {}(a31 {LEAST})(a30 true))\n", name(i))).collect::<String>();
    let lines = |i: usize| format!("{}(node {})\n", four(i), name(i + 1));
    labels + "(eattr a30 bool)\n(eattr a31 int)\n(node n000)\n" + &(0..255).map(lines).collect::<String>()
}

/// It passes the length of a book with its last line, once tidy.
fn too_long_once_tidy() -> String {
    let begin = at_nodes("str", 5, "'01234567890123456789'");
    filled(&begin, "", 65_536 - 64 * ATTRIBUTES + 33, |i| format!("(node m{i:023})\n"))
}

pub fn books() -> Vec<String> {
    let text = format!("'{}'", "x".repeat(40));
    vec![
        at_nodes("int", 24, "1"),
        at_nodes("int", 3, LEAST),
        at_nodes("bool", 3, "true"),
        at_relationships(64, ATTRIBUTES, "int", LEAST),
        at_relationships(1024, 2, "int", &LEAST[..12]),
        at_relationships(850, 1, "str", &text),
        mixed_kinds(),
        too_long_once_tidy(),
    ]
}
