//! A random small world that the texts of a case speak about: attributes, labels, nodes, relationships, and who each actor is.
use crate::random::Random;
use crate::twins::with_twins;

pub const INT: usize = 0;
pub const STR: usize = 1;
pub const BOOL: usize = 2;
pub const KINDS: [&str; 3] = ["int", "str", "bool"];

const NAMES: [&str; 24] = [
    "a", "b", "rate", "kind", "open", "hub", "S5", "S6", "ana", "node", "over", "int", "label", "rel", "x_1", "requestor", "Zed", "match", "where", "k9",
    "request", "id", "actors", "a_name_of_24_bytes_long",
];
/// Beginnings of each other, both cases, weeks, the least and the greatest byte, and two of forty bytes that differ in the last.
const TEXTS: [&str; 18] = [
    "''", "'a'", "'b'", "'ab'", "'A'", "'B'", "'hub'", "'Hub'", "'hub2'", "' (x) '", "' '", "'~'", "'2024w06'", "'2024w07'", "'2024w0'", "'2024w7'",
    "'0123456789012345678901234567890123456789'", "'012345678901234567890123456789012345678A'",
];
const NUMBERS: [&str; 9] = ["0", "1", "-1", "2", "40", "50", "-7", "9223372036854775807", "-9223372036854775808"];
pub const ACTORS: [&str; 7] = ["dut", "boss", "mate", "aide", "h", "s", "v1"];

/// Something with attribute entries: attribute number and value as it is written.
pub type Entries = Vec<(usize, String)>;

pub struct Rel {
    pub label: usize,
    pub from: usize,
    pub to: usize,
    pub entries: Entries,
}

pub struct World {
    pub vattrs: Vec<(String, usize)>,
    pub eattrs: Vec<(String, usize)>,
    pub labels: Vec<String>,
    pub nodes: Vec<(String, Entries)>,
    pub rels: Vec<Rel>,
    /// The node of the requestor, then of each of ACTORS.
    pub who: Vec<usize>,
}

pub fn value(r: &mut Random, kind: usize) -> String {
    match kind {
        INT => r.one(&NUMBERS).to_string(),
        STR => r.one(&TEXTS).to_string(),
        _ => r.one(&["true", "false"]).to_string(),
    }
}

fn names(r: &mut Random, n: usize) -> Vec<String> {
    let mut all = NAMES.to_vec();
    r.shuffle(&mut all);
    all.iter().take(n).map(|s| s.to_string()).collect()
}

fn attributes(r: &mut Random, n: usize) -> Vec<(String, usize)> {
    names(r, n).into_iter().map(|a| (a, r.below(3))).collect()
}

fn entries(r: &mut Random, attrs: &[(String, usize)], percent: usize) -> Entries {
    let mut out: Entries = (0..attrs.len()).filter(|_| r.percent(percent)).collect::<Vec<_>>().into_iter().map(|a| (a, value(r, attrs[a].1))).collect();
    r.shuffle(&mut out);
    if let (Some(e), true) = (out.first_mut(), r.below(400) == 0) {
        // once in a while a value of another type
        e.1 = value(r, (attrs[e.0].1 + 1) % 3);
    }
    out
}

impl World {
    /// `twins`: some node names differ only by case, so that a book of it is refused and its renaming has something to do.
    pub fn new(r: &mut Random, twins: bool) -> World {
        let most = r.from_to(1, 8);
        let (a, e, l) = (r.below(4), r.below(3), r.from_to(1, 3));
        let (vattrs, eattrs, labels) = (attributes(r, a), attributes(r, e), names(r, l));
        let plain = names(r, most);
        let named = if twins { with_twins(r, plain) } else { plain };
        let mut nodes: Vec<_> = named.into_iter().map(|n| (n, entries(r, &vattrs, 65))).collect();
        if twins && r.percent(15) {
            // a value of another type beside a name that is refused, or is not
            let at = r.below(nodes.len());
            nodes[at].1.iter_mut().take(1).for_each(|e| e.1 = value(r, (vattrs[e.0].1 + 1) % 3));
        }
        let density = r.from_to(5, 60);
        let mut rels = Vec::new();
        for label in 0..labels.len() {
            for from in 0..nodes.len() {
                for to in 0..nodes.len() {
                    if r.percent(density) {
                        rels.push(Rel { label, from, to, entries: entries(r, &eattrs, 60) });
                    }
                }
            }
        }
        r.shuffle(&mut rels);
        let who = (0..=ACTORS.len()).map(|_| r.below(nodes.len())).collect();
        World { vattrs, eattrs, labels, nodes, rels, who }
    }

    /// The node of an actor.
    pub fn node_of(&self, actor: &str) -> usize {
        ACTORS.iter().position(|a| *a == actor).map_or(self.who[0], |i| self.who[i + 1])
    }

    /// The book's text: declarations before their use, otherwise in any order.
    pub fn book(&self, r: &mut Random) -> String {
        let mut declared: Vec<String> = Vec::new();
        declared.extend(self.vattrs.iter().map(|(n, k)| format!("(vattr {n} {})", KINDS[*k])));
        declared.extend(self.eattrs.iter().map(|(n, k)| format!("(eattr {n} {})", KINDS[*k])));
        declared.extend(self.labels.iter().map(|n| format!("(label {n})")));
        // attributes and labels keep their own order, so their numbers do too
        let of = |attrs: &[(String, usize)], e: &Entries| e.iter().map(|(a, v)| format!(" ({} {v})", attrs[*a].0)).collect::<String>();
        let mut lines = declared;
        lines.extend(self.nodes.iter().map(|(n, e)| format!("(node {n}{})", of(&self.vattrs, e))));
        lines.extend(self.rels.iter().map(|x| {
            format!("(rel {} {} {}{})", self.labels[x.label], self.nodes[x.from].0, self.nodes[x.to].0, of(&self.eattrs, &x.entries))
        }));
        lines.iter().map(|l| spaced(r, l) + "\n").collect()
    }
}

/// A line with spaces added, or left out, where that is allowed.
pub fn spaced(r: &mut Random, line: &str) -> String {
    if r.percent(70) {
        return line.to_string();
    }
    let mut out = String::new();
    let mut quote = None;
    for c in line.chars() {
        let inside = quote.is_some();
        if !inside && (c == '(' || c == ')' || c == ' ') && r.percent(20) {
            out.push(' ');
        }
        if !inside && c == ' ' && out.ends_with(')') && r.percent(50) {
            continue;
        }
        out.push(c);
        match quote {
            None if c == '\'' || c == '"' => quote = Some(c),
            Some(q) if q == c => quote = None,
            _ => {}
        }
        if quote.is_none() && (c == '(' || c == ')') && r.percent(20) {
            out.push(' ');
        }
    }
    out
}
