//! Books of masts, nodes of up to 32 entries in every order, whose relationships have entries too, and queries of up to sixteen conditions on a vertex, on two
//! or on an edge. Most conditions hold of one mast that is picked first, so that most lists have rows; some books have a line that is to be refused.
use crate::cases::Texts;
use crate::random::Random;
use crate::world::*;
use std::cmp::Ordering;

/// How many such sets are compared.
pub const SETS: u64 = 400;

const MOST: usize = 32;
/// As many as have room in a book with the longest names.
const MOST_ENTRIES: usize = 1_400;
const CONDITIONS: usize = 16;
/// What the attributes' names begin with; the longest names differ in the last of their bytes.
const STEMS: [&str; 3] = ["ch_", "c", "a_channel_of_the_mast_"];

/// Attributes of nodes or of relationships, each with the value that most owners have.
struct Channels {
    declared: Vec<(String, usize)>,
    usual: Vec<String>,
}

fn channels(r: &mut Random, count: usize) -> Channels {
    let stem = *r.one(&STEMS);
    let mut numbers: Vec<usize> = (0..MOST).collect();
    r.shuffle(&mut numbers);
    let declared: Vec<_> = numbers[..count].iter().map(|n| (format!("{stem}{n:02}"), r.below(3))).collect();
    let usual = declared.iter().map(|c| value(r, c.1)).collect();
    Channels { declared, usual }
}

impl Channels {
    /// Entries of all attributes or of some, in the order of their declarations, the reverse, turned by some places, or any.
    fn entries(&self, r: &mut Random) -> Entries {
        let percent = *r.one(&[100, 100, 95, 95, 60, 0]);
        let mut out: Entries = (0..self.declared.len()).filter(|_| r.percent(percent)).map(|a| (a, self.usual[a].clone())).collect();
        for e in &mut out {
            if r.percent(15) {
                e.1 = value(r, self.declared[e.0].1);
            }
        }
        let turn = r.below(out.len() + 1);
        match r.below(4) {
            0 => {}
            1 => out.reverse(),
            2 => out.rotate_left(turn),
            _ => r.shuffle(&mut out),
        }
        out
    }
}

/// What a fault does to a line.
#[derive(Clone, Copy)]
enum Fault {
    Twice,
    Undeclared,
    Mistyped,
}

/// Spoils the line with most entries, in its second half. What is undeclared is declared here, last, so that its line can be left out of the book.
fn spoil(r: &mut Random, fault: Fault, declared: &mut Vec<(String, usize)>, lines: &mut [&mut Entries]) {
    let line = lines.iter_mut().max_by_key(|l| l.len()).expect("a line");
    let (last, half) = (declared.len(), line.len() / 2);
    let at = r.from_to(half, line.len());
    match fault {
        Fault::Twice if at > 0 => line.insert(at, line[r.below(at)].clone()),
        Fault::Undeclared => line.insert(at, (last, "1".to_string())),
        Fault::Mistyped if at < line.len() => line[at].1 = value(r, (declared[line[at].0].1 + 1) % 3),
        _ => {}
    }
    if let Fault::Undeclared = fault {
        declared.push(("undeclared".to_string(), INT));
    }
}

/// The text of the world's book; without one of its first lines, if it is told which.
fn book(r: &mut Random, world: &World, left_out: Option<usize>) -> String {
    world.book(r).split_inclusive('\n').enumerate().filter(|(i, _)| Some(*i) != left_out).map(|(_, line)| line).collect()
}

fn spoiled_book(r: &mut Random, mut world: World) -> String {
    let fault = *r.one(&[Fault::Twice, Fault::Undeclared, Fault::Mistyped]);
    let of_node = world.rels.is_empty() || r.percent(70);
    if of_node {
        spoil(r, fault, &mut world.vattrs, &mut world.nodes.iter_mut().map(|n| &mut n.1).collect::<Vec<_>>());
    } else {
        spoil(r, fault, &mut world.eattrs, &mut world.rels.iter_mut().map(|x| &mut x.entries).collect::<Vec<_>>());
    }
    let declared = world.vattrs.len() + if of_node { 0 } else { world.eattrs.len() };
    let left_out = if let Fault::Undeclared = fault { Some(declared - 1) } else { None };
    book(r, &world, left_out)
}

/// Masts, and relationships from one of them to most others and between some.
fn world(r: &mut Random) -> (World, usize) {
    let (v, e) = (*r.one(&[1, 8, 12, 20, MOST, MOST, MOST]), *r.one(&[0, 1, 4, 8, MOST]));
    let (of_nodes, of_rels) = (channels(r, v), channels(r, e));
    let masts = if r.percent(5) { 24 } else { r.from_to(2, 14) };
    let nodes: Vec<_> = (0..masts).map(|i| (format!("mast_{i}"), of_nodes.entries(r))).collect();
    let (hub, density) = (r.below(masts), 100 / masts);
    let mut rels = Vec::new();
    for (from, to) in (0..masts).flat_map(|from| (0..masts).map(move |to| (from, to))) {
        if r.percent(if from == hub { 85 } else { density }) {
            rels.push(Rel { label: 0, from, to, entries: of_rels.entries(r) });
        }
    }
    r.shuffle(&mut rels);
    let mut left = MOST_ENTRIES - nodes.iter().map(|n| n.1.len()).sum::<usize>();
    for x in &mut rels {
        x.entries.truncate(left);
        left -= x.entries.len();
    }
    let labels = vec!["runs".to_string()];
    (World { vattrs: of_nodes.declared, eattrs: of_rels.declared, labels, nodes, rels, who: vec![hub; ACTORS.len() + 1] }, hub)
}

/// How two written values of a type stand to each other.
fn order(kind: usize, x: &str, y: &str) -> Ordering {
    match kind {
        INT => x.parse::<i64>().unwrap().cmp(&y.parse().unwrap()),
        STR => x.trim_matches('\'').cmp(y.trim_matches('\'')),
        _ => x.cmp(y),
    }
}

/// A variable, the attributes that it may be asked for, and the entries where the picked mast or relationship lies.
type Owner<'a> = (&'a str, &'a [(String, usize)], &'a Entries);

/// A condition that mostly holds there; once in a while of any attribute, sign and value.
fn condition(r: &mut Random, owner: Owner) -> String {
    let (name, declared, entries) = owner;
    let any = entries.is_empty() || r.percent(2);
    let picked = if any { None } else { Some(r.one(entries)) };
    let (a, here) = picked.map_or_else(|| (r.below(declared.len()), None), |e| (e.0, Some(&e.1)));
    let kind = declared[a].1;
    let value = if let (Some(here), true) = (here, r.percent(40)) { here.clone() } else { value(r, kind) };
    let signs: &[&str] = match here.map(|here| order(kind, here, &value)) {
        None => &["=", "<>", "<", "<=", ">", ">="],
        Some(Ordering::Equal) => &["=", "<=", ">="],
        Some(Ordering::Less) => &["<>", "<", "<="],
        Some(Ordering::Greater) => &["<>", ">", ">="],
    };
    // between truth values there are two signs, which stand first
    let suited = if kind == BOOL { signs.len().div_ceil(3) } else { signs.len() };
    format!("{name}.{} {} {value}", declared[a].0, r.one(&signs[..suited]))
}

/// Up to sixteen conditions on these owners, as far as they can be asked for anything.
fn conditions(r: &mut Random, owners: &[Owner]) -> String {
    let asked: Vec<Owner> = owners.iter().filter(|o| !o.1.is_empty()).copied().collect();
    let count = if r.percent(35) { CONDITIONS } else { r.from_to(1, CONDITIONS) };
    let mut all = Vec::new();
    while !asked.is_empty() && all.len() < count {
        let owner = *r.one(&asked);
        all.push(condition(r, owner));
    }
    if all.is_empty() { String::new() } else { format!(" Where {}", all.join(" AND ")) }
}

/// A relationship from a node, if it has one.
fn from<'a>(r: &mut Random, world: &'a World, node: usize) -> Option<&'a Rel> {
    let all: Vec<&Rel> = world.rels.iter().filter(|x| x.from == node).collect();
    if all.is_empty() { None } else { Some(*r.one(&all)) }
}

/// A query and a policy: the masts that the requestor runs, or those that these run, with conditions on one owner or two.
fn patterns(r: &mut Random, world: &World, hub: usize) -> (String, String) {
    let none = Entries::new();
    let first = from(r, world, hub);
    let second = first.and_then(|x| from(r, world, x.to));
    let vertex = |name, x: Option<&'_ Rel>| (name, &world.vattrs[..], x.map_or(&none, |x| &world.nodes[x.to].1));
    let [e, f] = [("e", first), ("f", second)].map(|(name, x)| (name, &world.eattrs[..], x.map_or(&none, |x| &x.entries)));
    let (s, t, requestor) = (vertex("s", first), vertex("t", second), ("requestor", &world.vattrs[..], &world.nodes[hub].1));
    let one = *r.one(&["(requestor)-[e:runs]->(s)", "(s)<-[e:runs]-(requestor)"]);
    let two = "(requestor)-[e:runs]->(s)-[f:runs]->(t)";
    let (chain, owners, returned) = match r.below(8) {
        0..=2 => (one, vec![s], "s"),
        3 => (one, vec![s, requestor], "requestor, s"),
        4 => (one, vec![s, e], "s"),
        5 => (one, vec![e], "s"),
        6 => (two, vec![s, t], "t, s"),
        _ => (two, vec![t, f], "t"),
    };
    let query = format!("Match {chain}{} Return {returned}", conditions(r, &owners));
    let asked = if r.percent(50) { conditions(r, &[s]) } else { String::new() };
    (query, format!("Match (requestor)-[e:runs]->(s){asked} Return s"))
}

/// The next set. In half of them the query's mast is the policy's, and has the conditions of both.
pub fn case(r: &mut Random) -> Texts {
    let (world, hub) = world(r);
    let (query, policy) = patterns(r, &world, hub);
    let actors = *r.one(&["requestor", "requestor s"]);
    let request = format!("(request view (id requestor {}))\n", world.nodes[hub].0);
    let book = if r.percent(15) { spoiled_book(r, world) } else { book(r, &world, None) };
    let rules = format!("(category view (actors {actors}) (over))\n(policy view \"{policy}\")\n");
    Texts { book: book.into(), rules: rules.into(), query: query.into(), request: request.into() }
}
