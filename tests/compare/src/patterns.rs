//! Random queries and policies over a world. They grow along its relationships from its actors' nodes, so that most have models.
use crate::random::Random;
use crate::world::*;

const FREE: [&str; 8] = ["h", "s", "t", "u", "v1", "v2", "dut", "requestor"];
const SIGNS: [&str; 6] = ["=", "<>", "<", "<=", ">", ">="];

/// Vertices and edges so far, each with where it lies in the world.
struct Growing<'a> {
    world: &'a World,
    actors: &'a [String],
    vertices: Vec<(String, usize)>,
    edges: Vec<(String, usize)>,
}

impl Growing<'_> {
    /// A vertex at a node: one that lies there, or a new one.
    fn vertex_at(&mut self, r: &mut Random, node: usize, most: usize) -> Option<String> {
        let there: Vec<String> = self.vertices.iter().filter(|v| v.1 == node).map(|v| v.0.clone()).collect();
        if !there.is_empty() && (r.percent(45) || self.vertices.len() >= most) {
            return Some(r.one(&there).clone());
        }
        if self.vertices.len() >= most {
            return None;
        }
        let (used, world) = (|n: &String| self.vertices.iter().any(|v| v.0 == *n), self.world);
        let here: Vec<String> = self.actors.iter().filter(|a| world.node_of(a) == node && !used(a)).cloned().collect();
        let mut name = if !here.is_empty() && r.percent(60) { r.one(&here).clone() } else { r.one(&FREE).to_string() };
        if used(&name) || (self.actors.contains(&name) && world.node_of(&name) != node && !r.percent(5)) {
            name = format!("w{}", self.vertices.len());
        }
        self.vertices.push((name.clone(), node));
        Some(name)
    }

    fn chain(&mut self, r: &mut Random, start: (String, usize), most: usize) -> String {
        let (mut text, mut at) = (format!("({})", start.0), start.1);
        let steps = if r.percent(10) { 0 } else { r.from_to(1, 3) };
        for _ in 0..steps {
            let near: Vec<usize> = (0..self.world.rels.len()).filter(|i| self.world.rels[*i].from == at || self.world.rels[*i].to == at).collect();
            if near.is_empty() {
                break;
            }
            let i = if r.percent(4) { r.below(self.world.rels.len()) } else { *r.one(&near) };
            let x = &self.world.rels[i];
            let forward = if x.from == x.to { r.percent(50) } else { x.from == at };
            let (node, label) = (if forward { x.to } else { x.from }, self.world.labels[x.label].clone());
            let Some(v) = self.vertex_at(r, node, most) else { break };
            let e = format!("e{}", self.edges.len());
            self.edges.push((e.clone(), i));
            text += &if forward { format!("-[{e}:{label}]->({v})") } else { format!("<-[{e}:{label}]-({v})") };
            at = node;
        }
        text
    }

    fn condition(&self, r: &mut Random) -> Option<String> {
        if r.percent(30) && self.vertices.len() > 1 {
            let (u, v) = (r.one(&self.vertices).clone(), r.one(&self.vertices).clone());
            let itself = u.0 == v.0 && !r.percent(3);
            return if !itself && (u.1 != v.1 || r.percent(10)) { Some(format!("{} <> {}", u.0, v.0)) } else { None };
        }
        let of_edge = r.percent(35) && !self.edges.is_empty();
        let (name, attrs, entries) = if of_edge {
            let e = r.one(&self.edges);
            (&e.0, &self.world.eattrs, &self.world.rels[e.1].entries)
        } else {
            let v = r.one(&self.vertices);
            (&v.0, &self.world.vattrs, &self.world.nodes[v.1].1)
        };
        if attrs.is_empty() {
            return None;
        }
        let likely = !entries.is_empty() && r.percent(85);
        let a = if likely { r.one(entries).0 } else { r.below(attrs.len()) };
        let (attr, kind) = &attrs[a];
        let (mistyped, any_sign) = (r.percent(1), r.percent(2));
        let sign = *r.one(&SIGNS[..if *kind != BOOL || any_sign { 6 } else { 2 }]);
        let mut value = value(r, if mistyped { (kind + 1) % 3 } else { *kind });
        if let (Some((_, here)), true) = (entries.iter().find(|e| e.0 == a), !mistyped && r.percent(60)) {
            if sign.contains('=') {
                value = here.clone();
            }
        }
        let space = if r.percent(80) { " " } else { "" };
        Some(format!("{name}.{attr}{space}{sign}{space}{value}"))
    }
}

/// A query or policy of a category with these actors; so many of a hundred Matches have conditions.
pub fn pattern(r: &mut Random, world: &World, actors: &[String], most: usize, conditions: usize) -> String {
    let mut g = Growing { world, actors, vertices: vec![], edges: vec![] };
    let mut text = String::new();
    let matches = r.from_to(1, 3);
    for m in 0..matches {
        let start = if m == 0 || (g.vertices.len() < most && r.percent(20)) {
            let name = if m == 0 && r.percent(90) { "requestor".to_string() } else { r.one(actors).clone() };
            let at = (name.clone(), world.node_of(&name));
            if !g.vertices.iter().any(|v| v.0 == name) {
                g.vertices.push(at.clone());
            }
            at
        } else {
            r.one(&g.vertices).clone()
        };
        let gap = if r.percent(90) { " " } else { "  " };
        text += &format!("{}Match{gap}{}", if m == 0 { "" } else { gap }, g.chain(r, start, most));
        let wanted = if r.percent(conditions) { r.from_to(1, 2) } else { 0 };
        let conditions: Vec<String> = (0..wanted).filter_map(|_| g.condition(r)).collect();
        if !conditions.is_empty() {
            text += &format!(" Where {}", conditions.join(" AND "));
        }
    }
    if r.percent(2) {
        text += " Match (untied)";
    }
    let mut names: Vec<String> = g.vertices.iter().map(|v| v.0.clone()).collect();
    r.shuffle(&mut names);
    if r.percent(70) {
        names.sort_by_key(|n| n == "requestor");
    }
    let returns = r.from_to(1, names.len().min(4));
    format!("{text} Return {}", names[..returns].join(if r.percent(80) { ", " } else { "," }))
}
