//! Whole cases: book, rules, query, request; most of them in order, some damaged, some at a limit.
use crate::damage::damage;
use crate::limits::at_limit;
use crate::patterns::pattern;
use crate::random::Random;
use crate::twins::grown;
use crate::untidy::reformed;
use crate::world::*;

#[derive(Clone, Debug, Default)]
pub struct Texts {
    pub book: Vec<u8>,
    pub rules: Vec<u8>,
    pub query: Vec<u8>,
    pub request: Vec<u8>,
}

struct Category {
    name: String,
    actors: Vec<String>,
}

fn category(r: &mut Random, name: &str, earlier: &[Category]) -> (Category, Vec<String>) {
    let mut actors = vec!["requestor".to_string()];
    let over: Vec<&Category> = earlier.iter().filter(|_| r.percent(55)).collect();
    for a in over.iter().flat_map(|c| &c.actors) {
        if !actors.contains(a) {
            actors.push(a.clone());
        }
    }
    for a in ACTORS {
        if r.percent(30) && !actors.contains(&a.to_string()) && actors.len() < 8 {
            actors.push(a.to_string());
        }
    }
    r.shuffle(&mut actors);
    (Category { name: name.to_string(), actors }, over.iter().map(|c| c.name.clone()).collect())
}

fn sound(r: &mut Random, twins: bool) -> Texts {
    let world = World::new(r, twins);
    let mut rules = String::new();
    let mut categories: Vec<Category> = Vec::new();
    let mut late = Vec::new();
    for name in ["view", "tend", "rule", "own"].iter().take(r.from_to(1, 4)) {
        let (c, over) = category(r, name, &categories);
        rules += &(spaced(r, &format!("(category {name} (actors {}) (over{}))", c.actors.join(" "), over.iter().map(|o| format!(" {o}")).collect::<String>())) + "\n");
        if over.is_empty() || r.percent(60) {
            let most = r.from_to(1, 4);
            let line = format!("(policy {name} \"{}\")\n", pattern(r, &world, &c.actors, most, 25));
            if r.percent(70) { rules += &line } else { late.push(line) }
        }
        categories.push(c);
    }
    rules += &late.concat();
    let c = if r.percent(65) { categories.last().unwrap() } else { r.one(&categories) };
    let mut ids = vec!["requestor".to_string()];
    ids.extend(c.actors.iter().filter(|a| *a != "requestor" && r.percent(40)).cloned());
    r.shuffle(&mut ids);
    if r.percent(1) {
        ids.retain(|a| a != "requestor");
    }
    let given: String = ids
        .iter()
        .map(|a| {
            let node = if r.percent(93) { world.node_of(a) } else { r.below(world.nodes.len()) };
            format!(" (id {a} {})", world.nodes[node].0)
        })
        .collect();
    let most = r.from_to(1, 5);
    Texts {
        book: world.book(r).into_bytes(),
        rules: rules.into_bytes(),
        query: pattern(r, &world, &c.actors, most, 45).into_bytes(),
        request: (spaced(r, &format!("(request {}{given})", c.name)) + "\n").into_bytes(),
    }
}

/// A stored book whose names differ by case: left so, made long, or renamed already.
fn stored(r: &mut Random, texts: &mut Texts) {
    match r.below(10) {
        0 => grown(r, &mut texts.book),
        1..=4 => texts.book = plain::rename::renamed(&texts.book).unwrap_or(std::mem::take(&mut texts.book)),
        _ => {}
    }
}

/// The next case: mostly in order; with node names that differ by case in some, tidy or untidy in some, damaged in some; at a limit now and then.
pub fn case(r: &mut Random) -> Texts {
    let twins = r.percent(20);
    let mut texts = sound(r, twins);
    if twins {
        stored(r, &mut texts);
    }
    if r.percent(6) {
        at_limit(r, &mut texts);
    }
    reformed(r, &mut texts.book);
    if r.percent(30) {
        for _ in 0..r.from_to(1, 2) {
            match r.below(8) {
                0 | 1 => damage(r, &mut texts.book),
                2 | 3 | 4 => damage(r, &mut texts.rules),
                5 | 6 => damage(r, &mut texts.query),
                _ => damage(r, &mut texts.request),
            }
        }
    }
    texts
}
