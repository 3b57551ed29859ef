//! Times requirements of masts, nodes of many entries: whole lists whose sixteen conditions every mast meets, and one test by the place of its attribute on
//! the mast's line. A test looks at the entries up to the attribute's own, so that what stands behind it must not matter.
use crate::dense::Random;
use crate::{call, shown, times, work, Call};
use hifmuneth::lent;
use std::cell::RefCell;

const RULES: &str = "(category view (actors requestor) (over))\n(policy view \"Match (requestor) Return requestor\")\n";
const REQUEST: &str = "(request view (id requestor mast_000))\n";
const ATTRIBUTES: usize = 32;
const CONDITIONS: usize = 16;
const ENTRIES: usize = 2048;

/// A book of masts, of each the attributes on its line in their order; the first mast runs the others.
fn book(masts: &[Vec<usize>]) -> String {
    let declared: String = (0..ATTRIBUTES).map(|a| format!("(vattr ch_{a:02} int)\n")).collect();
    let entry = |i: usize, a: usize| format!(" (ch_{a:02} {})", 10 + (i * 5 + a * 3) % 80);
    let line = |i: usize| format!("(node mast_{i:03}{})\n", masts[i].iter().map(|a| entry(i, *a)).collect::<String>());
    let rels: String = (1..masts.len()).map(|i| format!("(rel runs mast_000 mast_{i:03})\n")).collect();
    declared + "(label runs)\n" + &(0..masts.len()).map(line).collect::<String>() + &rels
}

/// A query with sixteen conditions on a vertex, on these attributes by turns: every mast that has them meets them. Without attributes there is none.
fn query(vertex: &str, attributes: &[usize]) -> String {
    let condition = |k: usize| format!("{vertex}.ch_{:02} < {}", attributes[k % attributes.len()], 100 + k);
    let conditions = match attributes {
        [] => String::new(),
        _ => format!(" Where {}", (0..CONDITIONS).map(condition).collect::<Vec<_>>().join(" AND ")),
    };
    format!("Match (requestor)-[e:runs]->(s){conditions} Return s")
}

/// Row words and working memory, which the calls of a group share: each finds them as warm as the others do.
type Memory = RefCell<(Vec<u32>, Vec<u32>)>;

fn memory() -> Memory {
    RefCell::new((vec![0; 256], work()))
}

/// The list of every mast but the first.
fn list<'a>(name: &'static str, book: &'a str, query: &'a str, masts: usize, memory: &'a Memory) -> Call<'a> {
    let list = move || {
        let (rows, w) = &mut *memory.borrow_mut();
        lent::list(book.as_bytes(), RULES.as_bytes(), query.as_bytes(), REQUEST.as_bytes(), rows, w).expect("a list").rows
    };
    assert_eq!(list(), masts - 1, "{name}: {query}");
    call(name, list)
}

fn reading<'a>(name: &'static str, book: &'a str, memory: &'a Memory) -> Call<'a> {
    call(name, move || lent::read_book(book.as_bytes(), &mut memory.borrow_mut().1))
}

/// How many entries each mast has: 8 to 32, and 2,048 in all.
fn sizes() -> Vec<usize> {
    let (mut sizes, mut left) = (Vec::new(), ENTRIES);
    while left > 0 {
        // the last ones are such that none is too short and nothing is left
        let size = if left <= ATTRIBUTES { left } else { (8 + sizes.len() * 7 % 25).min(left - 8) };
        sizes.push(size);
        left -= size;
    }
    sizes
}

fn whole_lists() {
    let (sizes, mut random) = (sizes(), Random(5));
    let declared = book(&sizes.iter().map(|n| (0..*n).collect()).collect::<Vec<_>>());
    let turned = book(&sizes.iter().map(|n| (1..*n).chain([0]).collect()).collect::<Vec<_>>());
    let shuffled = book(&sizes.iter().map(|n| random.some(*n, *n)).collect::<Vec<_>>());
    let eight: Vec<usize> = (0..8).collect();
    let [none, alone, one, turns] = [query("s", &[]), query("requestor", &eight), query("s", &[0]), query("s", &eight)];
    let (masts, memory) = (sizes.len(), memory());
    let mut calls = vec![
        reading("read_book, lines in declared order", &declared, &memory),
        reading("read_book, the first attribute last", &turned, &memory),
        reading("read_book, lines shuffled", &shuffled, &memory),
        list("list, no condition", &declared, &none, masts, &memory),
        list("list, 16 on the requestor alone", &declared, &alone, masts, &memory),
        list("list, 16 on the first of each line", &declared, &one, masts, &memory),
        list("list, 16 on the last of each line", &turned, &one, masts, &memory),
        list("list, 16 on 8 by turns, declared order", &declared, &turns, masts, &memory),
        list("list, 16 on 8 by turns, shuffled", &shuffled, &turns, masts, &memory),
    ];
    let times = times(&mut calls);
    println!("requirements of {masts} masts of {} to {} entries, {ENTRIES} in all", sizes.iter().min().unwrap(), sizes.iter().max().unwrap());
    shown(&calls, &times);
}

/// Masts with so many entries each, in declared order; a query asks each of them for the attribute at a place, another asks the requestor alone.
struct Lines {
    masts: usize,
    entries: usize,
    book: String,
    asked: Vec<(usize, String, String)>,
}

fn lines(masts: usize, entries: usize, places: &[usize]) -> Lines {
    let asked = places.iter().map(|place| (*place, query("s", &[place - 1]), query("requestor", &[place - 1]))).collect();
    Lines { masts, entries, book: book(&vec![(0..entries).collect(); masts]), asked }
}

/// Nanoseconds of one test: by what a list takes beyond one that tests the requestor alone, as the first one does too.
fn nanoseconds(masts: usize, every: f64, alone: f64) -> f64 {
    (every - alone) * 1e3 / (CONDITIONS * (masts - 1)) as f64
}

/// Prints the time of one test at each place, and answers the least time at the last place.
fn by_place(lines: &[Lines]) -> Vec<f64> {
    let (memory, mut calls) = (memory(), Vec::new());
    for l in lines {
        for (_, every, alone) in &l.asked {
            calls.push(list("every mast", &l.book, every, l.masts, &memory));
            calls.push(list("the requestor alone", &l.book, alone, l.masts, &memory));
        }
    }
    let times = times(&mut calls);
    let mut pairs = times.chunks(2);
    println!("  {:42} {:>12} {:>12}", "nanoseconds of one test", "least", "median");
    let shown = |l: &Lines| {
        let mut last = 0.0;
        for ((place, ..), pair) in l.asked.iter().zip(&mut pairs) {
            last = nanoseconds(l.masts, pair[0].0, pair[1].0);
            let name = format!("place {place} of {}, {} masts", l.entries, l.masts);
            println!("  {name:42} {last:12.2} {:12.2}", nanoseconds(l.masts, pair[0].1, pair[1].1));
        }
        last
    };
    lines.iter().map(shown).collect()
}

pub fn run() {
    whole_lists();
    println!("requirements by the place of their attribute, 16 of each mast");
    by_place(&[lines(64, 32, &[1, 2, 4, 8, 16, 24, 32])]);
    by_place(&[lines(255, 8, &[1, 2, 4, 8])]);
    let last = by_place(&[lines(64, 32, &[8]), lines(64, 8, &[8])]);
    println!("  at place 8 of 32 a test takes {:.2} times what it takes at place 8 of 8, by the least", last[0] / last[1]);
}
