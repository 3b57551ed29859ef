//! Times the lamp against the list of the same texts: dense searches, with rows and without, and lists that nearly fill 16,384 row words. Where there is a
//! row the lamp stops at the first; where there is none it searches as the list does.
use crate::dense::{dense, Size};
use crate::{call, shown, times, work};
use hifmuneth::lent;
use std::fmt::Write;

/// The four texts of a call.
pub struct Asked {
    pub name: &'static str,
    pub book: String,
    pub rules: String,
    pub query: String,
    pub request: String,
}

/// A full book: an officer who runs four hubs, so many stations that each feed three of them, other stations near one another.
fn book(stations: usize) -> String {
    let name = |i: usize| match i {
        0 => "officer".to_string(),
        1..=4 => format!("hub_{i}"),
        _ => format!("station_{i:03}"),
    };
    let mut book = String::from("(vattr rate int)\n(label runs)\n(label feeds)\n(label near)\n");
    (0..256).for_each(|i| writeln!(book, "(node {} (rate {}))", name(i), (i * 37) % 101).unwrap());
    (1..=4).for_each(|h| writeln!(book, "(rel runs officer {})", name(h)).unwrap());
    for s in 5..5 + stations {
        (0..3).for_each(|h| writeln!(book, "(rel feeds {} {})", name(s), name(1 + (s + h) % 4)).unwrap());
    }
    let left = 1024 - 4 - 3 * stations;
    let (first, others) = (5 + stations, 251 - stations);
    (0..left).for_each(|i| writeln!(book, "(rel near {} {})", name(first + i % others), name(first + (i * 7 + i / others) % others)).unwrap());
    book
}

/// Every choice of so many of the officer's stations, each by way of a hub of its own.
fn choices(name: &'static str, stations: usize, width: usize, differ: bool) -> Asked {
    let of = |text: &dyn Fn(usize) -> String, between: &str| (0..width).map(text).collect::<Vec<_>>().join(between);
    let matches = of(&|i| format!("Match (requestor)-[a{i}:runs]->(h{i})<-[b{i}:feeds]-(s{i})"), " ");
    let condition = if differ { " Where s0 <> s1" } else { "" };
    Asked {
        name,
        book: book(stations),
        rules: "(category view (actors requestor) (over))\n(policy view \"Match (requestor)-[r:runs]->(h) Return h\")\n".into(),
        query: format!("{matches}{condition} Return {}", of(&|i| format!("s{i}"), ", ")),
        request: "(request view (id requestor officer))\n".into(),
    }
}

fn measure(t: &Asked) {
    let [book, rules, query, request] = [&t.book, &t.rules, &t.query, &t.request].map(|s| s.as_bytes());
    let (mut rows, mut w1, mut w2, mut w3) = (vec![0; 16_384], work(), work(), work());
    let counts = lent::list(book, rules, query, request, &mut rows, &mut w1).expect("a list");
    assert_eq!(lent::lamp(book, rules, query, request, &mut w2), Ok(counts.rows > 0));
    assert_eq!(plain::list::lamp(book, rules, query, request, w2.len()), Ok(counts.rows > 0));
    let mut calls = vec![
        call("list", move || lent::list(book, rules, query, request, &mut rows, &mut w1)),
        call("lamp", move || lent::lamp(book, rules, query, request, &mut w2)),
        call("read_book", move || lent::read_book(book, &mut w3)),
    ];
    let times = times(&mut calls);
    println!("lamp, {}: {} rows of {}", t.name, counts.rows, counts.width);
    shown(&calls, &times);
    println!("  the lamp takes {:.2} times the list, by the least", times[1].0 / times[0].0);
}

pub fn run() {
    let size = |nodes: usize, relationships: usize, edges: usize, returns: usize| Size { nodes, relationships, edges, returns };
    for t in [
        dense("dense search, 33 nodes", size(33, 256, 9, 2), 9),
        dense("dense search, 33 nodes, many mappings", size(33, 256, 9, 2), 18),
        dense("dense search, 60 nodes", size(60, 400, 10, 2), 36),
        dense("dense search, 60 nodes, few rows", size(60, 400, 10, 2), 20),
        dense("dense search, 120 nodes", size(120, 700, 10, 3), 48),
        dense("dense search, 120 nodes, no row", size(120, 700, 12, 3), 15),
        choices("pairs of 90 stations", 90, 2, false),
        choices("pairs of two of 91 stations", 91, 2, true),
        choices("three of 17 stations", 17, 3, false),
    ] {
        measure(&t);
    }
}
