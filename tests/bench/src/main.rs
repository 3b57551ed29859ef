//! Times whole calls of the library in one process, beside plain Rust, and tells what share reading, weaving and searching have.
//!
//! `bench renaming` times the renaming alone, `bench tidying` the tidying, `bench lamp` the lamp beside the list, `bench conditions` lists with conditions on
//! texts, `bench requirements` lists with conditions on nodes of many entries. The calls take turns, so that a busy moment of the machine falls on all of them.
mod conditions;
mod dense;
mod lamp;
mod renaming;
mod requirements;
mod texts;
mod tidying;

use hifmuneth::{lent, WORK_WORDS};
use std::hint::black_box;
use std::time::{Duration, Instant};
use texts::Texts;

type Call<'a> = (&'static str, Box<dyn FnMut() + 'a>);

/// A call whose answer the compiler believes to be used.
fn call<'a, T>(name: &'static str, mut f: impl FnMut() -> T + 'a) -> Call<'a> {
    (name, Box::new(move || drop(black_box(f()))))
}

/// Least and median time of each call, in microseconds: turns for two seconds, at least three.
fn times(calls: &mut [Call]) -> Vec<(f64, f64)> {
    let (start, mut runs) = (Instant::now(), vec![Vec::new(); calls.len()]);
    while runs[0].len() < 3 || (start.elapsed() < Duration::from_secs(2) && runs[0].len() < 10_000) {
        for (call, run) in calls.iter_mut().zip(&mut runs) {
            let began = Instant::now();
            call.1();
            run.push(began.elapsed().as_secs_f64() * 1e6);
        }
    }
    runs.iter_mut().for_each(|r| r.sort_by(f64::total_cmp));
    runs.iter().map(|r| (r[0], r[r.len() / 2])).collect()
}

/// A table of the calls with their times.
fn shown(calls: &[Call], times: &[(f64, f64)]) {
    println!("  {:42} {:>12} {:>12}", "microseconds", "least", "median");
    for (call, (least, median)) in calls.iter().zip(times) {
        println!("  {:42} {least:12.1} {median:12.1}", call.0);
    }
}

fn work() -> Vec<u32> {
    vec![0; WORK_WORDS]
}

fn measure(t: &Texts) {
    let [book, rules, query, request, nowhere] = [&t.book, &t.rules, &t.query, &t.request, &t.nowhere].map(|s| s.as_bytes());
    let (mut rows, mut w) = (vec![0; 16_384], work());
    let counts = lent::read_book(book, &mut w).expect("a book");
    let count = lent::list(book, rules, query, request, &mut rows, &mut w).expect("a list").rows;
    let plainly = |enumerate: bool| plain::list::list(book, rules, query, request, 16_384, WORK_WORDS, enumerate);
    assert_eq!(count, plainly(false).expect("a list").len());
    let (mut rows2, mut ids, mut text) = (rows.clone(), [0; lent::IDENTITY_WORDS], vec![0; 2048]);
    let (mut pattern, mut names) = (lent::PatternWords::default(), [0; lent::NAME_BYTES]);
    let [mut w1, mut w2, mut w3, mut w4, mut w5, mut w6, mut w7, mut w8, mut w9] = [0; 9].map(|_| work());
    let mut calls = vec![
        call("list", move || lent::list(book, rules, query, request, &mut rows, &mut w1)),
        call("list that ends before the search", move || lent::list(book, rules, query, nowhere, &mut rows2, &mut w2)),
        call("read_book", move || lent::read_book(book, &mut w3)),
        call("read_rules", move || lent::read_rules(book, rules, &mut w4)),
        call("read_query", move || lent::read_query(book, query, &mut pattern, &mut w5)),
        call("read_request", move || lent::read_request(book, rules, request, &mut ids, &mut w6)),
        call("write_query", move || lent::write_query(book, rules, query, &mut text, &mut w7)),
        call("node_names", move || lent::node_names(book, &mut names, &mut w8)),
        call("lamp", move || lent::lamp(book, rules, query, request, &mut w9)),
        call("plain Rust, search", move || plainly(false)),
    ];
    if t.enumerable {
        calls.push(call("plain Rust, enumeration of all mappings", move || plainly(true)));
    }
    let times = times(&mut calls);
    println!("{}: {} bytes, {} nodes, {} relationships, {} entries; {count} rows", t.name, book.len(), counts.nodes, counts.relationships, counts.entries);
    shown(&calls, &times);
    let least = |i: usize| times[i].0;
    let [b, r, q, x] = [least(2), least(3) - least(2), least(4) - least(2), least(5) - least(3)];
    println!("  by differences of the least: book {b:.1}, rules {r:.1}, query {q:.1}, request {x:.1},");
    println!("  weaving and preparing {:.1}, searching {:.1}", least(1) - (b + r + q + x), least(0) - least(1));
}

fn main() {
    match std::env::args().nth(1).as_deref() {
        Some("renaming") => return renaming::run(),
        Some("tidying") => return tidying::run(),
        Some("lamp") => return lamp::run(),
        Some("conditions") => return conditions::run(),
        Some("requirements") => return requirements::run(),
        _ => {}
    }
    for t in [texts::worked(), texts::full(), texts::dense()] {
        measure(&t);
    }
    renaming::run();
    tidying::run();
    lamp::run();
    conditions::run();
    requirements::run();
}
