//! Compares the proved library with plain Rust.
//!
//! `compare [SEED] [COUNT]`: texts that are made to be slow, then nodes of many entries, then random cases. `compare vectors FOLDER`: the sets of a folder of
//! vectors.
//! It fails where the two differ, and where a text takes long to read or to refuse (`timed::LIMIT`), the search for rows aside.
mod cases;
mod channels;
mod check;
mod crowded;
mod damage;
mod lamp;
mod limits;
mod looked;
mod patterns;
mod random;
mod slow;
mod tally;
mod tidy;
mod timed;
mod twins;
mod untidy;
mod vectors;
mod words;
mod world;
mod writers;

use std::{env, panic, process, time::Instant};

const CASES: u64 = 12_000;

/// One case of a kind, from its own seed; a failure shows the texts. What plain Rust says of them, if the library agrees.
fn run(name: &str, seed: u64, case: fn(&mut random::Random) -> cases::Texts, tally: &mut tally::Tally) -> Option<check::Expected> {
    let mut r = random::Random::new(seed.wrapping_mul(0x2545_f491_4f6c_dd1d));
    let texts = case(&mut r);
    let done = panic::catch_unwind(panic::AssertUnwindSafe(|| {
        let expected = check::expect(&texts);
        let mut c = check::Check { texts: &texts, expected: &expected, random: &mut r };
        c.readers();
        c.writers();
        c.list(tally);
        c.lamp(tally);
        c.tidy();
        tally.case(&texts.book, &expected);
        expected
    }));
    if done.is_err() {
        println!("{name} {seed} differs:");
        for (name, t) in [("book", &texts.book), ("rules", &texts.rules), ("query", &texts.query), ("request", &texts.request)] {
            println!("--- {name}, {} bytes\n{}", t.len(), String::from_utf8_lossy(&t[..t.len().min(3000)]));
        }
    }
    done.ok()
}

/// Sets of channels, with a tally of their own.
fn run_channels(seed: u64) -> bool {
    let (mut looked, mut tally) = (looked::Looked::default(), tally::Tally::default());
    for i in seed..seed + channels::SETS {
        let Some(expected) = run("set of channels", i, channels::case, &mut tally) else { return false };
        looked.set(&expected);
    }
    looked.told()
}

fn main() {
    let args: Vec<String> = env::args().skip(1).collect();
    if args.first().map(String::as_str) == Some("vectors") {
        process::exit(!vectors::run(args.get(1).expect("a folder")) as i32);
    }
    let seed = args.first().map_or(1, |s| s.parse().expect("a seed"));
    let count = args.get(1).map_or(CASES, |s| s.parse().expect("a count"));
    let (start, mut tally) = (Instant::now(), tally::Tally::default());
    if !slow::run() || !run_channels(seed) {
        process::exit(1);
    }
    for i in seed..seed + count {
        let began = Instant::now();
        if run("case", i, cases::case, &mut tally).is_none() {
            process::exit(1);
        }
        if began.elapsed().as_millis() > 1000 {
            println!("case {i} took {:?}", began.elapsed());
        }
    }
    tally.print();
    println!("all agree, from seed {seed}, in {:.1} s", start.elapsed().as_secs_f64());
}
