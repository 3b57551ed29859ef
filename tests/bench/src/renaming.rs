//! Times the renaming of a full book of 60 KB against reading it: it is to take at most twice as long.
use crate::{call, shown, times, work};
use hifmuneth::{lent, BOOK_BYTES};
use std::fmt::Write;

/// 256 nodes and 1,024 relationships; in pairs every other node's name is the one before but for case.
fn full(pairs: bool) -> String {
    let name = |i: usize| match pairs && i % 2 == 1 {
        true => format!("Station_{:03}_east", i - 1),
        false => format!("station_{i:03}_east"),
    };
    let mut book = String::from("(vattr kind str)\n(vattr rate int)\n(label feeds)\n");
    for i in 0..256 {
        writeln!(book, "(node {} (rate {}) (kind 'mast'))", name(i), (i * 37) % 101).unwrap();
    }
    for i in 0..1024 {
        writeln!(book, "(rel feeds {} {})", name(i % 256), name((i * 7 + i / 256 * 3 + 1) % 256)).unwrap();
    }
    book
}

/// A book with pairs cannot be read as it is, so it is the renamed one that is read.
fn measure(title: &str, book: &str) {
    let new = hifmuneth::rename_book(book.as_bytes()).expect("a renamed book");
    assert_eq!(Ok(&new), plain::rename::renamed(book.as_bytes()).as_ref());
    let counts = hifmuneth::read_book(&new).expect("a book");
    let (mut text, mut w1, mut w2) = (vec![0; BOOK_BYTES], work(), work());
    let read = &new;
    let mut calls = vec![
        call("read_book", move || lent::read_book(read, &mut w1)),
        call("rename_book", move || lent::rename_book(book.as_bytes(), &mut text, &mut w2)),
    ];
    let times = times(&mut calls);
    println!("{title}: {} bytes, renamed {}, {} nodes, {} relationships", book.len(), new.len(), counts.nodes, counts.relationships);
    shown(&calls, &times);
    println!("  renaming takes {:.2} times the reading, by the least; at most 2 is wanted", times[1].0 / times[0].0);
}

pub fn run() {
    measure("renaming, names in pairs that differ by case", &full(true));
    measure("renaming, nothing to rename", &full(false));
}
