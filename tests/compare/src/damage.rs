//! Damage to a text: bytes flipped, dropped or added, lines dropped, doubled or swapped, names swapped or their case turned.
use crate::random::Random;
use crate::twins::turned;

const WORDS: [&str; 22] = [
    "a", "rate", "hub", "requestor", "dut", "view", "tend", "Match", "Where", "AND", "Return", "true", "e0", "int", "node", "over", "9223372036854775808",
    "-0", "01", "'x'", "a_name_of_25_bytes_is_long", "<>",
];

fn lines(text: &[u8]) -> Vec<Vec<u8>> {
    text.split_inclusive(|b| *b == b'\n').map(|l| l.to_vec()).collect()
}

/// Where words and numbers begin and end.
fn words(text: &[u8]) -> Vec<(usize, usize)> {
    let inside = |b: u8| b.is_ascii_alphanumeric() || b == b'_';
    let mut out = Vec::new();
    let mut at = 0;
    while at < text.len() {
        let from = at;
        while at < text.len() && inside(text[at]) {
            at += 1;
        }
        if at > from {
            out.push((from, at));
        } else {
            at += 1;
        }
    }
    out
}

fn bytes(r: &mut Random, text: &mut Vec<u8>) {
    let at = r.below(text.len());
    let marks = b" ()[]<>-'\".,:=\n\t\x7f\x80";
    let byte = if r.percent(70) { *r.one(marks) } else { r.word() as u8 };
    match r.below(3) {
        0 => text[at] = byte,
        1 => text.insert(at, byte),
        _ => drop(text.remove(at)),
    }
}

fn whole_lines(r: &mut Random, text: &mut Vec<u8>) {
    let mut all = lines(text);
    let (i, j) = (r.below(all.len()), r.below(all.len()));
    match r.below(4) {
        0 => drop(all.remove(i)),
        1 => all.insert(j, all[i].clone()),
        2 => all.swap(i, j),
        _ => drop(all[i].pop()),
    }
    *text = all.concat();
}

fn names(r: &mut Random, text: &mut Vec<u8>) {
    let all = words(text);
    if all.is_empty() {
        return;
    }
    let (from, to) = *r.one(&all);
    let new: Vec<u8> = match r.below(10) {
        0..=4 => {
            let (a, b) = *r.one(&all);
            text[a..b].to_vec()
        }
        5 | 6 => turned(r, &String::from_utf8_lossy(&text[from..to])).into_bytes(),
        _ => r.one(&WORDS).bytes().collect(),
    };
    text.splice(from..to, new);
}

pub fn damage(r: &mut Random, text: &mut Vec<u8>) {
    if text.is_empty() || r.percent(2) {
        text.clear();
        return;
    }
    match r.below(5) {
        0 => bytes(r, text),
        1 | 2 => whole_lines(r, text),
        _ => names(r, text),
    }
}
