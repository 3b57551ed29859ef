//! Compares plain Rust with a folder of vectors: `vectors FOLDER`.
use plain::{answers::answer, sets};
use std::{env, process};

fn main() {
    let folder = env::args().nth(1).expect("a folder");
    process::exit(!sets::run(&folder, &[("plain", &answer)]) as i32);
}
