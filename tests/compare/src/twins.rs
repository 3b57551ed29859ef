//! Node names of which some differ only by case, and what that does to a book: what the rule of names and the renaming are about.
use crate::random::Random;

/// A name with the case of some letters turned.
pub fn turned(r: &mut Random, name: &str) -> String {
    name.chars().map(|c| if !r.percent(40) { c } else if c.is_ascii_uppercase() { c.to_ascii_lowercase() } else { c.to_ascii_uppercase() }).collect()
}

/// A name that has to do with another: it case aside, or what its renaming would give, or that renamed again.
fn twin(r: &mut Random, name: &str) -> String {
    let end = match r.below(10) {
        0..=6 => "",
        7 | 8 => "_b",
        _ => "_b_b",
    };
    turned(r, &(name.to_string() + end))
}

/// Some of the names made long, so that their new ones pass 24 bytes or just do not; then some twins, at any places. All are different names.
pub fn with_twins(r: &mut Random, mut names: Vec<String>) -> Vec<String> {
    if r.percent(25) {
        let length = r.from_to(20, 24);
        let i = r.below(names.len());
        names[i] = "long_node_name_of_a_mast".chars().take(length).collect();
    }
    for _ in 0..r.from_to(1, 3) {
        let of = r.below(names.len());
        let new = twin(r, &names[of].clone());
        if new.len() <= 24 && !names.contains(&new) {
            let at = r.below(names.len() + 1);
            names.insert(at, new);
        }
    }
    names
}

/// A book made long by spaces at one of its lines: so long that the renaming passes 65,536 bytes at some name, just does not, or is far from it.
pub fn grown(r: &mut Random, book: &mut Vec<u8>) {
    let Ok(new) = plain::rename::renamed(book) else { return };
    let growth = new.len() - book.len();
    let wanted = match r.below(10) {
        0..=2 => 65_536 - r.below(2),
        3..=5 => 65_537 - growth - r.below(3),
        _ => 65_536 - r.below(growth + 4),
    };
    let line_feeds: Vec<usize> = (0..book.len()).filter(|i| book[*i] == b'\n').collect();
    let at = if line_feeds.is_empty() || r.percent(20) { 0 } else { *r.one(&line_feeds) + r.below(2) };
    if at < book.len() {
        let spaces = vec![b' '; wanted.saturating_sub(book.len())];
        book.splice(at..at, spaces);
    }
}
