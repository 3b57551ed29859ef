//! Where the names and the text values of an accepted query stand in it: found by its brackets and quotes alone.

/// Start and length of each, in the order of the text; of each vertex where it first stands.
#[derive(Default)]
pub struct Places {
    pub vertices: Vec<(usize, usize)>,
    pub edges: Vec<(usize, usize)>,
    pub texts: Vec<(usize, usize)>,
}

/// The word behind an opening bracket and blanks.
fn word_behind(query: &[u8], bracket: usize) -> (usize, usize) {
    let blank = |b: &&u8| **b == b' ' || **b == b'\n';
    let start = bracket + 1 + query[bracket + 1..].iter().take_while(blank).count();
    let length = query[start..].iter().take_while(|b| b.is_ascii_alphanumeric() || **b == b'_').count();
    (start, length)
}

pub fn places(query: &[u8]) -> Places {
    let (mut out, mut at) = (Places::default(), 0);
    let name = |(start, length): (usize, usize)| &query[start..start + length];
    while at < query.len() {
        match query[at] {
            b'(' => {
                let v = word_behind(query, at);
                if !out.vertices.iter().any(|u| name(*u) == name(v)) {
                    out.vertices.push(v);
                }
            }
            b'[' => out.edges.push(word_behind(query, at)),
            b'\'' => {
                let length = query[at + 1..].iter().position(|b| *b == b'\'').expect("a closed quote");
                out.texts.push((at + 1, length));
                at += length + 1;
            }
            _ => {}
        }
        at += 1;
    }
    out
}
