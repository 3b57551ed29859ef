//! Times lists with conditions on texts: sixteen on 255 stations, whose texts are the same but for the last byte, so that each comparison goes to the end.
use crate::{call, shown, times, work};
use hifmuneth::lent;

const RULES: &str = "(category view (actors requestor) (over))\n(policy view \"Match (requestor) Return requestor\")\n";
const REQUEST: &str = "(request view (id requestor ana))\n";

/// A text of so many bytes with a last one.
fn value(bytes: usize, last: u8) -> String {
    format!("'{}{}'", "x".repeat(bytes - 1), last as char)
}

fn book(bytes: usize) -> String {
    let nodes: String = (0..255).map(|i| format!("(node mast_{i:03} (note {}))\n", value(bytes, b'b' + i % 24))).collect();
    let rels: String = (0..255).map(|i| format!("(rel runs ana mast_{i:03})\n")).collect();
    "(vattr note str)\n(label runs)\n(node ana)\n".to_string() + &nodes + &rels
}

/// A query whose sixteen conditions, if there is a sign, every station meets: no note ends in a or z.
fn query(bytes: usize, sign: &str) -> String {
    let last = if sign == "<=" { b'z' } else { b'a' };
    let conditions = match sign {
        "" => String::new(),
        _ => format!(" Where {}", vec![format!("s.note {sign} {}", value(bytes, last)); 16].join(" AND ")),
    };
    format!("Match (requestor)-[e:runs]->(s){conditions} Return s")
}

pub fn run() {
    for bytes in [1, 7, 40] {
        let (book, queries) = (book(bytes), ["", "<>", "<=", ">"].map(|sign| query(bytes, sign)));
        let names = ["list, no condition", "list, 16 times <>", "list, 16 times <=", "list, 16 times >"];
        let book = book.as_bytes();
        let mut calls: Vec<_> = names
            .iter()
            .zip(&queries)
            .map(|(name, query)| {
                let (mut rows, mut w) = (vec![0; 1024], work());
                let mut list = move || lent::list(book, RULES.as_bytes(), query.as_bytes(), REQUEST.as_bytes(), &mut rows, &mut w).expect("a list").rows;
                assert_eq!(list(), 255, "{name}");
                call(name, list)
            })
            .collect();
        let times = times(&mut calls);
        println!("conditions on texts of {bytes} bytes, of 255 stations that all meet them");
        shown(&calls, &times);
    }
}
