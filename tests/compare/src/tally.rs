//! What the cases covered, so that it can be seen.
use crate::check::Expected;
use plain::book::{read_book_by, same, same_but_case, Book, MOST_BOOK_BYTES};
use plain::list::asked;
use plain::query::{Clause, Relation};
use plain::text::{Refusal, Value};
use plain::tidy::tidy_text;
use std::collections::BTreeMap;

#[derive(Default)]
pub struct Tally {
    pub cases: usize,
    answers: BTreeMap<&'static str, BTreeMap<u32, usize>>,
    calls: BTreeMap<u32, usize>,
    lamps: BTreeMap<u32, usize>,
    yes: usize,
    seen: BTreeMap<&'static str, usize>,
    renamings: BTreeMap<&'static str, usize>,
    tidyings: BTreeMap<&'static str, usize>,
    rows: usize,
    most: usize,
}

impl Tally {
    fn answer<T>(&mut self, service: &'static str, answer: &Result<T, Refusal>) {
        let number = answer.as_ref().err().map_or(0, |r| r.number);
        *self.answers.entry(service).or_default().entry(number).or_default() += 1;
    }

    pub fn list<T>(&mut self, answer: &Result<T, Refusal>) {
        *self.calls.entry(answer.as_ref().err().map_or(0, |r| r.number)).or_default() += 1;
    }

    pub fn lamp(&mut self, answer: &Result<bool, Refusal>) {
        *self.lamps.entry(answer.as_ref().err().map_or(0, |r| r.number)).or_default() += 1;
        self.yes += (*answer == Ok(true)) as usize;
    }

    fn see(&mut self, what: &'static str, there: bool) {
        *self.seen.entry(what).or_default() += there as usize;
    }

    pub fn case(&mut self, book: &[u8], e: &Expected) {
        self.cases += 1;
        self.renaming(book, &e.renamed);
        self.tidying(book, e);
        self.answer("book", &e.book);
        self.answer("rules", &e.rules);
        self.answer("query", &e.query);
        self.answer("request", &e.request);
        self.answer("write", &e.written);
        self.answer("rename", &e.renamed);
        self.answer("tidy", &e.tidied);
        self.answer("list", &e.rows);
        let (Ok(b), Ok(r), Ok(q), Ok(x), Ok(rows)) = (&e.book, &e.rules, &e.query, &e.request, &e.rows) else { return };
        self.rows += rows.len();
        self.most = self.most.max(rows.len());
        let asked = asked(r, x, q);
        let actor = |i: usize, v: &Vec<u8>| asked[i].pattern.vertices.contains(v) && asked[i].actors.contains(v);
        let clauses: Vec<&Clause> = asked.iter().flat_map(|a| &a.pattern.clauses).collect();
        let value = |k: fn(&Value) -> bool| clauses.iter().any(|c| matches!(c, Clause::Vertex(_, _, _, v) | Clause::Edge(_, _, _, v) if k(v)));
        let edges: Vec<_> = asked.iter().flat_map(|a| &a.pattern.edges).collect();
        self.see("some row", !rows.is_empty());
        self.see("two rows or more", rows.len() > 1);
        self.see("enumerated", e.enumerated);
        self.see("policies from lower categories", !r.categories[x.category].over.is_empty() && asked.len() > 2);
        self.see("an actor besides requestor in two patterns", q.vertices.iter().any(|v| v != b"requestor" && actor(0, v) && (1..asked.len()).any(|i| actor(i, v))));
        self.see("a name in two patterns that is not joined", q.vertices.iter().any(|v| (1..asked.len()).any(|i| asked[i].pattern.vertices.contains(v) && !(actor(0, v) && actor(i, v)))));
        self.see("number conditions", value(|v| matches!(v, Value::Int(_))));
        self.see("text conditions", value(|v| matches!(v, Value::Str(_))));
        self.see("texts in order", clauses.iter().any(|c| in_order(c)));
        self.see("texts in order, of an edge", clauses.iter().any(|c| matches!(c, Clause::Edge(..)) && in_order(c)));
        self.see("texts in order, of an edge of a policy", asked[1..].iter().any(|a| a.pattern.clauses.iter().any(|c| matches!(c, Clause::Edge(..)) && in_order(c))));
        self.see("truth conditions", value(|v| matches!(v, Value::Bool(_))));
        self.see("edge conditions", clauses.iter().any(|c| matches!(c, Clause::Edge(..))));
        self.see("exclusions", clauses.iter().any(|c| matches!(c, Clause::Excluded(..))));
        self.see("self-loops", edges.iter().any(|e| e.from == e.to));
        self.see("more edges than a tree has", asked.iter().any(|a| a.pattern.edges.len() >= a.pattern.vertices.len()));
        self.see("absent attributes asked for", asked.iter().any(|a| a.pattern.clauses.iter().any(|c| matches!(c, Clause::Vertex(_, at, _, _) if b.nodes.iter().any(|n| n.entries.iter().all(|e| e.0 != *at))))));
    }

    /// What a book's renaming does, or why it cannot.
    fn renaming(&mut self, book: &[u8], renamed: &Result<Vec<u8>, Refusal>) {
        let Ok(b) = read_book_by(book, same) else { return };
        let names: Vec<&Vec<u8>> = b.nodes.iter().map(|n| &n.name).collect();
        let is_later = |i: &usize| names[..*i].iter().any(|n| same_but_case(n, names[*i]));
        let later: Vec<&Vec<u8>> = (0..names.len()).filter(is_later).map(|i| names[i]).collect();
        let what = match renamed {
            Ok(_) if later.is_empty() => "nothing to rename",
            Ok(_) if later.len() == 1 => "one name renamed",
            Ok(_) => "two names or more renamed",
            Err(r) => {
                let line = String::from_utf8_lossy(book.split(|b| *b == b'\n').nth(r.line as usize - 1).unwrap()).to_string();
                let new = line.split([' ', '(', ')']).filter(|w| !w.is_empty()).nth(1).unwrap().to_string() + "_b";
                let before = later.iter().take_while(|n| ***n != new.as_bytes()[..new.len() - 2]);
                match () {
                    _ if names.iter().any(|n| same_but_case(n, new.as_bytes())) => "refused: another node's name",
                    _ if before.map(|n| [n, &b"_b"[..]].concat()).any(|n| same_but_case(&n, new.as_bytes())) => "refused: a name given above",
                    _ if new.len() > 24 => "refused: the name too long",
                    _ if later.len() == 1 => "refused: the book too long",
                    _ => "refused: the book too long, several names",
                }
            }
        };
        *self.renamings.entry(what).or_default() += 1;
    }

    /// What tidying an accepted book changes, and what it holds.
    fn tidying(&mut self, book: &[u8], e: &Expected) {
        let Ok(b) = &e.book else { return };
        let length = tidy_text(b).len();
        let values: Vec<&Value> = b.nodes.iter().flat_map(|n| &n.entries).chain(b.rels.iter().flat_map(|x| &x.entries)).map(|e| &e.1).collect();
        let (lines, attributes) = (lines_move(book), attributes_move(b));
        for (what, there) in [
            ("tidy already", e.tidied.as_deref() == Ok(book)),
            ("other spaces alone", !lines && !attributes && e.tidied.as_deref() != Ok(book)),
            ("lines that move", lines),
            ("attributes that move", attributes),
            ("longer once tidy", length > book.len()),
            ("exactly 65,536 bytes once tidy", length == MOST_BOOK_BYTES),
            ("65,537 bytes once tidy, refused", length == MOST_BOOK_BYTES + 1),
            ("more bytes once tidy, refused", length > MOST_BOOK_BYTES + 1),
            ("the least number", values.contains(&&Value::Int(i64::MIN))),
            ("the greatest number", values.contains(&&Value::Int(i64::MAX))),
            ("an empty text", values.iter().any(|v| matches!(v, Value::Str(t) if t.is_empty()))),
            ("a text of 40 bytes", values.iter().any(|v| matches!(v, Value::Str(t) if t.len() == 40))),
        ] {
            *self.tidyings.entry(what).or_default() += there as usize;
        }
    }

    pub fn print(&self) {
        println!("{} cases; answers by refusal number, 0 being accepted:", self.cases);
        for (service, numbers) in &self.answers {
            println!("  {service:8} {}", listed(numbers));
        }
        println!("renamings of books that are right by the very names:");
        for (what, n) in &self.renamings {
            println!("  {n:6} {what}");
        }
        println!("accepted books to be made tidy, with");
        for (what, n) in &self.tidyings {
            println!("  {n:6} {what}");
        }
        println!("list calls in buffers of all sizes: {}", listed(&self.calls));
        println!("lamp calls in working memory of all sizes: {}; yes in {}", listed(&self.lamps), self.yes);
        println!("rows of accepted lists: {}, most in one {}; accepted lists with", self.rows, self.most);
        for (what, n) in &self.seen {
            println!("  {n:6} {what}");
        }
    }
}

/// A condition with one of < <= > >= on a text.
fn in_order(c: &Clause) -> bool {
    matches!(c, Clause::Vertex(_, _, r, Value::Str(_)) | Clause::Edge(_, _, r, Value::Str(_)) if !matches!(r, Relation::Eq | Relation::Ne))
}

/// Whether lines of an accepted book are not by kind.
fn lines_move(book: &[u8]) -> bool {
    let kinds = ["vattr", "eattr", "label", "node", "rel"];
    let text = String::from_utf8_lossy(book);
    let kind = |line: &str| kinds.iter().position(|k| line.trim_start_matches([' ', '(']).starts_with(k));
    !text.lines().map(kind).is_sorted()
}

/// Whether attributes of an accepted book are not in the order of their declarations.
fn attributes_move(b: &Book) -> bool {
    let moves = |entries: &[(usize, Value)]| !entries.iter().map(|e| e.0).is_sorted();
    b.nodes.iter().any(|n| moves(&n.entries)) || b.rels.iter().any(|x| moves(&x.entries))
}

fn listed(numbers: &BTreeMap<u32, usize>) -> String {
    numbers.iter().map(|(n, count)| format!("{n}: {count}")).collect::<Vec<_>>().join(", ")
}
