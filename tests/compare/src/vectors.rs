//! Runs every set of a folder of vectors through plain Rust and through the library, and compares what they answer with the set's files.
use hifmuneth::pattern::{Condition, Pattern, Relation, Requirement, Value};
use hifmuneth::{lent, Refusal};
use plain::answers::{self, lamp_text, number, rows_text};
use plain::sets::{self, Set};

fn relation_text(r: Relation) -> &'static str {
    match r {
        Relation::Equal => "=",
        Relation::Differs => "<>",
        Relation::Less => "<",
        Relation::AtMost => "<=",
        Relation::Greater => ">",
        Relation::AtLeast => ">=",
    }
}

fn requirement_text(kind: &str, owner: usize, r: &Requirement) -> String {
    let value = match r.value {
        Value::Number(z) => z.to_string(),
        Value::Text(t) => format!("'{t}'"),
        Value::Truth(b) => b.to_string(),
    };
    format!(" ({kind} {owner} {} {} {value})", r.attribute, relation_text(r.relation))
}

/// A pattern as the vectors show it.
fn pattern_text(p: &Pattern) -> String {
    let vertices: String = p.vertices.iter().map(|v| format!(" {v}")).collect();
    let edges: String = p.edges.iter().map(|e| format!(" ({} {} {} {})", e.name, e.label, e.from, e.to)).collect();
    let (mut exclusions, mut requirements) = (String::new(), String::new());
    for c in &p.conditions {
        match c {
            Condition::Differ(u, v) => exclusions += &format!(" ({u} {v})"),
            Condition::OfVertex(v, r) => requirements += &requirement_text("v", *v, r),
            Condition::OfEdge(e, r) => requirements += &requirement_text("e", *e, r),
        }
    }
    let returns: String = p.returns.iter().map(|v| format!(" {v}")).collect();
    format!("(query (vertices{vertices}) (edges{edges}) (exclusions{exclusions}) (requirements{requirements}) (return{returns}))\n")
}

fn query_text(t: &Set, work: &mut [u32]) -> Result<String, Refusal> {
    let mut words = lent::PatternWords::default();
    let counts = lent::read_query(&t.book, &t.query, &mut words, work)?;
    Ok(pattern_text(&Pattern::of_words(&t.query, &counts, &words)))
}

fn request_text(t: &Set, work: &mut [u32]) -> Result<String, Refusal> {
    let mut words = [0; lent::IDENTITY_WORDS];
    let (category, count) = lent::read_request(&t.book, &t.rules, &t.request, &mut words, work)?;
    let id = |i: &[usize]| format!(" ({} {})", String::from_utf8_lossy(&t.request[i[0]..i[0] + i[1]]), i[2]);
    Ok(format!("(request {category}{})\n", words.chunks(3).take(count).map(id).collect::<String>()))
}

fn list_text(t: &Set, row_words: usize, work: &mut [u32]) -> Result<Vec<u8>, Refusal> {
    let mut rows = vec![0; row_words];
    let counts = lent::list(&t.book, &t.rules, &t.query, &t.request, &mut rows, work)?;
    let names: Vec<Vec<u8>> = hifmuneth::node_names(&t.book)?.into_iter().map(String::into_bytes).collect();
    let rows: Vec<Vec<usize>> = rows.chunks(counts.width).take(counts.rows).map(|r| r.iter().map(|n| *n as usize).collect()).collect();
    Ok(rows_text(&names, &rows))
}

/// What a writer leaves in front of a buffer of so many bytes.
fn written(room: usize, call: impl FnOnce(&mut [u8]) -> Result<usize, Refusal>) -> Result<Vec<u8>, Refusal> {
    let mut text = vec![0; room];
    let length = call(&mut text)?;
    text.truncate(length);
    Ok(text)
}

/// The answer of the library to a command of the vectors, with the numbers that its file's name gives.
fn library(t: &Set, command: &str, numbers: &[usize]) -> Result<Vec<u8>, Refusal> {
    let at = |i: usize, otherwise: usize| number(numbers, i, otherwise);
    let writes = matches!(command, "write" | "rename" | "tidy" | "list");
    let mut work = vec![0; at(writes as usize, hifmuneth::WORK_WORDS)];
    let w = &mut work;
    match command {
        "book" => lent::read_book(&t.book, w).map(|c| format!("(book {} {} {})\n", c.nodes, c.relationships, c.entries).into_bytes()),
        "rules" => lent::read_rules(&t.book, &t.rules, w).map(|c| format!("(rules {} {})\n", c.categories, c.policies).into_bytes()),
        "query" => query_text(t, w).map(String::into_bytes),
        "request" => request_text(t, w).map(String::into_bytes),
        "write" => written(at(0, hifmuneth::QUERY_BYTES), |out| lent::write_query(&t.book, &t.rules, &t.query, out, w)),
        "rename" => written(at(0, hifmuneth::BOOK_BYTES), |out| lent::rename_book(&t.book, out, w)),
        "tidy" => written(at(0, hifmuneth::BOOK_BYTES), |out| lent::tidy_book(&t.book, out, w)),
        "list" => list_text(t, at(0, 16_384), w),
        "lamp" => lent::lamp(&t.book, &t.rules, &t.query, &t.request, w).map(lamp_text),
        _ => panic!("no such command: {command}"),
    }
}

pub fn run(folder: &str) -> bool {
    let of_plain = |r: Refusal| plain::text::Refusal { number: r.number, text: r.text, line: r.line };
    sets::run(folder, &[("plain", &answers::answer), ("library", &|t, command, numbers| library(t, command, numbers).map_err(of_plain))])
}
