//! Sets of vectors: a folder for each, with the texts and with the answers. Answers of document 01 stand in readers.out (a line for each reader),
//! list.out and write.out; those of document 02 in a file for each call, COMMAND.out or COMMAND-NUMBERS.out.
use crate::text::Refusal;
use std::{fs, path::Path, path::PathBuf};

/// The texts of a set; a missing file is a text of no bytes.
pub struct Set {
    pub book: Vec<u8>,
    pub rules: Vec<u8>,
    pub query: Vec<u8>,
    pub request: Vec<u8>,
}

/// A call, and what its file says that it answers.
struct Call {
    file: String,
    command: String,
    numbers: Vec<usize>,
    answer: Vec<u8>,
}

/// Something that answers: a set, a command and its numbers, to a text or a refusal.
pub type Service<'a> = &'a dyn Fn(&Set, &str, &[usize]) -> Result<Vec<u8>, Refusal>;

pub fn refusal_text(r: Refusal) -> Vec<u8> {
    format!("(refused {} text {} line {})\n", r.number, r.text, r.line).into_bytes()
}

fn calls(at: &Path) -> Vec<Call> {
    let mut files: Vec<String> = fs::read_dir(at).unwrap().map(|e| e.unwrap().file_name().into_string().unwrap()).collect();
    files.sort();
    let call = |file: String| {
        let mut words = file.strip_suffix(".out")?.split('-');
        let command = words.next()?.to_string();
        let numbers = words.map(|n| n.parse().expect("a number")).collect();
        let answer = fs::read(at.join(&file)).unwrap();
        Some(Call { file, command, numbers, answer })
    };
    files.into_iter().filter_map(call).collect()
}

/// The lines of readers.out: an answer, or the reader's name and its refusal; of the writer its refusal only.
fn readers(set: &Set, service: Service) -> Vec<u8> {
    let line = |name: &str, answer: Result<Vec<u8>, Refusal>| answer.unwrap_or_else(|r| [name.as_bytes(), b" ", &refusal_text(r)].concat());
    let mut out: Vec<u8> = ["book", "rules", "query", "request"].iter().flat_map(|name| line(name, service(set, name, &[]))).collect();
    out.extend(line("write", service(set, "write", &[]).map(|_| vec![])));
    out
}

fn given(set: &Set, call: &Call, service: Service) -> Vec<u8> {
    match call.command.as_str() {
        "readers" => readers(set, service),
        command => service(set, command, &call.numbers).unwrap_or_else(refusal_text),
    }
}

/// Compares every answer of a folder of sets with each service, and says which differ.
pub fn run(folder: &str, services: &[(&str, Service)]) -> bool {
    let mut sets: Vec<PathBuf> = fs::read_dir(folder).expect("a folder").map(|e| e.unwrap().path()).filter(|p| p.is_dir()).collect();
    sets.sort();
    let (mut made, mut wrong) = (0, 0);
    for at in &sets {
        let read = |f: &str| fs::read(at.join(f)).unwrap_or_default();
        let set = Set { book: read("book.txt"), rules: read("rules.txt"), query: read("query.txt"), request: read("request.txt") };
        for call in calls(at) {
            for (name, service) in services {
                made += 1;
                if given(&set, &call, *service) != call.answer {
                    wrong += 1;
                    println!("{}: {name} differs", at.join(&call.file).display());
                }
            }
        }
    }
    println!("{} sets, {made} answers, {wrong} differ", sets.len());
    made > 0 && wrong == 0
}
