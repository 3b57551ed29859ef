//! The services of the library on the texts of a case, in buffers full of noise, against plain Rust: answers, numbers, words and bytes. Those that write
//! a text stand in `writers`, the lamp in `lamp`, what else a tidy book promises in `tidy`.
use crate::cases::Texts;
use crate::random::Random;
use crate::tally::Tally;
use crate::timed::within;
use crate::words::{identity_words, name_bytes, pattern_words};
use hifmuneth::lent::{PatternWords, IDENTITY_WORDS, NAME_BYTES};
use hifmuneth::raw;
use plain::{book::Book, list::*, query::Pattern, rules::Request, rules::Rules, text::*};

const WORK: usize = 16_384;
const ONES: u32 = u32::MAX;

/// What plain Rust says of the texts.
pub struct Expected {
    pub book: Result<Book, Refusal>,
    pub rules: Result<Rules, Refusal>,
    pub query: Result<Pattern, Refusal>,
    pub request: Result<Request, Refusal>,
    pub written: Result<Vec<u8>, Refusal>,
    pub renamed: Result<Vec<u8>, Refusal>,
    pub tidied: Result<Vec<u8>, Refusal>,
    pub rows: Result<Vec<Vec<usize>>, Refusal>,
    pub enumerated: bool,
}

/// Whether enumeration is short: so many mappings of the query, and of each policy.
fn short(book: &Book, asked: &[Asked]) -> bool {
    let mappings = |a: &Asked| (book.nodes.len() as f64).powi(a.pattern.vertices.len() as i32);
    mappings(&asked[0]) <= 3000.0 && asked[1..].iter().all(|a| mappings(a) <= 400.0) && asked.len() <= 4
}

pub fn expect(t: &Texts) -> Expected {
    let book = plain::book::read_book(&t.book);
    let rules = book.clone().and_then(|b| plain::rules::read_rules(&b, &t.rules));
    let query = book.clone().and_then(|b| plain::query::read_query(&b, &t.query));
    let request = rules.clone().and_then(|r| plain::rules::read_request(book.as_ref().unwrap(), &r, &t.request));
    let both = rules.clone().and_then(|_| query.clone());
    let written = both.clone().map(|q| plain::query::written(book.as_ref().unwrap(), &q));
    let mut enumerated = false;
    let rows = both.and_then(|q| {
        let (b, r, x) = (book.as_ref().unwrap(), rules.as_ref().unwrap(), request.clone()?);
        let asked = asked(r, &x, &q);
        let woven = weave(&asked, &x.identities);
        if let Some(number) = woven_fault(&woven) {
            return refuse(number, 5, 0);
        }
        let rows = rows_by_search(b, &woven);
        enumerated = short(b, &asked);
        assert!(!enumerated || rows == rows_by_enumeration(b, &x, &asked), "plain Rust's search and enumeration differ");
        Ok(rows)
    });
    let (renamed, tidied) = (plain::rename::renamed(&t.book), plain::tidy::tidied(&t.book));
    Expected { book, rules, query, request, written, renamed, tidied, rows, enumerated }
}

/// The numbers that a call leaves: noise before it.
pub struct Left {
    pub counts: [usize; 4],
    pub refusal: Refusal,
}

pub fn noise(r: &mut Random) -> Left {
    let mut n = || r.word() as u32;
    Left { counts: [0; 4].map(|_| n() as usize), refusal: Refusal { number: n(), text: n(), line: n() } }
}

/// Holds a call's verdict and numbers to what is expected: counts and no refusal, or a refusal and no counts.
pub fn told(name: &str, accepted: bool, left: &Left, counts: usize, expected: Result<Vec<usize>, Refusal>) {
    let zero = Refusal { number: 0, text: 0, line: 0 };
    let (want, refusal) = match &expected {
        Ok(c) => (c.clone(), zero),
        Err(r) => (vec![0; counts], *r),
    };
    assert_eq!(accepted, expected.is_ok(), "{name}: verdict, {:?} for {expected:?}", left.refusal);
    assert_eq!(left.refusal, refusal, "{name}: refusal");
    assert_eq!(left.counts[..counts], want[..], "{name}: numbers");
}

pub fn all_ones(name: &str, words: &[u32]) {
    assert!(words.iter().all(|w| *w == ONES), "{name}: words not all ones");
}

/// Refusal 15 first, if the working memory is too small.
pub fn given<T>(work: usize, answer: Result<T, Refusal>) -> Result<T, Refusal> {
    if work < WORK { refuse(15, 0, 0) } else { answer }
}

pub struct Check<'a> {
    pub texts: &'a Texts,
    pub expected: &'a Expected,
    pub random: &'a mut Random,
}

impl Check<'_> {
    /// Whole working memory, and once in a while too little or more.
    pub fn works(&mut self) -> Vec<usize> {
        match self.random.below(4) {
            0 => vec![WORK, *self.random.one(&[0, 1, WORK - 1])],
            1 => vec![WORK + self.random.below(300)],
            _ => vec![WORK],
        }
    }

    pub fn readers(&mut self) {
        for words in self.works() {
            let (t, e) = (self.texts, self.expected);
            let (mut work, mut l) = (self.random.words(words), noise(self.random));
            let [x, y, z, _] = &mut l.counts;
            let Refusal { number, text, line } = &mut l.refusal;
            let ok = within("book", || unsafe {
                raw::hifmuneth_read_book(t.book.as_ptr(), t.book.len(), work.as_mut_ptr(), words, x, y, z, number, text, line)
            });
            told("book", ok, &l, 3, given(words, e.book.as_ref().map(|b| vec![b.nodes.len(), b.rels.len(), b.entries()]).map_err(|r| *r)));
            all_ones("book", &work);

            let (mut work, mut l) = (self.random.words(words), noise(self.random));
            let [x, y, _, _] = &mut l.counts;
            let Refusal { number, text, line } = &mut l.refusal;
            let ok = within("rules", || unsafe {
                raw::hifmuneth_read_rules(t.book.as_ptr(), t.book.len(), t.rules.as_ptr(), t.rules.len(), work.as_mut_ptr(), words, x, y, number, text, line)
            });
            told("rules", ok, &l, 2, given(words, e.rules.as_ref().map(|r| vec![r.categories.len(), r.policies.len()]).map_err(|r| *r)));
            all_ones("rules", &work);

            self.names(words);
            self.query(words);
            self.request(words);
        }
    }

    fn names(&mut self, words: usize) {
        let (t, e) = (self.texts, self.expected);
        let (mut work, mut l) = (self.random.words(words), noise(self.random));
        let mut names: [u8; NAME_BYTES] = self.random.bytes(NAME_BYTES).try_into().unwrap();
        let Refusal { number, text, line } = &mut l.refusal;
        let ok = within("names", || unsafe {
            raw::hifmuneth_node_names(t.book.as_ptr(), t.book.len(), work.as_mut_ptr(), words, &mut l.counts[0], &mut names, number, text, line)
        });
        let expected = given(words, e.book.clone());
        told("names", ok, &l, 1, expected.as_ref().map(|b| vec![b.nodes.len()]).map_err(|r| *r));
        all_ones("names", &work);
        assert_eq!(names, name_bytes(expected.as_ref().ok()), "names: bytes");
    }

    fn query(&mut self, words: usize) {
        let (t, e) = (self.texts, self.expected);
        let (mut work, mut l) = (self.random.words(words), noise(self.random));
        let mut noisy = || self.random.word() as usize;
        let mut p = PatternWords {
            vertices: [0; 16].map(|_| noisy()), edges: [0; 80].map(|_| noisy()), conditions: [0; 224].map(|_| noisy()), returns: [0; 4].map(|_| noisy()),
        };
        let [x, y, z, w] = &mut l.counts;
        let Refusal { number, text, line } = &mut l.refusal;
        let ok = within("query", || unsafe {
            raw::hifmuneth_read_query(
                t.book.as_ptr(), t.book.len(), t.query.as_ptr(), t.query.len(), work.as_mut_ptr(), words, x, y, z, w,
                &mut p.vertices, &mut p.edges, &mut p.conditions, &mut p.returns, number, text, line,
            )
        });
        let expected = given(words, e.query.clone());
        told("query", ok, &l, 4, expected.as_ref().map(|q| vec![q.vertices.len(), q.edges.len(), q.clauses.len(), q.returns.len()]).map_err(|r| *r));
        all_ones("query", &work);
        assert_eq!(p, expected.map_or(PatternWords::default(), |q| pattern_words(&t.query, &q)), "query: words of the pattern");
    }

    fn request(&mut self, words: usize) {
        let (t, e) = (self.texts, self.expected);
        let (mut work, mut l) = (self.random.words(words), noise(self.random));
        let mut ids = [0; IDENTITY_WORDS].map(|_| self.random.word() as usize);
        let [x, y, _, _] = &mut l.counts;
        let Refusal { number, text, line } = &mut l.refusal;
        let ok = within("request", || unsafe {
            raw::hifmuneth_read_request(
                t.book.as_ptr(), t.book.len(), t.rules.as_ptr(), t.rules.len(), t.request.as_ptr(), t.request.len(),
                work.as_mut_ptr(), words, x, y, &mut ids, number, text, line,
            )
        });
        let expected = given(words, e.request.clone());
        told("request", ok, &l, 2, expected.as_ref().map(|x| vec![x.category, x.identities.len()]).map_err(|r| *r));
        all_ones("request", &work);
        let identities = expected.map_or(vec![], |x| x.identities);
        assert_eq!(ids, identity_words(&t.request, &identities), "request: words of the identities");
    }

    pub fn list(&mut self, tally: &mut Tally) {
        let width = self.expected.query.as_ref().map_or(1, |q| q.returns.len());
        let exact = self.expected.rows.as_ref().map_or(0, |r| r.len() * width);
        let mut rooms = vec![exact, exact + self.random.below(500)];
        if exact > 0 {
            rooms.extend([0, exact - 1]);
        }
        for room in rooms {
            for words in self.works() {
                self.list_in(room, words, width, tally);
            }
        }
    }

    fn list_in(&mut self, room: usize, words: usize, width: usize, tally: &mut Tally) {
        let t = self.texts;
        let (mut work, mut rows, mut l) = (self.random.words(words), self.random.words(room), noise(self.random));
        let [x, y, _, _] = &mut l.counts;
        let Refusal { number, text, line } = &mut l.refusal;
        let ok = unsafe {
            raw::hifmuneth_list(
                t.book.as_ptr(), t.book.len(), t.rules.as_ptr(), t.rules.len(), t.query.as_ptr(), t.query.len(), t.request.as_ptr(), t.request.len(),
                rows.as_mut_ptr(), room, work.as_mut_ptr(), words, x, y, number, text, line,
            )
        };
        let fits = |rows: Vec<Vec<usize>>| if rows.len() * width > room { refuse(14, 5, 0) } else { Ok(rows) };
        let expected = given(words, self.expected.rows.clone().and_then(fits));
        tally.list(&expected);
        told("list", ok, &l, 2, expected.as_ref().map(|r| vec![r.len(), width]).map_err(|r| *r));
        all_ones("list", &work);
        let flat: Vec<u32> = expected.unwrap_or_default().concat().iter().map(|n| *n as u32).collect();
        assert_eq!(rows[..flat.len()], flat[..], "list: rows");
        all_ones("list: past the rows", &rows[flat.len()..]);
    }
}
