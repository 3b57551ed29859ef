//! The services that write a text, against plain Rust: in buffers of every length, each byte of the buffer and each word of the working memory.
use crate::check::{all_ones, given, noise, told, Check};
use crate::timed::within;
use hifmuneth::raw;
use plain::book::MOST_BOOK_BYTES;
use plain::text::{refuse, Refusal};
use plain::tidy::tidy_text;

const BOOK_PAST: Refusal = Refusal { number: 14, text: 1, line: 0 };

/// What the library is given and leaves: buffer and working memory, and where it puts its numbers.
struct Lent<'a> {
    out: &'a mut [u8],
    work: &'a mut [u32],
    length: &'a mut usize,
    refusal: &'a mut Refusal,
}

impl Check<'_> {
    pub fn writers(&mut self) {
        let (t, e) = (self.texts, self.expected);
        let queries = e.written.clone().and_then(|w| if w.len() > 2048 { refuse(14, 3, 1) } else { Ok(w) });
        self.each("write", queries, &[], Refusal { number: 14, text: 3, line: 1 }, |l| unsafe {
            raw::hifmuneth_write_query(
                t.book.as_ptr(), t.book.len(), t.rules.as_ptr(), t.rules.len(), t.query.as_ptr(), t.query.len(),
                l.out.as_mut_ptr(), l.out.len(), l.work.as_mut_ptr(), l.work.len(), l.length, &mut l.refusal.number, &mut l.refusal.text, &mut l.refusal.line,
            )
        });
        self.each("rename", e.renamed.clone(), &[], BOOK_PAST, |l| unsafe {
            raw::hifmuneth_rename_book(
                t.book.as_ptr(), t.book.len(),
                l.out.as_mut_ptr(), l.out.len(), l.work.as_mut_ptr(), l.work.len(), l.length, &mut l.refusal.number, &mut l.refusal.text, &mut l.refusal.line,
            )
        });
        let rooms = self.tidy_rooms();
        self.each("tidy", e.tidied.clone(), &rooms, BOOK_PAST, |l| unsafe {
            raw::hifmuneth_tidy_book(
                t.book.as_ptr(), t.book.len(),
                l.out.as_mut_ptr(), l.out.len(), l.work.as_mut_ptr(), l.work.len(), l.length, &mut l.refusal.number, &mut l.refusal.text, &mut l.refusal.line,
            )
        });
    }

    /// Buffers for a tidy book: one byte more than it has, even if it is too long for a book; as many as a book may have, or more.
    fn tidy_rooms(&mut self) -> [usize; 2] {
        let length = self.expected.book.as_ref().map_or(0, |b| tidy_text(b).len());
        let more = self.random.from_to(1, 600);
        [length + 1, *self.random.one(&[MOST_BOOK_BYTES, MOST_BOOK_BYTES + more, MOST_BOOK_BYTES.max(length)])]
    }

    /// A writer in a buffer that fits exactly, a longer one, one that is too short by one byte, and none or any shorter one; and in buffers of other lengths.
    fn each(&mut self, name: &str, answer: Result<Vec<u8>, Refusal>, others: &[usize], past: Refusal, call: impl Fn(Lent) -> bool) {
        let exact = answer.as_ref().map_or(40, |w| w.len());
        let mut rooms = vec![exact, exact + self.random.from_to(1, 600), exact.saturating_sub(1)];
        rooms.push(if self.random.percent(50) { 0 } else { self.random.below(exact + 1) });
        rooms.extend(others);
        for room in rooms {
            for words in self.works() {
                let fits = |w: Vec<u8>| if w.len() > room { Err(past) } else { Ok(w) };
                self.write(name, room, words, given(words, answer.clone().and_then(fits)), &call);
            }
        }
    }

    fn write(&mut self, name: &str, room: usize, words: usize, expected: Result<Vec<u8>, Refusal>, call: impl Fn(Lent) -> bool) {
        let (mut work, before, mut l) = (self.random.words(words), self.random.bytes(room), noise(self.random));
        let mut out = before.clone();
        let lent = Lent { out: &mut out, work: &mut work, length: &mut l.counts[0], refusal: &mut l.refusal };
        let ok = within(name, || call(lent));
        told(name, ok, &l, 1, expected.as_ref().map(|w| vec![w.len()]).map_err(|r| *r));
        all_ones(name, &work);
        let written = expected.unwrap_or_default();
        assert!(out[..written.len()] == written[..], "{name}: text {}", String::from_utf8_lossy(&out[..written.len()]));
        assert!(out[written.len()..] == before[written.len()..], "{name}: bytes past the text");
    }
}
