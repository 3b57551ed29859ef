//! The lamp, against plain Rust and beside the library's own list.
use crate::check::{all_ones, given, noise, told, Check};
use crate::tally::Tally;
use crate::timed::refused_within;
use hifmuneth::{lent, raw, refusal, ListCounts, WORK_WORDS};
use plain::text::Refusal;

impl Check<'_> {
    pub fn lamp(&mut self, tally: &mut Tally) {
        for words in self.works() {
            self.lamp_in(words, tally);
        }
        self.lamp_and_list();
    }

    /// It says yes exactly if plain Rust has a row, however many, and refuses what plain Rust refuses, in time.
    fn lamp_in(&mut self, words: usize, tally: &mut Tally) {
        let t = self.texts;
        let (mut work, mut yes, mut l) = (self.random.words(words), self.random.word() as u32, noise(self.random));
        let Refusal { number, text, line } = &mut l.refusal;
        let ok = refused_within("lamp", || unsafe {
            raw::hifmuneth_lamp(
                t.book.as_ptr(), t.book.len(), t.rules.as_ptr(), t.rules.len(), t.query.as_ptr(), t.query.len(), t.request.as_ptr(), t.request.len(),
                work.as_mut_ptr(), words, &mut yes, number, text, line,
            )
        });
        let expected = given(words, self.expected.rows.as_ref().map(|rows| !rows.is_empty()).map_err(|r| *r));
        tally.lamp(&expected);
        l.counts[0] = yes as usize;
        told("lamp", ok, &l, 1, expected.map(|yes| vec![yes as usize]));
        all_ones("lamp", &work);
    }

    /// By the library alone, in row buffers of none, one, some and many words: the lamp says what the list lets it say.
    fn lamp_and_list(&mut self) {
        let (t, mut work) = (self.texts, self.random.words(WORK_WORDS));
        let lamp = lent::lamp(&t.book, &t.rules, &t.query, &t.request, &mut work);
        for room in [0, 1, self.random.below(100), 16_384] {
            let list = lent::list(&t.book, &t.rules, &t.query, &t.request, &mut vec![0; room], &mut work);
            assert_eq!(lamp, by_list(list), "lamp: not as the list in {room} row words");
        }
    }
}

/// What the lamp must say where the list says this: a row, or rows without space, make it yes; any other refusal is its own.
fn by_list(list: Result<ListCounts, hifmuneth::Refusal>) -> Result<bool, hifmuneth::Refusal> {
    match list {
        Ok(counts) => Ok(counts.rows > 0),
        Err(r) if r.number == refusal::NO_SPACE => Ok(true),
        Err(r) => Err(r),
    }
}
