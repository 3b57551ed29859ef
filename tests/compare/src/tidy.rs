//! What a tidy book promises beside its bytes, by the library alone: it is tidied unchanged, every form of the book gives it, and every other service answers
//! over it as over the book that it came from.
use crate::cases::Texts;
use crate::check::Check;
use crate::untidy::untidy;
use hifmuneth::{lent, BookCounts, ListCounts, Pattern, Refusal, Request, RulesCounts, WORK_WORDS};

/// What the other services answer: numbers, names, words and bytes, refusals too. Of the lists every row word.
#[derive(Debug, PartialEq)]
struct Answers<'a> {
    book: Result<BookCounts, Refusal>,
    names: Result<Vec<String>, Refusal>,
    rules: Result<RulesCounts, Refusal>,
    query: Result<Pattern<'a>, Refusal>,
    request: Result<Request, Refusal>,
    written: Result<Vec<u8>, Refusal>,
    lists: Vec<(Result<ListCounts, Refusal>, Vec<u32>)>,
    lamp: Result<bool, Refusal>,
}

/// The answers over a book, with the other texts of a case; a list for each number of row words.
fn answers<'a>(book: &[u8], t: &'a Texts, rooms: &[usize]) -> Answers<'a> {
    let list = |room: &usize| {
        let (mut rows, mut work) = (vec![0; *room], vec![0; WORK_WORDS]);
        (lent::list(book, &t.rules, &t.query, &t.request, &mut rows, &mut work), rows)
    };
    Answers {
        book: hifmuneth::read_book(book),
        names: hifmuneth::node_names(book),
        rules: hifmuneth::read_rules(book, &t.rules),
        query: hifmuneth::read_query(book, &t.query),
        request: hifmuneth::read_request(book, &t.rules, &t.request),
        written: hifmuneth::write_query(book, &t.rules, &t.query),
        lists: rooms.iter().map(list).collect(),
        lamp: hifmuneth::lamp(book, &t.rules, &t.query, &t.request),
    }
}

impl Check<'_> {
    pub fn tidy(&mut self) {
        let Ok(tidy) = hifmuneth::tidy_book(&self.texts.book) else { return };
        assert!(hifmuneth::tidy_book(&tidy) == Ok(tidy.clone()), "tidy: another book when done again");
        assert!(hifmuneth::rename_book(&tidy) == Ok(tidy.clone()), "tidy: something to rename");
        let width = self.expected.query.as_ref().map_or(1, |q| q.returns.len());
        let words = self.expected.rows.as_ref().map_or(0, |rows| rows.len() * width);
        let rooms = [words + self.random.below(4), self.random.below(words + 1)];
        let (of_book, of_tidy) = (answers(&self.texts.book, self.texts, &rooms), answers(&tidy, self.texts, &rooms));
        assert!(of_book.book.is_ok(), "tidy: of a book that is refused");
        assert_eq!(of_book, of_tidy, "tidy: other answers");
        self.every_form(&tidy);
    }

    /// The same declarations, nodes and relationships in their orders, written in another way, give the same tidy book.
    fn every_form(&mut self, tidy: &[u8]) {
        let Ok(book) = &self.expected.book else { return };
        let other = untidy(self.random, book);
        let again = hifmuneth::tidy_book(&other);
        assert!(again.as_deref() == Ok(tidy), "tidy: another book, {:?}, from\n{}", again.map(|t| t.len()), String::from_utf8_lossy(&other));
    }
}
