//! Why a service refuses: a number for what is wrong, the text and its line. docs/REFUSALS.md has a text that gets each, and what to do.
use std::{error, fmt};

/// The text is too long.
pub const TOO_LONG: u32 = 1;
/// A byte that is not allowed.
pub const BYTE_NOT_ALLOWED: u32 = 2;
/// The grammar is broken.
pub const GRAMMAR_BROKEN: u32 = 3;
/// A name is not declared.
pub const NOT_DECLARED: u32 = 4;
/// A second time; of node names also one that differs only by case, and in the renaming a later name that cannot have its new one.
pub const SECOND_TIME: u32 = 5;
/// Not of the declared type.
pub const OTHER_TYPE: u32 = 6;
/// A count passes its limit.
pub const LIMIT_PASSED: u32 = 7;
/// A vertex excluded from itself.
pub const EXCLUDED_FROM_ITSELF: u32 = 8;
/// A category without an actor that it needs.
pub const ACTOR_MISSING: u32 = 9;
/// A category without a policy.
pub const POLICY_MISSING: u32 = 10;
/// No identity for requestor.
pub const NO_REQUESTOR: u32 = 11;
/// The woven pattern passes a limit.
pub const WOVEN_TOO_LARGE: u32 = 12;
/// A vertex hangs on nothing.
pub const VERTEX_UNTIED: u32 = 13;
/// What is to be given does not fit the buffer; of a tidy book also that it is longer than a book may be.
pub const NO_SPACE: u32 = 14;
/// Working memory is missing.
pub const MEMORY_MISSING: u32 = 15;

/// What each number means, 1 first.
const MEANINGS: [&str; 15] = [
    "the text is too long",
    "a byte that is not allowed",
    "the grammar is broken",
    "a name is not declared",
    "a second time",
    "not of the declared type",
    "a count passes its limit",
    "a vertex excluded from itself",
    "a category without an actor that it needs",
    "a category without a policy",
    "no identity for requestor",
    "the woven pattern passes a limit",
    "a vertex hangs on nothing",
    "what is to be given does not fit the buffer",
    "working memory is missing",
];

/// The texts by the numbers that a refusal gives them; nothing where it speaks of none.
const TEXTS: [&str; 6] = ["", "book", "rules", "query", "request", "woven pattern"];

/// Why a service refuses: the number of the table, the text (1 book, 2 rules, 3 query, 4 request, 5 woven pattern, 0 none), the line (0 for none).
#[derive(Clone, Copy, Debug, PartialEq, Eq)]
pub struct Refusal {
    pub number: u32,
    pub text: u32,
    pub line: u32,
}

impl Refusal {
    /// What is wrong, in words.
    pub fn meaning(&self) -> &'static str {
        MEANINGS.get((self.number as usize).wrapping_sub(1)).copied().unwrap_or("refused")
    }

    /// The line that the list program prints for it.
    pub fn printed(&self) -> String {
        format!("(refused {} text {} line {})", self.number, self.text, self.line)
    }

    /// The text that it speaks of, in words; nothing for missing memory.
    pub fn place(&self) -> &'static str {
        TEXTS.get(self.text as usize).copied().unwrap_or("")
    }
}

impl fmt::Display for Refusal {
    fn fmt(&self, f: &mut fmt::Formatter) -> fmt::Result {
        let (what, place) = (self.meaning(), self.place());
        match (place, self.line) {
            ("", _) => write!(f, "{what}"),
            (_, 0) => write!(f, "{place}: {what}"),
            (_, line) => write!(f, "{place}, line {line}: {what}"),
        }?;
        write!(f, " {}", self.printed())
    }
}

impl error::Error for Refusal {}
