//! The library's functions as they are exported. A slice is a pointer and a length, a reference a pointer. The library is proved for every
//! caller that lends valid memory, each piece apart from the others, for the time of the call: which is what Rust's references are.
use crate::lent::{CONDITION_WORDS, EDGE_WORDS, IDENTITY_WORDS, NAME_BYTES, RETURN_WORDS, VERTEX_WORDS};

extern "C" {
    pub fn hifmuneth_read_book(
        book: *const u8, book_length: usize, work: *mut u32, work_words: usize,
        nodes: &mut usize, relationships: &mut usize, entries: &mut usize,
        number: &mut u32, text: &mut u32, line: &mut u32,
    ) -> bool;
    pub fn hifmuneth_node_names(
        book: *const u8, book_length: usize, work: *mut u32, work_words: usize,
        count: &mut usize, names: &mut [u8; NAME_BYTES],
        number: &mut u32, text: &mut u32, line: &mut u32,
    ) -> bool;
    pub fn hifmuneth_read_rules(
        book: *const u8, book_length: usize, rules: *const u8, rules_length: usize, work: *mut u32, work_words: usize,
        categories: &mut usize, policies: &mut usize,
        number: &mut u32, text: &mut u32, line: &mut u32,
    ) -> bool;
    pub fn hifmuneth_read_query(
        book: *const u8, book_length: usize, query: *const u8, query_length: usize, work: *mut u32, work_words: usize,
        vertices: &mut usize, edges: &mut usize, conditions: &mut usize, return_names: &mut usize,
        vertex_words: &mut [usize; VERTEX_WORDS], edge_words: &mut [usize; EDGE_WORDS], condition_words: &mut [usize; CONDITION_WORDS],
        return_words: &mut [usize; RETURN_WORDS],
        number: &mut u32, text: &mut u32, line: &mut u32,
    ) -> bool;
    pub fn hifmuneth_read_request(
        book: *const u8, book_length: usize, rules: *const u8, rules_length: usize, request: *const u8, request_length: usize,
        work: *mut u32, work_words: usize,
        category: &mut usize, count: &mut usize, identities: &mut [usize; IDENTITY_WORDS],
        number: &mut u32, text: &mut u32, line: &mut u32,
    ) -> bool;
    pub fn hifmuneth_write_query(
        book: *const u8, book_length: usize, rules: *const u8, rules_length: usize, query: *const u8, query_length: usize,
        out: *mut u8, out_length: usize, work: *mut u32, work_words: usize,
        length: &mut usize,
        number: &mut u32, text: &mut u32, line: &mut u32,
    ) -> bool;
    pub fn hifmuneth_rename_book(
        book: *const u8, book_length: usize, out: *mut u8, out_length: usize, work: *mut u32, work_words: usize,
        length: &mut usize,
        number: &mut u32, text: &mut u32, line: &mut u32,
    ) -> bool;
    pub fn hifmuneth_tidy_book(
        book: *const u8, book_length: usize, out: *mut u8, out_length: usize, work: *mut u32, work_words: usize,
        length: &mut usize,
        number: &mut u32, text: &mut u32, line: &mut u32,
    ) -> bool;
    pub fn hifmuneth_list(
        book: *const u8, book_length: usize, rules: *const u8, rules_length: usize, query: *const u8, query_length: usize,
        request: *const u8, request_length: usize, rows: *mut u32, row_words: usize, work: *mut u32, work_words: usize,
        count: &mut usize, width: &mut usize,
        number: &mut u32, text: &mut u32, line: &mut u32,
    ) -> bool;
    pub fn hifmuneth_lamp(
        book: *const u8, book_length: usize, rules: *const u8, rules_length: usize, query: *const u8, query_length: usize,
        request: *const u8, request_length: usize, work: *mut u32, work_words: usize,
        yes: &mut u32,
        number: &mut u32, text: &mut u32, line: &mut u32,
    ) -> bool;
}
