//! Document 01, and of document 02 what has landed, in plain Rust: what the proved library is compared with. Written for clearness; nothing here is proved.
pub mod answers;
pub mod book;
pub mod list;
pub mod places;
pub mod query;
pub mod rename;
pub mod rules;
pub mod sets;
pub mod text;
pub mod tidy;
