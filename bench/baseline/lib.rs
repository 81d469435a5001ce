//! The same job as the library's two calls, in ordinary Rust: a checked token list is read by recursive descent into a tree
//! of enums, vectors and boxes, and the tree is written as a key; a key is read into a tree again. The rules are those of
//! docs/SCOPE.md. Nothing is lent here, so there is no refusal for want of room (8 and 11).
pub mod read;
pub mod take;
pub mod token;
pub mod tree;
pub mod write;

use read::{Note, Refusal};
use tree::Node;

/// A reading with its key. The names of the tree are places in the text that was read.
pub struct Reading {
    pub root: Node,
    pub notes: Vec<Note>,
    pub end: usize,
    pub key: Vec<u8>,
}

/// Checks the tokens and reads a type from the token `start` on; its tree, its diagnostics and where it ends.
pub fn tree(text: &[u8], words: &[u64], start: usize, preserve_parens: bool) -> Result<(Node, Vec<Note>, usize), Refusal> {
    token::check(text, words, start)?;
    read::read(text, words, start, preserve_parens)
}

/// The same, with its key.
pub fn read(text: &[u8], words: &[u64], start: usize, preserve_parens: bool) -> Result<Reading, Refusal> {
    let (root, notes, end) = tree(text, words, start, preserve_parens)?;
    let key = write::key(&root, text);
    Ok(Reading { root, notes, end, key })
}

pub use take::take_back;
pub use token::check;
pub use write::key;
