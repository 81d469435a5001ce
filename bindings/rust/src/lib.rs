//! The type key from Rust: safe calls over the static library `libtypekey.a`, with no other crate and without `std`.
//!
//! [`read`] takes a text and its tokens and gives the type's tree, its diagnostics and its key. [`take_back`] takes a key
//! and gives the tree again. [`differ`] says where the trees of two keys differ. Two texts have the same key exactly when
//! they are the same type; that is proved of the library, and not of this crate, which only passes slices on and reads the
//! words that come back.
//!
//! ```
//! use typekey::{Buffers, Options, kind_of, read, token};
//!
//! let text = b"A | B";
//! let tokens = [
//!     token(kind_of(b"A"), false, 0, 1),
//!     token(kind_of(b"|"), false, 2, 1),
//!     token(kind_of(b"B"), false, 4, 1),
//!     token(typekey::EOF, false, 5, 0),
//! ];
//! let mut buffers = Buffers::default();
//! let reading = read(text, &tokens, Options::default(), &mut buffers)?;
//! assert_eq!(reading.key.len(), 14);
//! for (depth, node) in reading.tree.walk() {
//!     println!("{:1$}{node}", "", 2 * depth); // union 0..5, then reference 0..1 and reference 4..5 below it
//! }
//! # Ok::<(), typekey::Refusal>(())
//! ```
//!
//! - **Tokens come from your lexer.** There is no lexer here: [`token`] packs a token's kind, place and line break into a
//!   word, [`kind_of`] has the kind of a word or a mark. The library checks each word before it reads.
//! - **Any input is fine.** Bad input is a [`Refusal`], which says what is wrong and where. Nothing panics.
//! - **Time is by tokens.** A type that is read enters at most 16 type rules a token, however it is nested;
//!   [`Reading::entered`] has how many.
//! - **Room is lent by need.** A call clears all that it is lent, so [`Need`] has just what is enough. [`Buffers`] grow to
//!   it and can be used again. Without the feature `alloc` lend slices by [`read_into`], [`take_back_into`] and
//!   [`differ_into`].
//! - **No state.** Threads may call at the same time, each with buffers of its own. A call's stack grows with the type's
//!   depth, which has a limit: a thread with 512 KiB is enough for every stored vector.
//! - **Linking.** `libtypekey.a` is looked for in the repository's `target/lib`, or in the folder that `TYPEKEY_LIB` names by
//!   its whole path.
#![no_std]
#![warn(missing_docs)]
#[cfg(feature = "alloc")]
extern crate alloc;

mod said;
mod tokens;
mod tree;

pub use said::{Diagnostic, Note, Place, Refusal, Side, Why};
pub use tokens::*;
pub use tree::{Field, Node, Tag, Tree, Value, Walk};

#[link(name = "typekey", kind = "static")]
unsafe extern "C" {
    fn typekey_read(
        text: *const u8,
        text_len: u64,
        tokens: *const u64,
        token_count: u64,
        start: u64,
        options: u64,
        nodes: *mut u64,
        node_words: u64,
        names: *mut u64,
        name_words: u64,
        notes: *mut u64,
        note_words: u64,
        key: *mut u8,
        key_bytes: u64,
        answer: *mut [u64; 8],
    );
    fn typekey_take_back(
        key: *const u8,
        key_len: u64,
        nodes: *mut u64,
        node_words: u64,
        names: *mut u64,
        name_words: u64,
        text: *mut u8,
        text_bytes: u64,
        answer: *mut [u64; 8],
    );
    fn typekey_differ(
        left: *const u8,
        left_len: u64,
        right: *const u8,
        right_len: u64,
        list: *mut u64,
        list_words: u64,
        answer: *mut [u64; 8],
    );
}

/// How to read.
#[derive(Clone, Copy, Debug, Default, PartialEq, Eq)]
pub struct Options {
    /// The index of the token to start at.
    pub start: usize,
    /// Whether brackets round a type are a node. They are none by default, so `(A)` and `A` have the same key.
    pub preserve_parens: bool,
}

/// How much a call needs.
#[derive(Clone, Copy, Debug, PartialEq, Eq)]
pub struct Need {
    /// Words for nodes, four for each.
    pub nodes: usize,
    /// Words for names, one for each.
    pub names: usize,
    /// Words for diagnostics, five for each.
    pub notes: usize,
    /// Bytes for the key, or for the letters of a key that is taken back.
    pub bytes: usize,
}

impl Need {
    /// Enough to read a text of so many bytes and tokens. More than the limits is never needed: that is refused.
    pub const fn to_read(text: usize, tokens: usize) -> Need {
        let text = least(text, 65_535);
        let tokens = least(tokens, 16_384);
        Need { nodes: 4 * (tokens + 4), names: tokens, notes: 160, bytes: least(text + 12 * tokens + 16, 262_144) }
    }

    /// Enough to take back a key of so many bytes: a node has 6 bits at least, or 5 and a type of 9 or more, a name 24.
    pub const fn to_take_back(key: usize) -> Need {
        let key = least(key, 262_144);
        Need { nodes: 4 * (4 * key / 3), names: key / 3, notes: 0, bytes: key }
    }

    /// Words enough for all differences of two keys of so many bytes, two for each: what differs has 9 bits at least on
    /// either side, and no two differences share one.
    pub const fn to_differ(left: usize, right: usize) -> usize {
        2 * least(least(left, right), 262_144)
    }
}

const fn least(n: usize, most: usize) -> usize {
    if n < most { n } else { most }
}

/// Slices that a call writes into. All of each is cleared first, and all of it is zero after a refusal.
#[derive(Debug, Default)]
pub struct Lent<'a> {
    /// Words for nodes.
    pub nodes: &'a mut [u64],
    /// Words for names.
    pub names: &'a mut [u64],
    /// Words for diagnostics; taking back leaves them alone.
    pub notes: &'a mut [u64],
    /// Bytes for the key, or for the letters of a key that is taken back.
    pub bytes: &'a mut [u8],
}

/// Memory for any number of calls, one after the other. It grows by need.
#[cfg(feature = "alloc")]
#[derive(Clone, Debug, Default)]
pub struct Buffers {
    words: alloc::vec::Vec<u64>,
    bytes: alloc::vec::Vec<u8>,
}

#[cfg(feature = "alloc")]
impl Buffers {
    /// As much as is needed, and no more.
    pub fn lend(&mut self, need: Need) -> Lent<'_> {
        let words = need.nodes + need.names + need.notes;
        if self.words.len() < words {
            self.words.resize(words, 0);
        }
        if self.bytes.len() < need.bytes {
            self.bytes.resize(need.bytes, 0);
        }
        let (nodes, rest) = self.words[..words].split_at_mut(need.nodes);
        let (names, notes) = rest.split_at_mut(need.names);
        Lent { nodes, names, notes, bytes: &mut self.bytes[..need.bytes] }
    }
}

/// Where a reading ended.
#[derive(Clone, Copy, Debug, Default, PartialEq, Eq)]
pub struct End {
    /// The index of the first token that was not used.
    pub token: usize,
    /// Whether its first half was used, as the first `<` of `<<`.
    pub half: bool,
}

/// A type that was read.
#[derive(Clone, Copy, Debug)]
pub struct Reading<'a> {
    /// The type's tree.
    pub tree: Tree<'a>,
    /// Its key.
    pub key: &'a [u8],
    /// Where the reading ended. Tokens may be left; it is for the caller to say whether that is good.
    pub end: End,
    /// How many type rules were entered: the types that were begun, those in a constraint of `infer` each time that it is
    /// read. It is what reading cost, and at most 16 times the number of tokens.
    pub entered: usize,
    notes: &'a [u64],
}

impl<'a> Reading<'a> {
    /// What was reported of the type, in the order in which it was met.
    pub fn notes(&self) -> impl ExactSizeIterator<Item = Note> + use<'a> {
        self.notes.chunks_exact(5).map(Note::of)
    }
}

/// Reads the type that begins at a token, in buffers that grow by need.
#[cfg(feature = "alloc")]
pub fn read<'a>(
    text: &'a [u8],
    tokens: &[u64],
    options: Options,
    buffers: &'a mut Buffers,
) -> Result<Reading<'a>, Refusal> {
    read_into(text, tokens, options, buffers.lend(Need::to_read(text.len(), tokens.len())))
}

/// Takes a key back, in buffers that grow by need. Spans of the tree are all `0..0`.
#[cfg(feature = "alloc")]
pub fn take_back<'a>(key: &[u8], buffers: &'a mut Buffers) -> Result<Tree<'a>, Refusal> {
    take_back_into(key, buffers.lend(Need::to_take_back(key.len())))
}

/// Says what differs between two keys, in buffers that grow by need. There is no difference exactly when the keys are the
/// same bytes.
///
/// ```
/// use typekey::{Buffers, Difference, differ};
///
/// let (a, b) = ([0x10, 0x40, 0x04, 0x00, 0x05, 0x04], [0x10, 0x40, 0x04, 0x00, 0x05, 0x08]); // the keys of A and B
/// let mut buffers = Buffers::default();
/// let differences = differ(&a, &b, &mut buffers)?;
/// assert!(differences.eq([Difference { left: 22, right: 22 }])); // the name
/// # Ok::<(), typekey::Refusal>(())
/// ```
#[cfg(feature = "alloc")]
pub fn differ<'a>(
    left: &[u8],
    right: &[u8],
    buffers: &'a mut Buffers,
) -> Result<impl ExactSizeIterator<Item = Difference> + use<'a>, Refusal> {
    let nodes = Need::to_differ(left.len(), right.len());
    differ_into(left, right, buffers.lend(Need { nodes, names: 0, notes: 0, bytes: 0 }).nodes)
}

/// Reads the type that begins at a token, in slices that are lent.
///
/// ```
/// use typekey::{EOF, Lent, Need, Options, WORD, read_into, token};
///
/// const NEED: Need = Need::to_read(1, 2);
/// let (mut nodes, mut names, mut notes, mut bytes) = ([0; NEED.nodes], [0; NEED.names], [0; NEED.notes], [0; NEED.bytes]);
/// let lent = Lent { nodes: &mut nodes, names: &mut names, notes: &mut notes, bytes: &mut bytes };
/// let tokens = [token(WORD, false, 0, 1), token(EOF, false, 1, 0)];
/// let reading = read_into(b"A", &tokens, Options::default(), lent)?;
/// assert_eq!(reading.key, [0x10, 0x40, 0x04, 0x00, 0x05, 0x04]);
/// # Ok::<(), typekey::Refusal>(())
/// ```
pub fn read_into<'a>(text: &'a [u8], tokens: &[u64], options: Options, lent: Lent<'a>) -> Result<Reading<'a>, Refusal> {
    let Lent { nodes, names, notes, bytes } = lent;
    let mut answer = [0; 8];
    // SAFETY: the pointers and lengths are of slices, and the borrows keep those that are written apart from all others.
    unsafe {
        typekey_read(
            text.as_ptr(),
            text.len() as u64,
            tokens.as_ptr(),
            tokens.len() as u64,
            options.start as u64,
            options.preserve_parens as u64,
            nodes.as_mut_ptr(),
            nodes.len() as u64,
            names.as_mut_ptr(),
            names.len() as u64,
            notes.as_mut_ptr(),
            notes.len() as u64,
            bytes.as_mut_ptr(),
            bytes.len() as u64,
            &mut answer,
        )
    }
    let [refused, a, b, c, key, token, half, entered] = answer.map(|w| w as usize);
    if refused != 0 {
        return Err(Refusal { why: Why::of(refused), place: Place::Token { token: a, half: b == 1, byte: c } });
    }
    let tree = Tree::new(text, &nodes[..4 * a], &names[..b]);
    Ok(Reading { tree, key: &bytes[..key], end: End { token, half: half == 1 }, entered, notes: &notes[..5 * c] })
}

/// Takes a key back, in slices that are lent. Spans of the tree are all `0..0`.
pub fn take_back_into<'a>(key: &[u8], lent: Lent<'a>) -> Result<Tree<'a>, Refusal> {
    let Lent { nodes, names, bytes, .. } = lent;
    let mut answer = [0; 8];
    // SAFETY: as in `read_into`.
    unsafe {
        typekey_take_back(
            key.as_ptr(),
            key.len() as u64,
            nodes.as_mut_ptr(),
            nodes.len() as u64,
            names.as_mut_ptr(),
            names.len() as u64,
            bytes.as_mut_ptr(),
            bytes.len() as u64,
            &mut answer,
        )
    }
    let [refused, a, b, letters, ..] = answer.map(|w| w as usize);
    if refused != 0 {
        return Err(Refusal { why: Why::of(refused), place: Place::Bit(a) });
    }
    Ok(Tree::new(&bytes[..letters], &nodes[..4 * a], &names[..b]))
}

/// A place where two keys differ: the first bits of two nodes that differ in themselves (tag, a flag, a count, a small
/// number), of which nothing inside is told; or of two names that differ. The first node of a key has bit 4.
#[derive(Clone, Copy, Debug, PartialEq, Eq, Hash)]
pub struct Difference {
    /// The bit of the left key.
    pub left: usize,
    /// The bit of the right key.
    pub right: usize,
}

/// Says what differs between two keys, in a list that is lent, two words for each difference. They come in the key's order,
/// on both sides. If there are more than the list has room for, that is a refusal. All of the list is cleared first.
pub fn differ_into<'a>(
    left: &[u8],
    right: &[u8],
    list: &'a mut [u64],
) -> Result<impl ExactSizeIterator<Item = Difference> + use<'a>, Refusal> {
    let mut answer = [0; 8];
    // SAFETY: as in `read_into`.
    unsafe {
        typekey_differ(
            left.as_ptr(),
            left.len() as u64,
            right.as_ptr(),
            right.len() as u64,
            list.as_mut_ptr(),
            list.len() as u64,
            &mut answer,
        )
    }
    let [refused, a, bit, ..] = answer.map(|w| w as usize);
    if refused != 0 {
        return Err(Refusal { why: Why::of(refused), place: Place::Key { side: Side::of(a), bit } });
    }
    let list: &'a [u64] = list;
    Ok(list[..2 * a].chunks_exact(2).map(|d| Difference { left: d[0] as usize, right: d[1] as usize }))
}
