//! Token words, and the kinds that they carry.

/// The end of the text: the last token of each list, with no bytes.
pub const EOF: u8 = 0;
/// A word with no kind of its own.
pub const WORD: u8 = 1;
/// A number.
pub const NUMBER: u8 = 2;
/// A bigint literal, such as `2n`.
pub const BIGINT: u8 = 3;
/// A string, quotes and all.
pub const STRING: u8 = 4;
/// A template with no type in it, from backtick to backtick.
pub const TEMPLATE: u8 = 5;
/// A template's first piece, up to and with its `${`.
pub const TEMPLATE_HEAD: u8 = 6;
/// A template's piece from `}` to `${`.
pub const TEMPLATE_MIDDLE: u8 = 7;
/// A template's last piece, from `}` to the backtick.
pub const TEMPLATE_TAIL: u8 = 8;
/// A mark with no kind of its own.
pub const OTHER_MARK: u8 = 41;
/// A modifier word with no kind of its own, such as `public`.
pub const OTHER_MODIFIER: u8 = 83;
/// A reserved word with no kind of its own, such as `class`.
pub const OTHER_RESERVED: u8 = 107;

// The kinds with a fixed spelling, in runs, each with the kind of its first.
const FIXED: [(u8, &str); 3] = [
    (16, "{ } [ ] ( ) < > << <= <<= | & ? : , ; . ... => = ! - + *"),
    (
        64,
        "any bigint boolean never number object string symbol undefined unknown abstract as asserts infer is keyof out \
         readonly unique",
    ),
    (96, "extends false import in new null this true typeof void const"),
];
const MODIFIERS: &str = "accessor async declare override private protected public static";
const RESERVED: &str = "break case catch class continue debugger default delete do else enum export finally for \
                         function if instanceof return super switch throw try var while with";

/// A token word: kind, whether a line break stands before the token, its first byte, its length in bytes.
///
/// A length of 2^17 or more does not fit its field. It becomes the longest one, which is refused as every length over
/// 65,535 is.
pub const fn token(kind: u8, newline: bool, start: u32, length: u32) -> u64 {
    let length = if length > 0x1_FFFF { 0x1_FFFF } else { length };
    (kind as u64) << 56 | (newline as u64) << 55 | (length as u64) << 32 | start as u64
}

/// The kind of a token that is a word or a mark, by its bytes. Other tokens have the kinds that are named here.
pub fn kind_of(spelling: &[u8]) -> u8 {
    for (first, run) in FIXED {
        if let Some(n) = run.split(' ').position(|s| s.as_bytes() == spelling) {
            return first + n as u8;
        }
    }
    let among = |list: &str| list.split(' ').any(|s| s.as_bytes() == spelling);
    match spelling.first() {
        _ if among(MODIFIERS) => OTHER_MODIFIER,
        _ if among(RESERVED) => OTHER_RESERVED,
        Some(b'a'..=b'z' | b'A'..=b'Z' | b'_' | b'$' | b'#' | 0x80..) => WORD,
        _ => OTHER_MARK,
    }
}
