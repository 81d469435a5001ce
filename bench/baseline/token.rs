//! Token words and the check of a list of them.
use crate::read::Refusal;

pub const EOF: u8 = 0;
pub const WORD: u8 = 1;
pub const NUMBER: u8 = 2;
pub const BIGINT: u8 = 3;
pub const STRING: u8 = 4;
pub const TEMPLATE: u8 = 5;
pub const TEMPLATE_HEAD: u8 = 6;
pub const TEMPLATE_MIDDLE: u8 = 7;
pub const TEMPLATE_TAIL: u8 = 8;
pub const LEFT_BRACE: u8 = 16;
pub const RIGHT_BRACE: u8 = 17;
pub const LEFT_BRACKET: u8 = 18;
pub const RIGHT_BRACKET: u8 = 19;
pub const LEFT_PAREN: u8 = 20;
pub const RIGHT_PAREN: u8 = 21;
pub const LESS: u8 = 22;
pub const GREATER: u8 = 23;
pub const LESS_LESS: u8 = 24;
pub const LESS_EQUAL: u8 = 25;
pub const LESS_LESS_EQUAL: u8 = 26;
pub const PIPE: u8 = 27;
pub const AND: u8 = 28;
pub const QUESTION: u8 = 29;
pub const COLON: u8 = 30;
pub const COMMA: u8 = 31;
pub const SEMICOLON: u8 = 32;
pub const DOT: u8 = 33;
pub const DOTS: u8 = 34;
pub const ARROW: u8 = 35;
pub const EQUAL: u8 = 36;
pub const NOT: u8 = 37;
pub const MINUS: u8 = 38;
pub const PLUS: u8 = 39;
pub const STAR: u8 = 40;
pub const ANY: u8 = 64;
pub const UNKNOWN: u8 = 73;
pub const ABSTRACT: u8 = 74;
pub const AS: u8 = 75;
pub const ASSERTS: u8 = 76;
pub const INFER: u8 = 77;
pub const IS: u8 = 78;
pub const KEYOF: u8 = 79;
pub const OUT: u8 = 80;
pub const READONLY: u8 = 81;
pub const UNIQUE: u8 = 82;
pub const MODIFIER: u8 = 83;
pub const EXTENDS: u8 = 96;
pub const FALSE: u8 = 97;
pub const IMPORT: u8 = 98;
pub const IN: u8 = 99;
pub const NEW: u8 = 100;
pub const NULL: u8 = 101;
pub const THIS: u8 = 102;
pub const TRUE: u8 = 103;
pub const TYPEOF: u8 = 104;
pub const VOID: u8 = 105;
pub const CONST: u8 = 106;

pub const MOST_TEXT: usize = 65_535;
pub const MOST_TOKENS: usize = 16_384;

/// A token word.
#[derive(Clone, Copy)]
pub struct Token(pub u64);

impl Token {
    pub fn kind(self) -> u8 {
        (self.0 >> 56) as u8
    }

    pub fn newline(self) -> bool {
        self.0 >> 55 & 1 == 1
    }

    fn zeros(self) -> u64 {
        self.0 >> 49 & 0x3f
    }

    pub fn len(self) -> usize {
        (self.0 >> 32 & 0x1_ffff) as usize
    }

    pub fn start(self) -> usize {
        (self.0 & 0xffff_ffff) as usize
    }

    pub fn end(self) -> usize {
        self.start() + self.len()
    }
}

pub fn is_binding(kind: u8) -> bool {
    kind == WORD || (64..=83).contains(&kind)
}

pub fn is_name(kind: u8) -> bool {
    is_binding(kind) || (96..=107).contains(&kind)
}

pub fn is_modifier(kind: u8) -> bool {
    matches!(kind, ABSTRACT | OUT | READONLY | MODIFIER)
}

/// Whether a type may begin with this token, whatever follows.
pub fn is_starter(kind: u8) -> bool {
    is_binding(kind)
        || matches!(kind, NUMBER..=TEMPLATE_HEAD | LEFT_BRACE | LEFT_BRACKET | LESS | PIPE | AND | STAR | QUESTION | NOT | DOTS)
        || matches!(kind, NEW | IMPORT | THIS | TYPEOF | VOID | NULL | TRUE | FALSE)
}

static MARKS: [&[u8]; 25] = [
    b"{", b"}", b"[", b"]", b"(", b")", b"<", b">", b"<<", b"<=", b"<<=", b"|", b"&", b"?", b":", b",", b";", b".", b"...",
    b"=>", b"=", b"!", b"-", b"+", b"*",
];
static SOFT_WORDS: [&[u8]; 19] = [
    b"any",
    b"bigint",
    b"boolean",
    b"never",
    b"number",
    b"object",
    b"string",
    b"symbol",
    b"undefined",
    b"unknown",
    b"abstract",
    b"as",
    b"asserts",
    b"infer",
    b"is",
    b"keyof",
    b"out",
    b"readonly",
    b"unique",
];
static HARD_WORDS: [&[u8]; 11] =
    [b"extends", b"false", b"import", b"in", b"new", b"null", b"this", b"true", b"typeof", b"void", b"const"];

/// Whether the bytes are some fixed spelling: the match goes by length first.
fn is_fixed(s: &[u8]) -> bool {
    match s.len() {
        1 => b"{}[]()<>|&?:,;.=!-+*".contains(&s[0]),
        2 => matches!(s, b"<<" | b"<=" | b"=>" | b"as" | b"is" | b"in"),
        3 => matches!(s, b"<<=" | b"..." | b"any" | b"out" | b"new"),
        4 => matches!(s, b"null" | b"this" | b"true" | b"void"),
        5 => matches!(s, b"never" | b"infer" | b"keyof" | b"false" | b"const"),
        6 => matches!(s, b"bigint" | b"number" | b"object" | b"string" | b"symbol" | b"unique" | b"import" | b"typeof"),
        7 => matches!(s, b"boolean" | b"unknown" | b"asserts" | b"extends"),
        8 => matches!(s, b"abstract" | b"readonly"),
        9 => s == b"undefined",
        _ => false,
    }
}

fn is_spelled_right(kind: u8, s: &[u8]) -> bool {
    match kind {
        NUMBER..=TEMPLATE_TAIL => true,
        WORD => !is_fixed(s) && !s.contains(&b'\\'),
        41 | 83 | 107 => !is_fixed(s),
        16..=40 => s == MARKS[kind as usize - 16],
        64..=82 => s == SOFT_WORDS[kind as usize - 64],
        96..=106 => s == HARD_WORDS[kind as usize - 96],
        _ => false,
    }
}

fn is_good(text: &[u8], token: Token, before: usize, last: bool) -> bool {
    if token.zeros() != 0 || token.start() < before || token.end() > text.len() {
        return false;
    }
    if token.kind() == EOF || last {
        return token.kind() == EOF && last && token.len() == 0;
    }
    token.len() > 0 && is_spelled_right(token.kind(), &text[token.start()..token.end()])
}

/// Refusals 1 and 2.
pub fn check(text: &[u8], words: &[u64], start: usize) -> Result<(), Refusal> {
    if text.len() > MOST_TEXT || words.len() > MOST_TOKENS || start >= words.len() {
        return Err(Refusal { number: 1, token: 0, half: false, byte: 0 });
    }
    let mut before = 0;
    for (i, &word) in words.iter().enumerate() {
        let token = Token(word);
        if !is_good(text, token, before, i + 1 == words.len()) {
            return Err(Refusal { number: 2, token: i, half: false, byte: 0 });
        }
        before = token.end();
    }
    Ok(())
}
