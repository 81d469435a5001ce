//! What a call has to say beside the tree: refusals and diagnostics, by name and in words.
use core::fmt;
use core::ops::Range;

/// Why a call was refused. The discriminant is the refusal's number.
#[derive(Clone, Copy, Debug, PartialEq, Eq, Hash)]
#[repr(u8)]
pub enum Why {
    /// The text or the number of tokens is over its limit, there are no tokens, or the start is none of them.
    BadList = 1,
    /// A word is no good token, or the list does not end with an Eof.
    BadToken,
    /// A token that no rule takes.
    Unexpected,
    /// A 65th type rule would be open.
    TooDeep = 5,
    /// A node would be higher than 256.
    TooTall,
    /// A list has more than 4,095 entries.
    TooLong,
    /// No room is left for a node.
    NoRoom,
    /// A diagnostic would be the 33rd, or no record is left for it.
    ManyNotes,
    /// The bytes are no key.
    BadKey,
    /// The names, the key or the letters do not fit.
    NoSpace,
    /// A `?`, `!` or `*` before a type.
    PrefixMark = 20,
    /// A modifier before a parameter.
    ParameterModifier,
    /// A default for a parameter, at its `=`.
    DefaultValue,
    /// A `this` that is not the first parameter, or is a rest.
    MisplacedThis,
    /// A comma behind a rest parameter.
    RestNotLast,
    /// `const`, `in` or `out` before a type parameter.
    TypeParameterModifier,
    /// An import from something that is no string.
    ImportSource,
    /// A comma behind the source of an import.
    ImportOptions,
    /// More than four constraints of `infer` would be tried at once, at the `extends` of the fifth.
    ManyTrials,
    /// There are more differences than the list has room for.
    ManyDifferences,
    /// A member with a computed name, an accessor, or a modifier other than `readonly`.
    MemberForm = 31,
}

use Why::*;

const WHY: [(Why, &str); 21] = [
    (BadList, "no tokens or too many, too long a text, or a start that is no token"),
    (BadToken, "a word that is no good token"),
    (Unexpected, "a token that no rule takes"),
    (TooDeep, "a 65th type rule open"),
    (TooTall, "a node higher than 256"),
    (TooLong, "a list of more than 4,095 entries"),
    (NoRoom, "no room for another node"),
    (ManyNotes, "no record for another diagnostic, or a 33rd one"),
    (BadKey, "a field that is no part of a key"),
    (NoSpace, "no space for the names, the key or the letters"),
    (PrefixMark, "a `?`, `!` or `*` before a type is not supported"),
    (ParameterModifier, "a modifier before a parameter is not supported"),
    (DefaultValue, "a default value is not supported"),
    (MisplacedThis, "`this` has to be the first parameter, and not a rest"),
    (RestNotLast, "nothing may follow a rest parameter"),
    (TypeParameterModifier, "`const`, `in` or `out` before a type parameter is not supported"),
    (ImportSource, "the source of an import has to be a string"),
    (ImportOptions, "options of an import are not supported"),
    (ManyTrials, "more than four constraints of `infer` would be tried at once"),
    (ManyDifferences, "more differences than the list has room for"),
    (MemberForm, "a computed name, an accessor or a modifier other than `readonly` is not supported"),
];

// Where a refusal stands among them. The library has no other numbers.
const fn at(number: usize) -> usize {
    let mut i = 0;
    while WHY[i].0 as usize != number {
        i += 1;
    }
    i
}

impl Why {
    pub(crate) fn of(number: usize) -> Why {
        WHY[at(number)].0
    }

    /// The refusal's number.
    pub const fn number(self) -> u8 {
        self as u8
    }

    /// What it says, in words.
    pub const fn words(self) -> &'static str {
        WHY[at(self as usize)].1
    }
}

/// Where a call was refused.
#[derive(Clone, Copy, Debug, PartialEq, Eq, Hash)]
pub enum Place {
    /// In reading.
    Token {
        /// The token's index; 0 for `BadList` and `NoSpace`, which have no place.
        token: usize,
        /// Whether its first half was used, as the first `<` of `<<`.
        half: bool,
        /// The first byte not yet used, but 0 for `BadList`, `BadToken` and `NoSpace`.
        byte: usize,
    },
    /// In taking a key back: the bit's number, from 0; 0 also for `NoSpace`, which has no place.
    Bit(usize),
    /// In comparing two keys.
    Key {
        /// Whose key it is.
        side: Side,
        /// The bit's number in that key, from 0; 0 also for `ManyDifferences`, which has no place.
        bit: usize,
    },
}

/// One of two keys. The discriminant is the side's number.
#[derive(Clone, Copy, Debug, PartialEq, Eq, Hash)]
#[repr(u8)]
pub enum Side {
    /// Neither key: `ManyDifferences`.
    Neither,
    /// The left key.
    Left,
    /// The right key.
    Right,
}

impl Side {
    // The library has no other numbers.
    pub(crate) fn of(number: usize) -> Side {
        [Side::Neither, Side::Left, Side::Right][number]
    }
}

/// A refusal: why and where. It displays as a sentence.
#[derive(Clone, Copy, Debug, PartialEq, Eq, Hash)]
pub struct Refusal {
    /// Why.
    pub why: Why,
    /// Where.
    pub place: Place,
}

impl fmt::Display for Refusal {
    fn fmt(&self, f: &mut fmt::Formatter) -> fmt::Result {
        let Refusal { why, place } = *self;
        write!(f, "refusal {} ({why:?}): {}", why.number(), why.words())?;
        match place {
            _ if matches!(why, BadList | NoSpace) => Ok(()),
            Place::Bit(bit) => write!(f, ", at bit {bit}"),
            Place::Key { side: Side::Neither, .. } => Ok(()),
            Place::Key { side: Side::Left, bit } => write!(f, ", at bit {bit} of the left key"),
            Place::Key { side: Side::Right, bit } => write!(f, ", at bit {bit} of the right key"),
            Place::Token { token, .. } if why == BadToken => write!(f, ", at token {token}"),
            Place::Token { token, half: false, byte } => write!(f, ", at token {token}, byte {byte}"),
            Place::Token { token, half: true, byte } => {
                write!(f, ", behind the first half of token {token}, byte {byte}")
            }
        }
    }
}

impl core::error::Error for Refusal {}

/// What is reported of a type that is read all the same. The discriminant is the diagnostic's number.
#[derive(Clone, Copy, Debug, PartialEq, Eq, Hash)]
#[repr(u8)]
pub enum Diagnostic {
    /// Type parameters with none between `<` and `>`.
    NoTypeParameters = 1,
    /// Arguments with none between `<` and `>`.
    NoArguments,
    /// A `this` parameter on a constructor or a construct signature.
    ConstructorThis,
    /// A required element somewhere after an optional one.
    RequiredAfter,
    /// Dots behind a label.
    RestAfterLabel,
    /// A `?` after the type behind a label.
    OptionalAfterLabel,
    /// An element that is optional and a rest.
    OptionalRest,
    /// A `?` on the parameter of an index signature.
    OptionalIndex,
    /// A comma behind the last parameter of an index signature.
    CommaAfterIndex,
    /// A literal as the type of such a parameter.
    LiteralIndex,
    /// A keyword as its type that is no index.
    KeywordIndex,
    /// An index signature with no parameter, or with more than one.
    NotOneIndex,
    /// A type parameter, or the name behind an `infer`, that has the name of a built-in type.
    ReservedName,
}

use Diagnostic::*;

const DIAGNOSTICS: [(Diagnostic, &str); 13] = [
    (NoTypeParameters, "type parameters with none between the brackets"),
    (NoArguments, "arguments with none between the brackets"),
    (ConstructorThis, "`this` on a constructor"),
    (RequiredAfter, "a required element after an optional one"),
    (RestAfterLabel, "dots behind a label"),
    (OptionalAfterLabel, "a `?` after the type behind a label"),
    (OptionalRest, "an element that is optional and a rest"),
    (OptionalIndex, "a `?` on the parameter of an index signature"),
    (CommaAfterIndex, "a comma behind the parameter of an index signature"),
    (LiteralIndex, "a literal as the type of an index signature's parameter"),
    (KeywordIndex, "a keyword as the type of an index signature's parameter that is no index"),
    (NotOneIndex, "an index signature with no parameter or more than one"),
    (ReservedName, "a type parameter with the name of a built-in type; choose another name"),
];

impl Diagnostic {
    // The library has no other numbers.
    pub(crate) fn of(number: u64) -> Diagnostic {
        DIAGNOSTICS[number as usize - 1].0
    }

    /// The diagnostic's number.
    pub const fn number(self) -> u8 {
        self as u8
    }

    /// What it says, in words.
    pub const fn words(self) -> &'static str {
        DIAGNOSTICS[self as usize - 1].1
    }
}

/// A diagnostic and the bytes that it is about. It displays as a sentence.
#[derive(Clone, Debug, PartialEq, Eq, Hash)]
pub struct Note {
    /// What is reported.
    pub what: Diagnostic,
    /// Of which bytes of the text.
    pub span: Range<usize>,
    /// A second place that it is about: of `RequiredAfter` the latest optional element before the required one. Others
    /// have none.
    pub other: Option<Range<usize>>,
}

impl Note {
    // From the five words of a record. An end of 0 is no second place.
    pub(crate) fn of(record: &[u64]) -> Note {
        let span = |i: usize| record[i] as usize..record[i + 1] as usize;
        let other = Some(span(3)).filter(|other| other.end != 0);
        Note { what: Diagnostic::of(record[0]), span: span(1), other }
    }
}

impl fmt::Display for Note {
    fn fmt(&self, f: &mut fmt::Formatter) -> fmt::Result {
        let Note { what, span, other } = self;
        let (number, words) = (what.number(), what.words());
        write!(f, "diagnostic {number} ({what:?}): {words}, at bytes {} to {}", span.start, span.end)?;
        match other {
            Some(other) => write!(f, "; the optional one is at bytes {} to {}", other.start, other.end),
            None => Ok(()),
        }
    }
}
