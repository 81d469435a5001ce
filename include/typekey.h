/* The type key library: reads a TypeScript type into a tree and its key, takes a key back, and says what differs between two keys.

   typekey_read        text and token words in; tree, diagnostics, end and key out, or a refusal
   typekey_take_back   a key in; its tree and spellings out, or a refusal
   typekey_differ      two keys in; the places where their trees differ out, or a refusal

   Lent memory. Each slice is two arguments: a pointer and how many ELEMENTS it has. A slice of none may be null; `answer` may not.
   Slices of words stand at multiples of 8. A slice that is written overlaps no other. Nothing is asked of what slices hold.
   A call allocates nothing, keeps nothing and ends on every input; threads may call at the same time with slices of their own. The
   deepest types took some 245 KiB of stack on x86-64: give a thread that calls 512.
   Of each slice that is written, all past the part used is zero; after a refusal all of it is zero. So a call's time grows with
   what it is lent: lend by need (see "How much to lend"). Beside that a read that is granted takes time by its tokens: it enters at
   most TYPEKEY_MOST_ENTERED type rules a token, however types are nested, and its answer says how many it entered.

   Tokens, nodes, names, bytes and bits count from 0. A span has a first byte and an end byte, which is the one behind its last. */
#ifndef TYPEKEY_H
#define TYPEKEY_H
#include <stdint.h>
#ifdef __cplusplus
extern "C" {
#endif

/* ---- The calls ---- */

/* Reads the type that begins at token `start`. options: TYPEKEY_PRESERVE_PARENS or 0; other bits are ignored.
   answer, read:     0, nodes, names, notes, bytes of key, end token, end half, type rules entered
   answer, refused:  number (1 to 3, 5 to 9, 11, 20 to 28 or 31), token, half, byte, 0, 0, 0, 0
   The type ends before the end token; what follows it is not looked at. A refusal's half is 1 where the first half of its token is
   used, as the `<` of `<=`, and its byte is the first one not used: the place to point at. 1, 2 and 11 have no half and no byte.
   Type rules entered: how many types were begun, those inside a constraint of infer each time that it is read. */
void typekey_read(const uint8_t *text, uint64_t text_len, const uint64_t *tokens, uint64_t token_count, uint64_t start, uint64_t options,
                  uint64_t *nodes, uint64_t node_words, uint64_t *names, uint64_t name_words, uint64_t *notes, uint64_t note_words,
                  uint8_t *key, uint64_t key_bytes, uint64_t answer[8]);

/* Takes a key back. The tree's spans are 0 to 0; its spellings stand one after the other in `text`, where its names point.
   answer, taken:    0, nodes, names, bytes of text, 0, 0, 0, 0
   answer, refused:  number (6, 8, 10 or 11), bit of the key, 0, 0, 0, 0, 0, 0 */
void typekey_take_back(const uint8_t *key, uint64_t key_len, uint64_t *nodes, uint64_t node_words, uint64_t *names, uint64_t name_words,
                       uint8_t *text, uint64_t text_bytes, uint64_t answer[8]);

/* Says what differs between two keys: pairs of bits, two words each, the left key's and the right key's, in the key's order on both
   sides. A pair is the first bits of two nodes at one place whose own choices differ (tag, flags, counts, small numbers), of which
   nothing inside is reported; or of two spellings that differ, at their lengths. No pair at all: the keys are the same bytes.
   answer, found:    0, pairs, 0, 0, 0, 0, 0, 0
   answer, refused:  number (6, 10 or 29), side (TYPEKEY_LEFT_KEY, TYPEKEY_RIGHT_KEY or TYPEKEY_NO_SIDE), bit of that key, 0, 0, 0, 0, 0
   The left key is looked at first. Both may be the same slice. */
void typekey_differ(const uint8_t *left, uint64_t left_len, const uint8_t *right, uint64_t right_len, uint64_t *list, uint64_t list_words,
                    uint64_t answer[8]);

#define TYPEKEY_PRESERVE_PARENS 1   /* keep (A) as a node of its own */

/* ---- Refusals: answer[0] ---- */
#define TYPEKEY_OK 0
#define TYPEKEY_BAD_LIST 1      /* text or tokens over their limit, no tokens, or start is not the index of one; place 0 */
#define TYPEKEY_BAD_TOKEN 2     /* a token word is bad, or the last is no Eof; at the first such word */
#define TYPEKEY_UNEXPECTED 3    /* no rule takes this token */
#define TYPEKEY_TOO_DEEP 5      /* more than 64 types open at once */
#define TYPEKEY_TOO_TALL 6      /* a node higher than 256 */
#define TYPEKEY_TOO_LONG 7      /* a list of more than 4,095 */
#define TYPEKEY_NO_ROOM 8       /* `nodes` is too short */
#define TYPEKEY_MANY_NOTES 9    /* more than 32 diagnostics, or `notes` is too short */
#define TYPEKEY_BAD_KEY 10      /* not a key, or too long for one; at the first bit of the wrong field */
#define TYPEKEY_NO_SPACE 11     /* `names`, `key` or `text` is too short; place 0 */
#define TYPEKEY_MANY_TRIALS 28      /* an extends behind infer that would open a fifth trial (see TYPEKEY_MOST_TRIALS) */
#define TYPEKEY_MANY_DIFFERENCES 29 /* `list` is too short; side 0, bit 0 */
/* Forms that are known and not read, each at the token that its line names first. */
#define TYPEKEY_PREFIX_MARK 20              /* ?, ! or * before a type: ?A */
#define TYPEKEY_PARAMETER_MODIFIER 21       /* a modifier before a parameter: (readonly a: A) => B */
#define TYPEKEY_DEFAULT_VALUE 22            /* an = behind a parameter: (a = 1) => A */
#define TYPEKEY_MISPLACED_THIS 23           /* a this that is not the first parameter, or is a rest: (a, this: A) => B */
#define TYPEKEY_REST_NOT_LAST 24            /* a comma behind a rest parameter: (...a, b) => A */
#define TYPEKEY_TYPE_PARAMETER_MODIFIER 25  /* const, in or out before a type parameter: <const T>() => A */
#define TYPEKEY_IMPORT_SOURCE 26            /* no string as an import's source: import(A) */
#define TYPEKEY_IMPORT_OPTIONS 27           /* a comma behind an import's source: import("m", { .. }) */
#define TYPEKEY_MEMBER_FORM 31              /* the [ of a computed name, get, set, or a modifier other than readonly: { get a(): A } */

/* ---- The side of a refusal of typekey_differ: answer[1] ---- */
#define TYPEKEY_NO_SIDE 0
#define TYPEKEY_LEFT_KEY 1
#define TYPEKEY_RIGHT_KEY 2

/* ---- Limits ---- */
#define TYPEKEY_MOST_TEXT 65535     /* bytes of a text */
#define TYPEKEY_MOST_TOKENS 16384   /* token words, the Eof among them */
#define TYPEKEY_MOST_OPEN 64        /* types open at once */
#define TYPEKEY_TALLEST 256         /* height of a node; one without children is 1 high */
#define TYPEKEY_LONGEST_LIST 4095   /* entries of a list */
#define TYPEKEY_MOST_NOTES 32       /* diagnostics of a reading */
#define TYPEKEY_MOST_KEY 262144     /* bytes of a key */
#define TYPEKEY_MOST_TRIALS 4       /* trials open at once: constraints of infer that are read where a conditional type may stand */
#define TYPEKEY_MOST_ENTERED 16     /* type rules entered in a read that is granted, for each token word */

/* ---- How much to lend ----
   With these a read is never refused for want of room (8, 11, or 9 below 33 diagnostics), and taking back neither (8, 11), nor
   comparing (29): nothing that a pair stands for has fewer than 9 bits, and no two of them share one, so there are fewer pairs than
   bytes in either key. */
#define TYPEKEY_READ_NODE_WORDS(token_count) (4 * (uint64_t)(token_count))
#define TYPEKEY_READ_NAME_WORDS(token_count) ((uint64_t)(token_count))
#define TYPEKEY_READ_NOTE_WORDS (5 * TYPEKEY_MOST_NOTES)
#define TYPEKEY_READ_KEY_BYTES(text_len, token_count) ((uint64_t)(text_len) + 12 * (uint64_t)(token_count) + 16)
#define TYPEKEY_BACK_NODE_WORDS(key_len) (4 * ((uint64_t)(key_len) + (uint64_t)(key_len) / 3 + 1))
#define TYPEKEY_BACK_NAME_WORDS(key_len) ((uint64_t)(key_len) / 3 + 1)
#define TYPEKEY_BACK_TEXT_BYTES(key_len) ((uint64_t)(key_len))
#define TYPEKEY_DIFFER_LIST_WORDS(left_len, right_len) (2 * ((uint64_t)(left_len) < (uint64_t)(right_len) ? (uint64_t)(left_len) : (uint64_t)(right_len)))

/* ---- Token words ----
   Most significant bit first: kind 8 bits, line break before it 1, zeros 6, length in bytes 17, first byte in the text 32.
   Tokens stand in the text's order and do not overlap; between them may be anything (white space, comments). The last is an Eof of
   no bytes, and only that one. Every other token has a byte. A kind with a fixed spelling has just that one; 1, 41, 83 and 107 have
   none of those. A `>` is always a token of its own; `<<`, `<=` and `<<=` are one token each. */
static inline uint64_t typekey_token(uint64_t kind, int line_break_before, uint64_t first_byte, uint64_t length) {
    return kind << 56 | (uint64_t)(line_break_before != 0) << 55 | length << 32 | first_byte;
}

#define TYPEKEY_EOF 0
#define TYPEKEY_WORD 1              /* a word with no kind of its own; no escapes in it */
#define TYPEKEY_NUMBER 2
#define TYPEKEY_BIGINT 3
#define TYPEKEY_STRING 4            /* with its quotes */
#define TYPEKEY_TEMPLATE 5          /* `..` */
#define TYPEKEY_TEMPLATE_HEAD 6     /* `..${ */
#define TYPEKEY_TEMPLATE_MIDDLE 7   /* }..${ */
#define TYPEKEY_TEMPLATE_TAIL 8     /* }..` */
#define TYPEKEY_LEFT_BRACE 16       /* { */
#define TYPEKEY_RIGHT_BRACE 17      /* } */
#define TYPEKEY_LEFT_BRACKET 18     /* [ */
#define TYPEKEY_RIGHT_BRACKET 19    /* ] */
#define TYPEKEY_LEFT_PAREN 20       /* ( */
#define TYPEKEY_RIGHT_PAREN 21      /* ) */
#define TYPEKEY_LESS 22             /* < */
#define TYPEKEY_GREATER 23          /* > */
#define TYPEKEY_SHIFT_LEFT 24       /* << */
#define TYPEKEY_LESS_EQUAL 25       /* <= */
#define TYPEKEY_SHIFT_LEFT_EQUAL 26 /* <<= */
#define TYPEKEY_BAR 27              /* | */
#define TYPEKEY_AND 28              /* & */
#define TYPEKEY_QUESTION 29         /* ? */
#define TYPEKEY_COLON 30            /* : */
#define TYPEKEY_COMMA 31            /* , */
#define TYPEKEY_SEMICOLON 32        /* ; */
#define TYPEKEY_DOT 33              /* . */
#define TYPEKEY_DOTS 34             /* ... */
#define TYPEKEY_ARROW 35            /* => */
#define TYPEKEY_EQUAL 36            /* = */
#define TYPEKEY_BANG 37             /* ! */
#define TYPEKEY_MINUS 38            /* - */
#define TYPEKEY_PLUS 39             /* + */
#define TYPEKEY_STAR 40             /* * */
#define TYPEKEY_OTHER_MARK 41       /* any other mark */
#define TYPEKEY_WORD_ANY 64
#define TYPEKEY_WORD_BIGINT 65
#define TYPEKEY_WORD_BOOLEAN 66
#define TYPEKEY_WORD_NEVER 67
#define TYPEKEY_WORD_NUMBER 68
#define TYPEKEY_WORD_OBJECT 69
#define TYPEKEY_WORD_STRING 70
#define TYPEKEY_WORD_SYMBOL 71
#define TYPEKEY_WORD_UNDEFINED 72
#define TYPEKEY_WORD_UNKNOWN 73
#define TYPEKEY_WORD_ABSTRACT 74
#define TYPEKEY_WORD_AS 75
#define TYPEKEY_WORD_ASSERTS 76
#define TYPEKEY_WORD_INFER 77
#define TYPEKEY_WORD_IS 78
#define TYPEKEY_WORD_KEYOF 79
#define TYPEKEY_WORD_OUT 80
#define TYPEKEY_WORD_READONLY 81
#define TYPEKEY_WORD_UNIQUE 82
#define TYPEKEY_OTHER_MODIFIER 83   /* public, private, protected, static, override, declare, accessor, async */
#define TYPEKEY_WORD_EXTENDS 96
#define TYPEKEY_WORD_FALSE 97
#define TYPEKEY_WORD_IMPORT 98
#define TYPEKEY_WORD_IN 99
#define TYPEKEY_WORD_NEW 100
#define TYPEKEY_WORD_NULL 101
#define TYPEKEY_WORD_THIS 102
#define TYPEKEY_WORD_TRUE 103
#define TYPEKEY_WORD_TYPEOF 104
#define TYPEKEY_WORD_VOID 105
#define TYPEKEY_WORD_CONST 106
#define TYPEKEY_OTHER_RESERVED 107  /* any other reserved word */

/* ---- Notes: diagnostics, five words each ----
   Number; first byte, end byte; first byte and end byte of a second place, 0 and 0 where there is none. The tree is read all the same.
   Only TYPEKEY_NOTE_REQUIRED_AFTER has a second place: the latest optional element before the required one. */
static inline uint64_t typekey_note_number(const uint64_t *notes, uint64_t i) { return notes[5 * i]; }
static inline uint64_t typekey_note_first(const uint64_t *notes, uint64_t i) { return notes[5 * i + 1]; }
static inline uint64_t typekey_note_end(const uint64_t *notes, uint64_t i) { return notes[5 * i + 2]; }
static inline uint64_t typekey_note_other_first(const uint64_t *notes, uint64_t i) { return notes[5 * i + 3]; }
static inline uint64_t typekey_note_other_end(const uint64_t *notes, uint64_t i) { return notes[5 * i + 4]; } /* 0: no second place */

#define TYPEKEY_NOTE_NO_TYPE_PARAMETERS 1   /* <>() => A */
#define TYPEKEY_NOTE_NO_ARGUMENTS 2         /* A<> */
#define TYPEKEY_NOTE_CONSTRUCTOR_THIS 3     /* new (this: A) => B, { new (this: A): B } */
#define TYPEKEY_NOTE_REQUIRED_AFTER 4       /* [A?, B] */
#define TYPEKEY_NOTE_REST_AFTER_LABEL 5     /* [a: ...B] */
#define TYPEKEY_NOTE_OPTIONAL_AFTER_LABEL 6 /* [a: B?] */
#define TYPEKEY_NOTE_OPTIONAL_REST 7        /* [...a?: B] */
#define TYPEKEY_NOTE_OPTIONAL_INDEX 8       /* { [a?: A]: B } */
#define TYPEKEY_NOTE_COMMA_AFTER_INDEX 9    /* { [a: A,]: B } */
#define TYPEKEY_NOTE_LITERAL_INDEX 10       /* { [a: 'x']: B } */
#define TYPEKEY_NOTE_KEYWORD_INDEX 11       /* { [a: null]: B } */
#define TYPEKEY_NOTE_NOT_ONE_INDEX 12       /* { []: A }, { [a: A, b: B]: C } */
#define TYPEKEY_NOTE_RESERVED_NAME 13       /* <string>() => A, infer any: the name of a built-in type, given to another */

/* ---- Names: one word each: start * 2^32 + length, in the text ---- */
static inline uint64_t typekey_name_start(uint64_t name) { return name >> 32; }
static inline uint64_t typekey_name_length(uint64_t name) { return name & 0xffffffff; }

/* ---- Nodes: four words each ----
   0  its choices: the tag in the lowest 6 bits, then its fields of the table below, the first lowest; an "opt" is one bit, a list's
      count 12 bits. Spellings and children have no bits here. A type parameter and a parameter have no tag: their bits begin at once.
      A member of an object type has its sort in the lowest 3 bits instead of a tag.
   1  first byte + 2^32 * end byte
   2  first child + 2^32 * first name
   3  next sibling, or 0
   Nodes stand in postorder: children before their parent, the last child right before it, and the root is the last node used. A
   first child 0 can be node 0 or none: typekey_has_children tells.
   Names stand in the key's order, each node's spellings and children as the table lists them. To walk a tree with its names go
   through the fields in this order and count the names that you pass. */
static inline uint64_t typekey_choices(const uint64_t *nodes, uint64_t i) { return nodes[4 * i]; }
static inline uint64_t typekey_tag(const uint64_t *nodes, uint64_t i) { return nodes[4 * i] & 63; }
static inline uint64_t typekey_sort(const uint64_t *nodes, uint64_t i) { return nodes[4 * i] & 7; } /* of a member */
static inline uint64_t typekey_first_byte(const uint64_t *nodes, uint64_t i) { return nodes[4 * i + 1] & 0xffffffff; }
static inline uint64_t typekey_end_byte(const uint64_t *nodes, uint64_t i) { return nodes[4 * i + 1] >> 32; }
static inline uint64_t typekey_first_child(const uint64_t *nodes, uint64_t i) { return nodes[4 * i + 2] & 0xffffffff; }
static inline uint64_t typekey_first_name(const uint64_t *nodes, uint64_t i) { return nodes[4 * i + 2] >> 32; }
static inline uint64_t typekey_next_sibling(const uint64_t *nodes, uint64_t i) { return nodes[4 * i + 3]; }
/* In postorder the node before a parent is its last child, and the node before any other has a next sibling. */
static inline int typekey_has_children(const uint64_t *nodes, uint64_t i) { return i > 0 && nodes[4 * i - 1] == 0; }

/* Tags, and each node's fields in the key's order. Without "opt" or "list" a field is there once; list>=1 has at least one entry. */
#define TYPEKEY_REFERENCE 1     /* list>=1 of spellings, opt list of types: A.b<C> */
#define TYPEKEY_KEYWORD 2       /* 4 bits: TYPEKEY_KEYWORD_.. */
#define TYPEKEY_LITERAL 3       /* 3 bits: TYPEKEY_LITERAL_..; a spelling, but not for true and false */
#define TYPEKEY_PARENS 4        /* type */
#define TYPEKEY_UNION 5         /* list>=1 of types */
#define TYPEKEY_INTERSECTION 6  /* list>=1 of types */
#define TYPEKEY_ARRAY 7         /* type */
#define TYPEKEY_INDEXED 8       /* type, index type */
#define TYPEKEY_CONDITIONAL 9   /* type, what it extends, first branch, second branch */
#define TYPEKEY_INFER 10        /* spelling, opt type */
#define TYPEKEY_OPERATOR 11     /* 2 bits: 0 keyof, 1 unique, 2 readonly; type */
#define TYPEKEY_FUNCTION 12     /* opt list of type parameters; opt `this`, which is an opt type; list of parameters; return type */
#define TYPEKEY_CONSTRUCTOR 13  /* bit for abstract; opt list of type parameters; list of parameters; return type */
#define TYPEKEY_MAPPED 14       /* 2 bits for readonly; spelling; constraint; opt name type; 2 bits for `?`; opt type
                                   (0 absent, 1 plain, 2 with +, 3 with -) */
#define TYPEKEY_TEMPLATE_TYPE 15 /* 12 bits n; spelling; n times a type and a spelling */
#define TYPEKEY_PREDICATE 16    /* bit for asserts; bit for this, and a spelling if it is 0; opt type */
#define TYPEKEY_TYPEOF 17       /* as a reference */
#define TYPEKEY_IMPORT 18       /* bit for typeof; spelling; list of spellings; opt list of types */
#define TYPEKEY_TUPLE 19        /* list of elements: types, 20, 21, 22 */
#define TYPEKEY_OPTIONAL 20     /* type */
#define TYPEKEY_REST 21         /* type, or 22 */
#define TYPEKEY_NAMED 22        /* spelling; bit for `?`; type, 20 or 21 */
#define TYPEKEY_NON_NULL 23     /* type: A! */
#define TYPEKEY_NULLABLE 24     /* type: A? */
#define TYPEKEY_OBJECT 25       /* list of members */
/* type parameter, no tag:         spelling, opt type (what it extends), opt type (its default) */
/* parameter, no tag:              bit for rest; spelling; bit for `?`; opt type */

/* Members of an object type: the sort that each has instead of a tag, and its fields behind it. A key is 2 bits, TYPEKEY_KEYED_BY_..,
   and a spelling. */
#define TYPEKEY_MEMBER_PROPERTY 0   /* bit for readonly; key; bit for `?`; opt type */
#define TYPEKEY_MEMBER_METHOD 1     /* key; bit for `?`; then as a call signature */
#define TYPEKEY_MEMBER_CALL 2       /* opt list of type parameters; opt `this`, which is an opt type; list of parameters; opt return type */
#define TYPEKEY_MEMBER_CONSTRUCT 3  /* opt list of type parameters; list of parameters; opt return type */
#define TYPEKEY_MEMBER_INDEX 4      /* bit for readonly; opt parameter, which is a spelling and a type; type */

#define TYPEKEY_KEYED_BY_NAME 0
#define TYPEKEY_KEYED_BY_STRING 1   /* the spelling is with its quotes */
#define TYPEKEY_KEYED_BY_NUMBER 2

#define TYPEKEY_KEYWORD_ANY 0
#define TYPEKEY_KEYWORD_BIGINT 1
#define TYPEKEY_KEYWORD_BOOLEAN 2
#define TYPEKEY_KEYWORD_NEVER 3
#define TYPEKEY_KEYWORD_NULL 4
#define TYPEKEY_KEYWORD_NUMBER 5
#define TYPEKEY_KEYWORD_OBJECT 6
#define TYPEKEY_KEYWORD_STRING 7
#define TYPEKEY_KEYWORD_SYMBOL 8
#define TYPEKEY_KEYWORD_THIS 9
#define TYPEKEY_KEYWORD_UNDEFINED 10
#define TYPEKEY_KEYWORD_UNKNOWN 11
#define TYPEKEY_KEYWORD_VOID 12

#define TYPEKEY_LITERAL_STRING 0
#define TYPEKEY_LITERAL_NUMBER 1
#define TYPEKEY_LITERAL_BIGINT 2
#define TYPEKEY_LITERAL_TRUE 3
#define TYPEKEY_LITERAL_FALSE 4
#define TYPEKEY_LITERAL_MINUS_NUMBER 5  /* the spelling is without the - */
#define TYPEKEY_LITERAL_MINUS_BIGINT 6

/* What a child is. Children without a tag are an object's, a function's, a constructor's, and a method's or signature's. */
#define TYPEKEY_CHILD_TAGGED 0
#define TYPEKEY_CHILD_TYPE_PARAMETER 1
#define TYPEKEY_CHILD_PARAMETER 2
#define TYPEKEY_CHILD_MEMBER 3

/* Child number k where these choices say: opt list of type parameters; opt `this`, unless it has none; list of parameters. */
static inline int typekey_signature_child(uint64_t c, int may_have_this, uint64_t k) {
    uint64_t type_parameters = 0, this_type = 0;
    if (c & 1) type_parameters = c >> 1 & 4095, c >>= 12;
    c >>= 1;
    if (may_have_this) {
        if (c & 1) this_type = c >> 1 & 1, c >>= 1;
        c >>= 1;
    }
    if (k < type_parameters) return TYPEKEY_CHILD_TYPE_PARAMETER;
    k -= type_parameters;
    return k >= this_type && k - this_type < (c & 4095) ? TYPEKEY_CHILD_PARAMETER : TYPEKEY_CHILD_TAGGED;
}

/* What child number k is of a node that is no member, by the node's choices. */
static inline int typekey_child(uint64_t choices, uint64_t k) {
    uint64_t tag = choices & 63, c = choices >> 6;
    if (tag == TYPEKEY_OBJECT) return TYPEKEY_CHILD_MEMBER;
    if (tag == TYPEKEY_FUNCTION) return typekey_signature_child(c, 1, k);
    return tag == TYPEKEY_CONSTRUCTOR ? typekey_signature_child(c >> 1, 0, k) : TYPEKEY_CHILD_TAGGED;
}

/* The same of a member. */
static inline int typekey_member_child(uint64_t choices, uint64_t k) {
    uint64_t sort = choices & 7, c = choices >> 3;
    if (sort == TYPEKEY_MEMBER_PROPERTY || sort == TYPEKEY_MEMBER_INDEX) return TYPEKEY_CHILD_TAGGED;
    return typekey_signature_child(sort == TYPEKEY_MEMBER_METHOD ? c >> 3 : c, sort != TYPEKEY_MEMBER_CONSTRUCT, k);
}

#ifdef __cplusplus
}
#endif
#endif
