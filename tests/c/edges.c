/* edges: what C can get wrong of lengths: empty and null slices in every combination, starts past the end, lengths over the limits,
   bits of options that say nothing; how many trials may be open, and how many type rules are entered. */
#include "lent.h"

static unsigned run;
static void expect(const char *what, const uint64_t *want) {
    run++;
    if (memcmp(answer, want, 64) == 0) return;
    printf("%s: answer", what);
    for (int i = 0; i < 8; i++) printf(" %llu", (unsigned long long)answer[i]);
    printf("\n");
    must(0, what);
}
#define EXPECT(what, ...) expect(what, (const uint64_t[8]){__VA_ARGS__})

static const char TEXT[] = "A | B & C";
static const uint64_t TOKENS[] = {
    (uint64_t)TYPEKEY_WORD << 56 | (uint64_t)1 << 32, (uint64_t)TYPEKEY_BAR << 56 | (uint64_t)1 << 32 | 2, (uint64_t)TYPEKEY_WORD << 56 | (uint64_t)1 << 32 | 4,
    (uint64_t)TYPEKEY_AND << 56 | (uint64_t)1 << 32 | 6, (uint64_t)TYPEKEY_WORD << 56 | (uint64_t)1 << 32 | 8, 9};
static uint8_t read_key[64];
static uint64_t key_size;

/* The text with just enough lent, and what the bits of `none` name with nothing. */
static void read_without(int none, uint64_t start, uint64_t options) {
    give(&text, TEXT, none & 1 ? 0 : 9), give(&tokens, TOKENS, none & 2 ? 0 : 6);
    lend(&nodes, none & 4 ? 0 : 20), lend(&names, none & 8 ? 0 : 3), lend(&notes, none & 16 ? 0 : TYPEKEY_READ_NOTE_WORDS), lend(&key, none & 32 ? 0 : key_size ? key_size : 64);
    read_lent(start, options);
}
static void take_without(int none) {
    give(&key, read_key, none & 1 ? 0 : key_size), lend(&nodes, none & 2 ? 0 : 20), lend(&names, none & 4 ? 0 : 3), lend(&letters, none & 8 ? 0 : 3);
    take_back_lent();
}

static void empty_slices(void) {
    for (int twice = 0; twice < 4; twice++) {
        for (int none = 0; none < 64; none++) {
            read_without(none, 0, 0);
            if (none & 2) EXPECT("no tokens", 1);
            else if (none & 1) EXPECT("no text", 2);
            else if (none & 4) EXPECT("no nodes", 8, 1, 0, 2);
            else if (none & (8 | 32)) EXPECT("no names or no key", 11);
            else EXPECT("all", 0, 5, 3, 0, key_size, 5, 0, 1);
        }
        for (int none = 0; none < 16; none++) {
            take_without(none);
            if (none & 1) EXPECT("no key", 10);
            else if (none & 2) EXPECT("no nodes to take back into", 8, 4);
            else if (none & (4 | 8)) EXPECT("no names or no text to take back into", 11);
            else EXPECT("all taken back", 0, 5, 3, 3);
        }
    }
    dirty_answer();
    typekey_read(0, 0, 0, 0, 0, 0, 0, 0, 0, 0, 0, 0, 0, 0, answer);
    watch_answer(1), EXPECT("all null", 1);
    dirty_answer();
    typekey_take_back(0, 0, 0, 0, 0, 0, 0, 0, answer);
    watch_answer(1), EXPECT("all null, to take back", 10);
}

static void starts_and_options(void) {
    const uint64_t past[] = {6, 7, 1000, UINT32_MAX, (uint64_t)1 << 32, (uint64_t)1 << 32 | 1, INT64_MAX, (uint64_t)1 << 63, UINT64_MAX - 1, UINT64_MAX};
    for (unsigned i = 0; i < sizeof past / sizeof *past; i++) read_without(0, past[i], 0), EXPECT("a start past the end", 1);
    read_without(0, 5, 0), EXPECT("a start at the Eof", 3, 5, 0, 9);
    const uint64_t others[] = {0, 2, 1 << 8, (uint64_t)1 << 63, UINT64_MAX - 1};
    const uint64_t tokens_of[] = {typekey_token(TYPEKEY_LEFT_PAREN, 0, 0, 1), typekey_token(TYPEKEY_WORD, 0, 1, 1), typekey_token(TYPEKEY_RIGHT_PAREN, 0, 2, 1), typekey_token(0, 0, 3, 0)};
    for (unsigned i = 0; i < 5; i++)
        for (uint64_t parens = 0; parens < 2; parens++) {
            give(&text, "(A)", 3), give(&tokens, tokens_of, 4), lend(&nodes, 8), lend(&names, 1), lend(&notes, 0), lend(&key, 64);
            read_lent(0, others[i] | parens);
            EXPECT("the bits of options that say nothing", 0, 1 + parens, 1, 0, answer[4], 3, 0, 2);
        }
}

/* Words for diagnostics: a record is five, and words left over are 0. */
static void records(void) {
    const char *const said = "[A?, B, C]";
    const uint64_t listed[] = {typekey_token(TYPEKEY_LEFT_BRACKET, 0, 0, 1), typekey_token(TYPEKEY_WORD, 0, 1, 1), typekey_token(TYPEKEY_QUESTION, 0, 2, 1), typekey_token(TYPEKEY_COMMA, 0, 3, 1),
                               typekey_token(TYPEKEY_WORD, 0, 5, 1), typekey_token(TYPEKEY_COMMA, 0, 6, 1), typekey_token(TYPEKEY_WORD, 0, 8, 1), typekey_token(TYPEKEY_RIGHT_BRACKET, 0, 9, 1), typekey_token(0, 0, 10, 0)};
    const uint64_t want[] = {4, 5, 6, 1, 3, 4, 8, 9, 1, 3};
    for (uint64_t n = 0; n <= TYPEKEY_READ_NOTE_WORDS; n++) {
        give(&text, said, 10), give(&tokens, listed, 9), lend(&nodes, TYPEKEY_READ_NODE_WORDS(9)), lend(&names, 3), lend(&notes, n), lend(&key, 64);
        read_lent(0, 0);
        if (n < 5) EXPECT("no record", 9, 5, 0, 6);
        else if (n < 10) EXPECT("one record", 9, 7, 0, 9);
        else EXPECT("two records", 0, 5, 3, 2, answer[4], 8, 0, 4), must(memcmp(notes.at, want, sizeof want) == 0, "the words of two records");
    }
}

/* Constraints of infer, one in the other, each in brackets: `(infer A extends` so often, A, and the ends. With branches, a
   trial is dropped and its tokens are read again, so each level doubles what is entered; without, each is kept. */
static void trials(void) {
    for (int branches = 0; branches < 2; branches++)
        for (uint64_t n = 0; n <= 31; n++) {
            char said[1024];
            uint64_t listed[320], count = 0, at = 0, entered = branches ? 5 * ((uint64_t)1 << n) - 4 : 2 * n + 1;
#define SAY(kind, spelled) (listed[count++] = typekey_token(kind, 0, at, sizeof spelled - 1), memcpy(said + at, spelled " ", sizeof spelled), at += sizeof spelled)
            for (uint64_t i = 0; i < n; i++) SAY(TYPEKEY_LEFT_PAREN, "("), SAY(TYPEKEY_WORD_INFER, "infer"), SAY(TYPEKEY_WORD, "A"), SAY(TYPEKEY_WORD_EXTENDS, "extends");
            SAY(TYPEKEY_WORD, "A");
            for (uint64_t i = 0; i < n; i++) {
                if (branches) SAY(TYPEKEY_QUESTION, "?"), SAY(TYPEKEY_WORD, "X"), SAY(TYPEKEY_COLON, ":"), SAY(TYPEKEY_WORD, "Y");
                SAY(TYPEKEY_RIGHT_PAREN, ")");
            }
#undef SAY
            listed[count++] = typekey_token(TYPEKEY_EOF, 0, at, 0);
            give(&text, said, at), give(&tokens, listed, count), lend(&nodes, TYPEKEY_READ_NODE_WORDS(count)), lend(&names, count), lend(&notes, 0), lend(&key, TYPEKEY_READ_KEY_BYTES(at, count));
            read_lent(0, 0);
            if (n <= TYPEKEY_MOST_TRIALS) EXPECT("nested trials", 0, branches ? 4 * n + 1 : n + 1, answer[2], 0, answer[4], count - 1, 0, entered);
            else EXPECT("a fifth trial", TYPEKEY_MANY_TRIALS, 19, 0, listed[19] & 0xffffffff);
        }
}

/* Lengths at the limits and over them. */
static void long_inputs(void) {
    static uint8_t bytes[TYPEKEY_MOST_KEY + 1];
    static uint64_t many[TYPEKEY_MOST_TOKENS + 1];
    memset(bytes, 's', sizeof bytes);
    for (uint64_t n = TYPEKEY_MOST_TEXT; n <= TYPEKEY_MOST_TEXT + 1; n++) {
        const uint64_t two[] = {typekey_token(TYPEKEY_STRING, 0, 0, TYPEKEY_MOST_TEXT), typekey_token(0, 0, n, 0)};
        give(&text, bytes, n), give(&tokens, two, 2), lend(&nodes, 4), lend(&names, 1), lend(&notes, 0), lend(&key, TYPEKEY_READ_KEY_BYTES(n, 2));
        read_lent(0, 0);
        if (n == TYPEKEY_MOST_TEXT) EXPECT("the longest text", 0, 1, 1, 0, TYPEKEY_MOST_TEXT + 4, 1, 0, 1);
        else EXPECT("a text that is too long", 1);
    }
    for (uint64_t n = TYPEKEY_MOST_TOKENS; n <= TYPEKEY_MOST_TOKENS + 1; n++) {
        memset(bytes, '[', n);
        for (uint64_t i = 0; i + 1 < n; i++) many[i] = typekey_token(TYPEKEY_LEFT_BRACKET, 0, i, 1);
        many[n - 1] = typekey_token(0, 0, n - 1, 0);
        give(&text, bytes, n), give(&tokens, many, n), lend(&nodes, 400), lend(&names, 1), lend(&notes, 0), lend(&key, 64);
        read_lent(0, 0);
        if (n == TYPEKEY_MOST_TOKENS) EXPECT("the most tokens", 5, 64, 0, 64);
        else EXPECT("too many tokens", 1);
    }
    memset(bytes, 0, sizeof bytes);
    memcpy(bytes, read_key, key_size);
    for (uint64_t n = TYPEKEY_MOST_KEY; n <= TYPEKEY_MOST_KEY + 1; n++) {
        give(&key, bytes, n), lend(&nodes, 20), lend(&names, 3), lend(&letters, 3);
        take_back_lent();
        if (n == TYPEKEY_MOST_KEY) EXPECT("a key with bytes behind it", 10, 8 * key_size);
        else EXPECT("a key that is too long", 10);
    }
    for (uint64_t n = 0; n < key_size; n++) {
        give(&key, read_key, n), lend(&nodes, 20), lend(&names, 3), lend(&letters, 3);
        take_back_lent();
        must(answer[0] == 10, "a key that is cut short");
        run++;
    }
}

/* ---- What differs: 02's rows (W9), as keys ---- */
static const struct { const char *left; unsigned left_len; const char *right; unsigned right_len; unsigned pairs; uint64_t bits[6]; } ROWS[] = {
    {/* A, A */ "\x10\x40\x04\x00\x05\x04", 6, "\x10\x40\x04\x00\x05\x04", 6, 0, {0}},
    {/* A, B */ "\x10\x40\x04\x00\x05\x04", 6, "\x10\x40\x04\x00\x05\x08", 6, 1, {22, 22}},
    {/* A, AB */ "\x10\x40\x04\x00\x05\x04", 6, "\x10\x40\x04\x00\x09\x05\x08", 7, 1, {22, 22}},
    {/* A, A.B */ "\x10\x40\x04\x00\x05\x04", 6, "\x10\x40\x08\x00\x05\x04\x00\x05\x08", 9, 1, {4, 4}},
    {/* A.B.C, X.B.D */ "\x10\x40\x0c\x00\x05\x04\x00\x05\x08\x00\x05\x0c", 12, "\x10\x40\x0c\x00\x05\x60\x00\x05\x08\x00\x05\x10", 12, 2, {22, 22, 70, 70}},
    {/* string, number */ "\x10\x9c", 2, "\x10\x94", 2, 1, {4, 4}},
    {/* A, A[] */ "\x10\x40\x04\x00\x05\x04", 6, "\x11\xc1\x00\x10\x00\x14\x10", 7, 1, {4, 4}},
    {/* A | B, A | C */ "\x11\x40\x08\x10\x01\x00\x01\x41\x02\x00\x20\x00\x28\x40", 14, "\x11\x40\x08\x10\x01\x00\x01\x41\x02\x00\x20\x00\x28\x60", 14, 1, {83, 83}},
    {/* A | B, A | B | C */ "\x11\x40\x08\x10\x01\x00\x01\x41\x02\x00\x20\x00\x28\x40", 14, "\x11\x40\x0c\x10\x01\x00\x01\x41\x02\x00\x20\x00\x28\x40\x40\x04\x00\x05\x0c", 19, 1, {4, 4}},
    {/* A | B, A & B */ "\x11\x40\x08\x10\x01\x00\x01\x41\x02\x00\x20\x00\x28\x40", 14, "\x11\x80\x08\x10\x01\x00\x01\x41\x02\x00\x20\x00\x28\x40", 14, 1, {4, 4}},
    {/* [A, B, C], [A?, X, ...C] */ "\x14\xc0\x0c\x10\x01\x00\x01\x41\x02\x00\x20\x00\x28\x40\x40\x04\x00\x05\x0c", 19, "\x14\xc0\x0d\x40\x40\x04\x00\x05\x04\x08\x00\x80\x00\xac\x15\x04\x00\x40\x00\x50\xc0", 21, 3, {22, 22, 83, 89, 108, 114}},
    {/* { [K in A]: B }, { [L in X]?: B } */ "\x13\x80\x00\x14\xb0\x40\x04\x00\x05\x04\x20\x80\x08\x00\x0a\x10", 16, "\x13\x80\x00\x14\xc0\x40\x04\x00\x05\x60\x60\x80\x08\x00\x0a\x10", 16, 1, {4, 4}},
    {/* { [K in A]: B }, { [L in X]: Y } */ "\x13\x80\x00\x14\xb0\x40\x04\x00\x05\x04\x20\x80\x08\x00\x0a\x10", 16, "\x13\x80\x00\x14\xc0\x40\x04\x00\x05\x60\x20\x80\x08\x00\x0a\xc8", 16, 3, {12, 12, 54, 54, 101, 101}},
    {/* (a: A, b?: B) => C, (x: A, b: Y) => Z */ "\x13\x00\x02\x00\x00\xb0\xa0\x80\x08\x00\x0a\x08\x00\x02\xc5\x82\x00\x20\x00\x28\x40\x40\x04\x00\x05\x0c", 26, "\x13\x00\x02\x00\x00\xbc\x20\x80\x08\x00\x0a\x08\x00\x02\xc4\x82\x00\x20\x00\x2b\x20\x40\x04\x00\x05\x68", 26, 3, {25, 25, 94, 94, 182, 182}},
    {/* <T, U extends A>() => B, <V, U>() => C */ "\x13\x20\x04\x00\x02\xa8\x00\x00\xaa\xc1\x00\x10\x00\x14\x10\x00\x00\x80\x08\x00\x0a\x10", 22, "\x13\x20\x04\x00\x02\xac\x00\x00\xaa\x80\x00\x04\x00\x40\x00\x50\xc0", 17, 3, {23, 23, 49, 49, 149, 106}},
    {/* { a: A; b: B }, { a: X; readonly b: B } */ "\x16\x40\x08\x00\x00\x16\x14\x10\x01\x00\x01\x41\x00\x00\x02\xc4\x82\x00\x20\x00\x28\x40", 22, "\x16\x40\x08\x00\x00\x16\x14\x10\x01\x00\x01\x58\x08\x00\x02\xc4\x82\x00\x20\x00\x28\x40", 22, 2, {72, 72, 97, 97}},
    {/* { a: A }, { "a": A } */ "\x16\x40\x04\x00\x00\x16\x14\x10\x01\x00\x01\x41\x00", 13, "\x16\x40\x04\x10\x00\x32\x26\x12\x24\x10\x01\x00\x01\x41\x00", 15, 1, {22, 22}},
    {/* { [k: string]: A }, { [i: number]: B } */ "\x16\x40\x06\x20\x00\x2d\x61\x38\x20\x02\x00\x02\x82", 13, "\x16\x40\x06\x20\x00\x2d\x21\x28\x20\x02\x00\x02\x84", 13, 3, {27, 27, 51, 51, 79, 79}},
    {/* { [k: A]: B }, { []: B } */ "\x16\x40\x06\x20\x00\x2d\x60\x80\x08\x00\x0a\x08\x10\x01\x00\x01\x42\x00", 18, "\x16\x40\x06\x00\x80\x08\x00\x0a\x10", 9, 1, {22, 22}},
    {/* 'a', "a" */ "\x10\xc0\x00\x19\x3b\x09\x38", 7, "\x10\xc0\x00\x19\x13\x09\x10", 7, 1, {13, 13}},
    {/* 1, -1 */ "\x10\xc8\x00\x09\x88", 5, "\x10\xe8\x00\x09\x88", 5, 1, {4, 4}},
    {/* A | B | C, X | Y | Z */ "\x11\x40\x0c\x10\x01\x00\x01\x41\x02\x00\x20\x00\x28\x40\x40\x04\x00\x05\x0c", 19, "\x11\x40\x0c\x10\x01\x00\x01\x58\x02\x00\x20\x00\x2b\x20\x40\x04\x00\x05\x68", 19, 3, {40, 40, 83, 83, 126, 126}},
};

static void differ_rows(void) {
    for (unsigned i = 0; i < sizeof ROWS / sizeof *ROWS; i++)
        for (int turn = 0; turn < 2; turn++)
            for (uint64_t n = 0; n < 2 * ROWS[i].pairs + 4; n++, run++) {
                uint64_t k = ROWS[i].pairs;
                give(&key, turn ? ROWS[i].right : ROWS[i].left, turn ? ROWS[i].right_len : ROWS[i].left_len);
                give(&other, turn ? ROWS[i].left : ROWS[i].right, turn ? ROWS[i].left_len : ROWS[i].right_len);
                lend(&pairs, n);
                differ_lent();
                if (n < 2 * k) EXPECT("a list that is too short", 29);
                else {
                    EXPECT("what differs", 0, k);
                    for (uint64_t j = 0; j < 2 * k; j++) must(words(&pairs)[j] == ROWS[i].bits[j ^ (uint64_t)turn], "a pair of a row");
                }
            }
}

/* Two keys and a list of so many words. */
static void differ_of(const void *l, uint64_t n, const void *r, uint64_t m, uint64_t list) {
    give(&key, l, n), give(&other, r, m), lend(&pairs, list);
    differ_lent();
}

static void differ_edges(void) {
    const char *const a = "\x10\x40\x04\x00\x05\x04", *const strings = "\x11\xc2\x70";
    static uint8_t long_key[TYPEKEY_MOST_KEY + 1];
    for (uint64_t list = 0; list < 4; list++) {
        differ_of(0, 0, 0, 0, list), EXPECT("no keys", 10, 1);
        differ_of(0, 0, a, 6, list), EXPECT("no left key", 10, 1);
        differ_of(a, 6, 0, 0, list), EXPECT("no right key", 10, 2);
        differ_of(a, 6, a, 6, list), EXPECT("one key twice", 0);
        differ_of(a, 6, "\x20\x40\x04\x00\x05\x04", 6, list), EXPECT("another edition", 10, 2);
        differ_of("\x10\x40\x04\x00\x05\x05", 6, 0, 0, list), EXPECT("a padding bit, and no right key", 10, 1, 47);
        differ_of("\x10\x40\x04\x00\x05\x04\x00", 7, strings, 3, list), EXPECT("a byte too many", 10, 1, 48);
        differ_of(strings, 3, "\x11\xc2\x71", 3, list), EXPECT("a padding bit on the right", 10, 2, 23);
        differ_of("\x11\xc2\x71", 3, "\x11\xc2", 2, list), EXPECT("both damaged", 10, 1, 23);
    }
    memcpy(long_key, read_key, key_size);
    for (uint64_t n = TYPEKEY_MOST_KEY; n <= TYPEKEY_MOST_KEY + 1; n++) {
        uint64_t bit = n == TYPEKEY_MOST_KEY ? 8 * key_size : 0;
        differ_of(long_key, n, read_key, key_size, 2), EXPECT("a long left key", 10, 1, bit);
        differ_of(read_key, key_size, long_key, n, 2), EXPECT("a long right key", 10, 2, bit);
    }
    for (uint64_t n = 0; n < key_size; n++)
        for (int turn = 0; turn < 2; turn++, run++) {
            if (turn) differ_of(read_key, n, read_key, key_size, 8); else differ_of(read_key, key_size, read_key, n, 8);
            must(answer[0] == 10 && answer[1] == (turn ? 1 : 2), "a key that is cut short, on one side");
        }
    /* the same slice on both sides */
    give(&key, read_key, key_size), lend(&pairs, 2), dirty_answer();
    typekey_differ(key.at, key.count, key.at, key.count, words_mut(&pairs), pairs.count, answer);
    watch(&key), watch(&pairs), watch_answer(1), EXPECT("one slice twice", 0);
    zero_from(&pairs, 0, "a list without pairs is not 0");
    dirty_answer();
    typekey_differ(0, 0, 0, 0, 0, 0, answer);
    watch_answer(2), EXPECT("all null, to compare", 10, 1);
}

int main(void) {
    make_slices();
    read_without(0, 0, 0);
    must(answer[0] == 0, "A | B & C");
    key_size = answer[4];
    memcpy(read_key, key.at, key_size);
    empty_slices(), starts_and_options(), records(), trials(), long_inputs(), differ_rows(), differ_edges();
    printf("%u calls at the edges, 0 different\n", run);
    return 0;
}
