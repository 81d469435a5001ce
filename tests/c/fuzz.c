/* fuzz [CASES [SEED [SAMPLE EVERY]]]: calls all three functions on texts and keys by chance, sound and damaged, and holds what they leave
   against each other. Every so many cases it writes one to the file SAMPLE, as a record for compare_sample.py. It stops at the first fault. */
#include "tree.h"
#include <inttypes.h>
#include <time.h>

/* ---- chance ---- */
static uint64_t state;
static uint64_t chance(void) {
    uint64_t z = state += 0x9e3779b97f4a7c15u;
    z = (z ^ z >> 30) * 0xbf58476d1ce4e5b9u;
    z = (z ^ z >> 27) * 0x94d049bb133111ebu;
    return z ^ z >> 31;
}
static uint64_t below(uint64_t n) { return chance() % n; }
static int one_in(uint64_t n) { return below(n) == 0; }

/* ---- token lists ---- */
typedef struct { uint8_t kind, broken; const char *spelled; } Token;   /* broken: a line break stands before it */
enum { MOST = TYPEKEY_MOST_TOKENS + 8 };
static Token list[MOST];
static unsigned count;
static int break_next;

static const char *const SPELLED[108] = {
    [16] = "{", "}", "[", "]", "(", ")", "<", ">", "<<", "<=", "<<=", "|", "&", "?", ":", ",", ";", ".", "...", "=>", "=", "!", "-", "+", "*",
    [64] = "any", "bigint", "boolean", "never", "number", "object", "string", "symbol", "undefined", "unknown",
    "abstract", "as", "asserts", "infer", "is", "keyof", "out", "readonly", "unique",
    [96] = "extends", "false", "import", "in", "new", "null", "this", "true", "typeof", "void", "const"};

static void say(int kind, const char *s) { if (count < MOST - 1) list[count++] = (Token){(uint8_t)kind, (uint8_t)break_next, s}; break_next = 0; }
static void fix(int kind) { say(kind, SPELLED[kind]); }
static void any_of(int kind, const char *const *all, int n) { say(kind, all[below(n)]); }
#define ANY(kind, ...) do { static const char *const all[] = {__VA_ARGS__}; any_of(kind, all, sizeof all / sizeof *all); } while (0)
static void word(void) { ANY(1, "A", "B", "T", "U", "x", "abc", "Name", "_", "$", "\xc3\xa9", "get", "set", "longer_word_than_the_others"); }
static void binding(void) { if (one_in(5)) fix(64 + (int)below(19)); else word(); }
static void any_name(void) { if (one_in(5)) fix(96 + (int)below(11)); else binding(); }

/* Any token. */
static void piece(void) {
    switch (below(14)) {
    case 0: ANY(2, "1", "0x1F", "1e9"); break;
    case 1: ANY(3, "1n", "22n"); break;
    case 2: ANY(4, "'s'", "\"\"", "'\\''"); break;
    case 3: ANY(5, "`t`"); break;
    case 4: ANY(6 + (int)below(3), "`h${", "}m${", "}t`"); break;
    case 5: ANY(41, "@", "/", ">>", "%"); break;
    case 6: ANY(83, "public", "static"); break;
    case 7: ANY(107, "class", "function"); break;
    case 8: case 9: fix(16 + (int)below(25)); break;
    case 10: fix(96 + (int)below(11)); break;
    default: binding();
    }
}

static void type(int d);
static void arguments(int d) {
    fix(22);
    for (int n = (int)below(4), i = 0; i < n; i++) { if (i) fix(31); type(d); }
    if (one_in(12)) fix(31);
    fix(23);
}
static void dotted(void) { for (int n = (int)below(3); n; n--) fix(33), any_name(); }
static void parameters(int d) {
    int n = (int)below(4), i = 0;
    fix(20);
    if (one_in(4)) { fix(102); if (one_in(2)) fix(30), type(d); if (n) fix(31); }
    for (; i < n; i++) {
        if (i) fix(31);
        if (i == n - 1 && one_in(4)) fix(34);
        binding();
        if (one_in(4)) fix(29);
        if (!one_in(3)) fix(30), type(d);
    }
    fix(21);
}
static void type_parameters(int d) {
    fix(22);
    for (int n = (int)below(3), i = 0; i < n; i++) { if (i) fix(31); binding(); if (one_in(3)) fix(96), type(d); if (one_in(3)) fix(36), type(d); }
    fix(23);
}
static void function(int d) {
    if (one_in(4)) { if (one_in(2)) fix(74); fix(100); }
    if (one_in(3)) type_parameters(d);
    parameters(d);
    fix(35);
    if (one_in(6)) any_name(), fix(78);
    type(d);
}
static void tuple(int d) {
    fix(18);
    for (int n = (int)below(5), i = 0; i < n; i++) {
        if (i) fix(31);
        if (one_in(4)) fix(34);
        if (one_in(3)) { any_name(); if (one_in(3)) fix(29); fix(30); if (one_in(6)) fix(34); }
        type(d);
        if (one_in(5)) fix(29);
    }
    fix(19);
}
static void sign(int what) { switch (below(4)) { case 0: fix(39); fix(what); break; case 1: fix(38); fix(what); break; case 2: fix(what); break; default: break; } }
static void mapped(int d) {
    fix(16), sign(81), fix(18), binding(), fix(99), type(d);
    if (one_in(3)) fix(75), type(d);
    fix(19), sign(29);
    if (!one_in(4)) fix(30), type(d);
    if (one_in(3)) fix(32);
    fix(17);
}
static void member_key(void) { if (one_in(6)) ANY(4, "'k'", "\"\""); else if (one_in(6)) ANY(2, "1", "0x1F"); else if (one_in(6)) ANY(83, "static", "public"); else any_name(); }
static void signature(int d) {
    if (one_in(3)) type_parameters(d);
    parameters(d);
    if (one_in(4)) return;
    fix(30);
    if (one_in(6)) any_name(), fix(78);
    type(d);
}
static void index_signature(int d) {
    fix(18);
    for (int n = one_in(4) ? (int)below(4) : 1, i = 0; i < n; i++) {
        if (i) fix(31);
        binding();
        if (one_in(8)) fix(29);
        fix(30);
        if (one_in(4)) type(d); else if (one_in(3)) ANY(4, "'s'"); else fix(64 + (int)below(10));
        if (i == n - 1 && one_in(8)) fix(31);
    }
    fix(19), fix(30), type(d);
}
static void member(int d) {
    switch (below(8)) {
    case 0: signature(d); break;
    case 1: fix(100), signature(d); break;
    case 2: if (one_in(3)) fix(81); index_signature(d); break;
    case 3: case 4: if (one_in(5)) fix(81); member_key(); if (one_in(5)) fix(29); signature(d); break;
    default: if (one_in(4)) fix(81); member_key(); if (one_in(4)) fix(29); if (!one_in(4)) fix(30), type(d);
    }
}
static void object(int d) {
    fix(16);
    for (int n = (int)below(4); n; n--) { member(d); switch (below(n > 1 ? 3 : 4)) { case 0: fix(32); break; case 1: fix(31); break; case 2: break_next = 1; break; default: break; } }
    fix(17);
}
static void primary(int d) {
    int n;
    switch (below(d > 0 ? 28 : 9)) {
    case 0: case 1: case 2: word(); dotted(); break;
    case 3: case 4: fix(64 + (int)below(10)); break;
    case 5: fix((int[]){101, 105, 102}[below(3)]); break;
    case 6: if (one_in(2)) { if (one_in(2)) fix(38); if (one_in(2)) ANY(2, "1", "3.14"); else ANY(3, "1n"); } else ANY(4, "'s'", "\"long string with spaces\""); break;
    case 7: fix(one_in(2) ? 103 : 97); break;
    case 8: ANY(5, "`t`", "``"); break;
    case 9: case 10: word(); dotted(); arguments(d - 1); break;
    case 11: case 12: fix(20), type(d - 1), fix(21); break;
    case 13: case 14: tuple(d - 1); break;
    case 15: case 16: mapped(d - 1); break;
    case 17: fix(104); any_name(); dotted(); if (one_in(3)) arguments(d - 1); break;
    case 18: if (one_in(3)) fix(104); fix(98), fix(20); ANY(4, "'m'", "\"mod\""); fix(21); dotted(); if (one_in(3)) arguments(d - 1); break;
    case 19: case 20:
        say(6, "`h${");
        for (n = (int)below(3); n; n--) type(d - 1), say(7, "}m${");
        type(d - 1), say(8, "}t`");
        break;
    case 21: fix(76); if (one_in(3)) fix(102); else any_name(); if (one_in(2)) fix(78), type(d - 1); break;
    case 22: fix(102), fix(78), type(d - 1); break;
    case 23: case 24: case 25: case 26: object(d - 1); break;
    default: word(), fix(24), binding(), fix(23), parameters(d - 1), fix(35), type(d - 1), fix(23);
    }
}
static void operator(int d) {
    while (one_in(8)) fix((int[]){79, 82, 81}[below(3)]);
    if (one_in(12)) { fix(77), binding(); if (one_in(2)) fix(96), type(d - 1); return; }
    primary(d);
    while (one_in(4)) {
        if (one_in(5)) fix(18), type(d - 1), fix(19);
        else if (one_in(2)) fix(18), fix(19);
        else fix(one_in(2) ? 37 : 29);
    }
}
static void joined(int mark, int d) {
    if (one_in(12)) fix(mark);
    if (mark == 27) joined(28, d); else operator(d);
    while (one_in(6)) { fix(mark); if (mark == 27) joined(28, d); else operator(d); }
}
static void type(int d) {
    if (d < 0 || count > 400) { binding(); return; }
    if (one_in(7)) function(d - 1);
    else {
        joined(27, d);
        if (one_in(8)) fix(96), type(d - 1), fix(29), type(d - 1), fix(30), type(d - 1);
    }
}

/* Shapes at the limits. */
static void large(void) {
    int n = 60 + (int)below(8), i;
    switch (below(12)) {
    case 0: for (i = 0; i < n; i++) fix(20); word(); for (i = 0; i < n; i++) fix(21); break;
    case 1: for (i = 0; i < n; i++) word(), fix(22); word(); for (i = 0; i < n; i++) fix(23); break;
    case 2: n = 250 + (int)below(10); for (i = 0; i < n; i++) fix(79); word(); break;
    case 3: n = 250 + (int)below(10); word(); for (i = 0; i < n; i++) fix(37); break;
    case 4: n = 4090 + (int)below(10); for (i = 0; i < n; i++) fix(27), word(); break;
    case 5: n = 4090 + (int)below(10); word(); for (i = 0; i < n; i++) fix(33), any_name(); break;
    case 6: n = 28 + (int)below(8); fix(18); for (i = 0; i < n; i++) { if (i) fix(31); word(), fix(22), fix(23); } fix(19); break;
    case 7: for (i = 0; i < n; i++) fix(16), word(), fix(30); word(); for (i = 0; i < n; i++) fix(17); break;
    case 8: for (i = 0; i < n; i++) fix(16), word(), fix(20), fix(21), fix(30); word(); for (i = 0; i < n; i++) fix(17); break;
    case 9: n = 4090 + (int)below(10); fix(16); for (i = 0; i < n; i++) word(), fix(32); fix(17); break;
    case 10: /* trials in brackets, kept or dropped */
        n = 2 + (int)below(5);
        for (i = 0; i < n; i++) fix(20), fix(77), word(), fix(96);
        type(1);
        for (i = 0; i < n; i++) { if (!one_in(3)) fix(29), type(0), fix(30), type(0); fix(21); }
        break;
    default: n = TYPEKEY_MOST_TOKENS - 4 + (int)below(6); word(); for (i = 1; i < n; i++) fix(i % 2 ? 27 : 64 + i % 10);
    }
}

static void damage(void) {
    for (int n = 1 + (int)below(3); n; n--) {
        unsigned i = (unsigned)below(count ? count : 1), j = (unsigned)below(count ? count : 1), before = count;
        switch (below(4)) {
        case 0: if (count) memmove(list + i, list + i + 1, (--count - i) * sizeof *list); break;
        case 1: if (count) { Token t = list[i]; list[i] = list[j]; list[j] = t; } break;
        default:
            piece();
            if (count > before) {
                Token t = list[--count];
                if (one_in(2) && count) list[i] = t;
                else if (count < MOST - 1) memmove(list + i + 1, list + i, (count++ - i) * sizeof *list), list[i] = t;
            }
        }
    }
}

/* The list laid out as text and token words. */
static uint8_t laid[TYPEKEY_MOST_TEXT + 1];
static uint64_t laid_words[MOST], laid_len, laid_count;
static void lay(void) {
    int tight = one_in(3) || count > 4000;
    laid_len = laid_count = 0;
    for (unsigned i = 0; i < count; i++) {
        int line = list[i].broken || one_in(25);
        size_t n = strlen(list[i].spelled);
        if (laid_len + n + 4 > TYPEKEY_MOST_TEXT) break;
        if (line) laid[laid_len++] = '\n';
        else if (!tight) for (int k = (int)below(3); k; k--) laid[laid_len++] = one_in(30) ? (uint8_t)chance() : ' ';
        laid_words[laid_count++] = typekey_token(list[i].kind, line, laid_len, n);
        memcpy(laid + laid_len, list[i].spelled, n);
        laid_len += n;
    }
    if (one_in(4)) laid[laid_len++] = ' ';
    laid_words[laid_count++] = typekey_token(0, one_in(9), laid_len - (laid_len && one_in(9) && laid[laid_len - 1] == ' '), 0);
}

/* ---- keys seen ---- */
enum { POOL = 64, LONG = 600 };
static uint8_t pool[POOL][LONG];
static uint64_t pool_len[POOL], pooled;

/* ---- figures, and the sample ---- */
static uint64_t reads_by[32], backs_by[32], differ_by[32], pairs_found;
static FILE *sample;
static uint64_t every = 0, written;
static int four_out(uint64_t v) { for (int i = 0; i < 4; i++) fputc((int)(v >> 8 * i & 255), sample); return 0; }
static void record(int op, uint64_t start, const Slice *last) {
    uint64_t back = op == 4;
    uint64_t head[8] = {start, back ? 0 : text.count, back ? 0 : tokens.count, nodes.count, names.count, back ? 0 : notes.count, key.count, back ? letters.count : text.count};
    fputc(op, sample);
    for (int i = 0; i < 8; i++) four_out(head[i]);
    for (int i = 0; i < 8; i++) four_out(answer[i]);
    four_out(sum(&nodes)), four_out(sum(&names)), four_out(sum(back ? last : &notes)), four_out(back ? 0 : sum(last));
    if (back) fwrite(key.at, 1, key.count, sample);
    else fwrite(text.at, 1, text.count, sample), fwrite(tokens.at, 8, tokens.count, sample);
    written++;
}

/* Two keys and a list: their lengths where those of key and letters stand, and the words of the list where those of the nodes do. */
static void record_pair(void) {
    uint64_t head[8] = {0, 0, 0, pairs.count, 0, 0, key.count, other.count};
    fputc(8, sample);
    for (int i = 0; i < 8; i++) four_out(head[i]);
    for (int i = 0; i < 8; i++) four_out(answer[i]);
    four_out(sum(&pairs)), four_out(0), four_out(0), four_out(0);
    fwrite(key.at, 1, key.count, sample), fwrite(other.at, 1, other.count, sample);
    written++;
}

/* ---- cases ---- */
static uint8_t kept_key[TYPEKEY_MOST_KEY + 65540], made[TYPEKEY_MOST_KEY + 65540];
static uint64_t kept_nodes[4 * MOST], kept_names[MOST], kept_notes[212], kept[8];

static int same_answer(const uint64_t *a) { return memcmp(a, answer, 64) == 0; }
static int same(const Slice *s, const void *a, uint64_t used) { return used == 0 || memcmp(s->at, a, used * s->width) == 0; }

/* The key of the reading that is kept, taken back: with just enough it comes back, with one too few it does not. */
static void comes_back(void) {
    uint64_t n = kept[1], m = kept[2], spelled = 0, at = 0;
    for (uint64_t i = 0; i < m; i++) spelled += typekey_name_length(kept_names[i]);
    give(&key, kept_key, kept[4]), lend(&nodes, 4 * n + below(4)), lend(&names, m), lend(&letters, spelled);
    take_back_lent();
    must(answer[0] == 0 && answer[1] == n && answer[2] == m && answer[3] == spelled, "a key does not come back with just enough");
    for (uint64_t i = 0; i < n; i++)
        must(words(&nodes)[4 * i] == kept_nodes[4 * i] && words(&nodes)[4 * i + 1] == 0 && words(&nodes)[4 * i + 2] == kept_nodes[4 * i + 2] && words(&nodes)[4 * i + 3] == kept_nodes[4 * i + 3],
             "a node comes back as another");
    for (uint64_t i = 0; i < m; i++) {
        uint64_t w = kept_names[i], length = typekey_name_length(w);
        must(words(&names)[i] == (at << 32 | length) && memcmp(letters.at + at, text.at + typekey_name_start(w), length) == 0, "a spelling comes back as another");
        at += length;
    }
    must(same(&key, kept_key, kept[4]), "taking back writes to the key");
    if (!one_in(4)) return;
    uint64_t few = below(3), want = few == 0 ? 8 : 11;
    if (m == 0 && few) return;
    lend(&nodes, 4 * n - (few == 0)), lend(&names, m - (few == 1)), lend(&letters, spelled - (few == 2));
    take_back_lent();
    must(answer[0] == want, "a key comes back into too little");
}

/* Two keys, whatever they are: a list of every length about the number of pairs, the sides exchanged, and refusals beside those of taking back. */
static void compare(const uint8_t *l, uint64_t n, const uint8_t *r, uint64_t m, int sampled) {
    static uint64_t found[2 * 2048], turned[8];
    uint64_t enough = TYPEKEY_DIFFER_LIST_WORDS(n, m);
    give(&key, l, n), give(&other, r, m), lend(&pairs, enough + below(3));
    differ_lent();
    must(same(&key, l, n) && same(&other, r, m), "comparing writes to a key");
    must(answer[0] != 29, "pairs find no room in what the header says to lend");
    differ_by[answer[0]]++;
    if (sampled) record_pair();
    memcpy(turned, answer, 64);
    if (answer[0]) {
        const Slice *bad = answer[1] == 1 ? &key : &other;
        uint64_t size = bad->count;
        if (answer[1] == 1) give(&key, l, n); else give(&key, r, m);
        lend(&nodes, TYPEKEY_BACK_NODE_WORDS(size)), lend(&names, TYPEKEY_BACK_NAME_WORDS(size)), lend(&letters, TYPEKEY_BACK_TEXT_BYTES(size));
        take_back_lent();
        must(answer[0] == turned[0] && answer[1] == turned[2], "a key is refused otherwise than in taking back");
        give(&key, r, m), give(&other, l, n), lend(&pairs, below(9));
        differ_lent();
        must(answer[0] && (answer[1] != turned[1] ? answer[0] == turned[0] && answer[2] == turned[2] : 1), "a bad key is not refused on the other side");
        return;
    }
    uint64_t k = answer[1];
    pairs_found += k;
    must(k <= sizeof found / 16, "a test finds too many pairs");
    if (k) memcpy(found, pairs.at, 16 * k);
    give(&key, r, m), give(&other, l, n), lend(&pairs, 2 * k);
    differ_lent();
    must(same_answer(turned), "the sides exchanged give another number of pairs");
    for (uint64_t i = 0; i < k; i++) must(words(&pairs)[2 * i] == found[2 * i + 1] && words(&pairs)[2 * i + 1] == found[2 * i], "the sides exchanged give other pairs");
    give(&key, l, n), give(&other, r, m);
    for (uint64_t few = k < 6 ? 0 : 2 * k - 3; few < 2 * k + 3; few++) {
        lend(&pairs, few);
        differ_lent();
        must(few < 2 * k ? answer[0] == 29 : same_answer(turned) && (k == 0 || same(&pairs, found, 2 * k)), "a list of another length");
    }
    if (sampled && k) lend(&pairs, below(2 * k)), differ_lent(), record_pair(), differ_by[29]++;
}

/* The text once more with a few words or keywords as others, its key beside the one that is kept. */
static void compare_alike(int sampled) {
    static uint8_t before[LONG];
    uint64_t n = kept[4], changed = 0;
    memcpy(before, kept_key, n);
    for (int times = (int)below(4); times && laid_count > 1; times--) {
        uint64_t i = below(laid_count - 1), w = laid_words[i], kind = w >> 56, at = w & 0xffffffff, length = w >> 32 & 0x1ffff;
        if (kind == 1) laid[at + below(length)] = (uint8_t)("ABCxyz"[below(6)]), changed++;
        else if (kind == 27 || kind == 28) laid_words[i] ^= (uint64_t)(27 ^ 28) << 56, laid[at] = kind == 27 ? '&' : '|', changed++;
        else if (kind == 70) laid_words[i] = (w & 0xffffffffffffff) | (uint64_t)68 << 56, memcpy(laid + at, "number", 6), changed++;
        else if (kind == 29 && one_in(2)) laid_words[i] = (w & 0xffffffffffffff) | (uint64_t)37 << 56, laid[at] = '!', changed++;
    }
    give(&text, laid, laid_len), give(&tokens, laid_words, laid_count);
    lend(&nodes, TYPEKEY_READ_NODE_WORDS(tokens.count)), lend(&names, TYPEKEY_READ_NAME_WORDS(tokens.count)), lend(&notes, TYPEKEY_READ_NOTE_WORDS);
    lend(&key, TYPEKEY_READ_KEY_BYTES(text.count, tokens.count));
    read_lent(0, 0);
    if (answer[0] || answer[4] > LONG) return;
    uint64_t m = answer[4];
    memcpy(made, key.at, m);
    compare(before, n, made, m, sampled);
}

static void lend_for_read(int by_need) {
    uint64_t a = TYPEKEY_READ_NODE_WORDS(tokens.count), b = TYPEKEY_READ_NAME_WORDS(tokens.count), c = TYPEKEY_READ_NOTE_WORDS, d = TYPEKEY_READ_KEY_BYTES(text.count, tokens.count);
    if (!by_need) {
        int all = one_in(4);
        if (all || one_in(2)) a = one_in(9) ? 0 : below(a + 2);
        if (all || one_in(3)) b = one_in(9) ? 0 : below(b + 2);
        if (all || one_in(3)) c = one_in(9) ? 0 : below(213);
        if (all || one_in(3)) d = one_in(9) ? 0 : below(d + 2);
    }
    lend(&nodes, a), lend(&names, b), lend(&notes, c), lend(&key, d);
}

static void a_read(int sampled) {
    count = 0;
    if (one_in(1000)) large();
    else if (one_in(12)) for (int n = (int)below(12); n; n--) piece();
    else type((int)below(4));
    if (one_in(3)) damage();
    lay();
    uint64_t start = one_in(10) ? below(laid_count + 2) : 0, options = chance();
    if (one_in(10)) { /* the words and lengths themselves */
        uint64_t i = below(laid_count);
        switch (below(9)) {
        case 0: laid_words[i] ^= (uint64_t)1 << below(64); break;
        case 1: laid_words[i] = chance(); break;
        case 2: laid_count = i; break;
        case 3: laid_len = below(laid_len + 1); break;
        case 4: if (laid_len) laid[below(laid_len)] ^= (uint8_t)(1 << below(8)); break;
        case 5: start = one_in(2) ? chance() : UINT64_MAX - below(3); break;
        case 6: laid_words[i] = (laid_words[i] & 0xffffffffffffff) | chance() << 56; break;
        case 7: laid_count = 0; break;
        default: laid_words[i] = laid_words[below(laid_count)];
        }
    }
    give(&text, laid, laid_len), give(&tokens, laid_words, laid_count);
    int by_need = !one_in(4);
    lend_for_read(by_need);
    read_lent(start, options);
    must(same(&text, laid, laid_len) && same(&tokens, laid_words, laid_count), "reading writes to the text or the tokens");
    must(!by_need || (answer[0] != 8 && answer[0] != 11), "a read finds no room in what the header says to lend");
    reads_by[answer[0]]++;
    if (sampled && start <= UINT32_MAX) record((int)(options & 1), start, &key);
    memcpy(kept, answer, 64);
    if (kept[0] == 0) {
        memcpy(kept_nodes, nodes.at, 32 * kept[1]), memcpy(kept_key, key.at, kept[4]);
        if (kept[2]) memcpy(kept_names, names.at, 8 * kept[2]);
        if (kept[3]) memcpy(kept_notes, notes.at, 40 * kept[3]);
        must(key_of_tree(kept_nodes, kept[1], kept_names, kept[2], text.at, text.count, 1, made) == kept[4] && memcmp(made, kept_key, kept[4]) == 0, "a reading's key is not its tree's");
    }
    /* again, with the bits of options that say nothing as others */
    lend(&nodes, nodes.count), lend(&names, names.count), lend(&notes, notes.count), lend(&key, key.count);
    read_lent(start, (chance() & ~(uint64_t)1) | (options & 1));
    must(same_answer(kept), "two readings of one text differ");
    if (kept[0]) return;
    must(same(&nodes, kept_nodes, 4 * kept[1]) && same(&names, kept_names, kept[2]) && same(&notes, kept_notes, 5 * kept[3]) && same(&key, kept_key, kept[4]), "two readings of one text leave different things");
    if (one_in(8)) {
        int few = (int)below(2);
        if (few == 0 || kept[2]) {
            lend(&nodes, nodes.count), lend(&notes, notes.count), lend(&names, kept[2] - (few == 1)), lend(&key, kept[4] - (few == 0));
            read_lent(start, options);
            must(answer[0] == 11, "a reading finds too little to be enough");
        }
    }
    comes_back();
    if (kept[4] <= LONG) { uint64_t p = pooled++ % POOL; memcpy(pool[p], kept_key, kept[4]), pool_len[p] = kept[4]; }
    if (kept[4] <= LONG && start == 0 && one_in(4)) compare_alike(sampled);
}

/* Arrays of arrays, about as high as a node may be. */
static uint64_t high_key(uint8_t *k) {
    Tree t = {.out = k};
    bits_out(&t, 1, 4);
    for (uint64_t high = 250 + below(10); high; high--) bits_out(&t, TYPEKEY_ARRAY, 6);
    bits_out(&t, TYPEKEY_KEYWORD, 6), bits_out(&t, below(13), 4);
    return (t.bits + 7) / 8;
}

static void a_key(int sampled) {
    static uint8_t k[2 * LONG + 8];
    uint64_t p = below(pooled < POOL ? pooled + 1 : POOL), n = pool_len[p];
    memcpy(k, pool[p], n);
    if (one_in(12)) for (n = below(40), p = 0; p < n; p++) k[p] = p ? (uint8_t)chance() : (uint8_t)(0x10 | below(8));
    else if (one_in(150)) n = high_key(k);
    else if (!one_in(4)) for (int times = 1 + (int)below(2); times; times--) switch (below(6)) {
        case 0: case 1: if (n) k[below(n)] ^= (uint8_t)(1 << below(8)); break;
        case 2: if (n) k[below(n)] = (uint8_t)chance(); break;
        case 3: n = below(n + 1); break;
        case 4: if (n < sizeof k) k[n++] = one_in(2) ? 0 : (uint8_t)chance(); break;
        default: { uint64_t q = below(POOL), i = below(n + 1), j = below(pool_len[q] + 1), l = pool_len[q] - j; if (i + l < sizeof k) memcpy(k + i, pool[q] + j, l), n = i + l; }
    }
    give(&key, k, n);
    int by_need = !one_in(3);
    uint64_t a = TYPEKEY_BACK_NODE_WORDS(n), b = TYPEKEY_BACK_NAME_WORDS(n), c = TYPEKEY_BACK_TEXT_BYTES(n);
    lend(&nodes, by_need ? a : below(a)), lend(&names, by_need ? b : below(b)), lend(&letters, by_need ? c : below(c + 1));
    take_back_lent();
    must(same(&key, k, n), "taking back writes to the key");
    must(!by_need || (answer[0] != 8 && answer[0] != 11), "a key finds no room in what the header says to lend");
    backs_by[answer[0]]++;
    if (sampled) record(4, 0, &letters);
    if (answer[0]) return;
    must(key_of_tree(words(&nodes), answer[1], words(&names), answer[2], letters.at, answer[3], 0, made) == n && memcmp(made, k, n) == 0, "a key that is taken back is not its tree's");
}

/* Two keys that were seen, or one twice; the left, the right or both damaged. */
static uint64_t some_key(uint8_t *k, uint64_t p, int damaged) {
    uint64_t n = pool_len[p];
    memcpy(k, pool[p], n);
    for (int times = damaged ? 1 + (int)below(2) : 0; times; times--) switch (below(5)) {
        case 0: case 1: if (n) k[below(n)] ^= (uint8_t)(1 << below(8)); break;
        case 2: if (n) k[below(n)] = (uint8_t)chance(); break;
        case 3: n = below(n + 1); break;
        default: k[n++] = one_in(2) ? 0 : (uint8_t)chance();
    }
    return n;
}

static void two_keys(int sampled) {
    static uint8_t l[LONG + 8], r[LONG + 8];
    uint64_t p = below(pooled < POOL ? pooled : POOL), q = one_in(2) ? p : below(pooled < POOL ? pooled : POOL);
    int damaged = (int)below(5);
    uint64_t n = one_in(100) ? high_key(l) : some_key(l, p, damaged & 1), m = one_in(100) ? high_key(r) : some_key(r, q, damaged >> 1 & 1);
    if (one_in(100)) n = high_key(l), m = high_key(r);
    compare(l, n, r, m, sampled);
}

static void told(const char *what, const uint64_t *by) {
    printf("%s:", what);
    for (int i = 0; i < 32; i++) if (by[i]) printf("%s %" PRIu64 " answer %d", i ? "," : "", by[i], i);
    printf("\n");
}

int main(int argc, char **argv) {
    uint64_t cases = argc > 1 ? strtoull(argv[1], 0, 10) : 200000, seed = argc > 2 ? strtoull(argv[2], 0, 10) : 1;
    if (argc > 4) {
        sample = fopen(argv[3], "wb");
        every = strtoull(argv[4], 0, 10);
        if (!sample || !every) return fprintf(stderr, "fuzz: cannot write %s\n", argv[3]), 2;
    }
    make_slices();
    state = seed;
    clock_t began = clock();
    for (uint64_t i = 0; i < cases; i++) {
        int sampled = sample && i % every == 0;
        uint64_t which = below(10);
        if (pooled == 0 || which < 6) a_read(sampled); else if (which < 8) a_key(sampled); else two_keys(sampled);
    }
    printf("%" PRIu64 " cases, seed %" PRIu64 ", 0 faults, %.1f s\n", cases, seed, (double)(clock() - began) / CLOCKS_PER_SEC);
    told("reads", reads_by), told("taken back", backs_by), told("compared", differ_by);
    printf("%" PRIu64 " pairs\n", pairs_found);
    if (sample) { fclose(sample); printf("%" PRIu64 " in the sample\n", written); }
    return 0;
}
