/* members: object types by example, shown by what typekey.h says of nodes and members: each sort of member, diagnostics 8 to 13, 3 and 4, and
   what is refused, with a row for each form that is not read. The types in a member are shown as they stand in the text. */
#include "lent.h"

/* Words, marks, digits and strings into token words. For these texts alone. */
static uint64_t cut(const char *s, uint64_t *out) {
    static const struct { const char *spelled; int kind; } FIXED[] = {
        {"{", 16}, {"}", 17}, {"[", 18}, {"]", 19}, {"(", 20}, {")", 21}, {"<", 22}, {">", 23}, {"<=", 25}, {"?", 29}, {":", 30}, {",", 31}, {";", 32},
        {"...", 34}, {"=", 36}, {"bigint", 65}, {"boolean", 66}, {"string", 70}, {"infer", 77}, {"is", 78}, {"readonly", 81}, {"static", 83}, {"extends", 96}, {"import", 98}, {"in", 99}, {"new", 100}, {"this", 102}};
    uint64_t n = 0, i = 0;
    int line = 0;
    while (s[i]) {
        uint64_t first = i++, kind = TYPEKEY_WORD;
        if (s[first] == ' ' || s[first] == '\n') { line |= s[first] == '\n'; continue; }
        if (s[first] == '\'' || s[first] == '"') { for (kind = TYPEKEY_STRING; s[i++] != s[first];); }
        else if (strncmp(s + first, "...", 3) == 0) i += 2;
        else if (strncmp(s + first, "<=", 2) == 0) i++;
        else if (s[first] >= '0' && s[first] <= '9') kind = TYPEKEY_NUMBER;
        else if (s[first] >= 'A' && s[first] <= 'z' && s[first] != '[' && s[first] != ']') while ((s[i] >= 'A' && s[i] <= 'Z') || (s[i] >= 'a' && s[i] <= 'z')) i++;
        for (unsigned k = 0; k < sizeof FIXED / sizeof *FIXED; k++)
            if (strlen(FIXED[k].spelled) == i - first && strncmp(FIXED[k].spelled, s + first, i - first) == 0) kind = FIXED[k].kind;
        out[n++] = typekey_token(kind, line, first, i - first);
        line = 0;
    }
    out[n++] = typekey_token(TYPEKEY_EOF, line, i, 0);
    return n;
}

/* ---- What was read, in words ---- */
static char said[512];
static uint64_t used;
static void say(const char *s, uint64_t length) {
    must(used + length < sizeof said, "a test says too much");
    memcpy(said + used, s, length);
    said[used += length] = 0;
}
static void say_word(const char *s) { if (used) say(" ", 1); say(s, strlen(s)); }
static void say_name(uint64_t i) { say((const char *)text.at + typekey_name_start(words(&names)[i]), typekey_name_length(words(&names)[i])); }

static void say_member(uint64_t i) {
    static const char *const SORTS[] = {"property", "method", "call", "construct", "index"}, *const KEYED[] = {"", "string", "number"};
    const uint64_t *n = words(&nodes);
    uint64_t sort = typekey_sort(n, i), c = typekey_choices(n, i) >> 3, kids = 0;
    say_word(SORTS[sort]);
    if (sort == TYPEKEY_MEMBER_PROPERTY || sort == TYPEKEY_MEMBER_INDEX) { if (c & 1) say_word("readonly"); c >>= 1; }
    if (sort == TYPEKEY_MEMBER_PROPERTY || sort == TYPEKEY_MEMBER_METHOD) {
        if (c & 3) say_word(KEYED[c & 3]);
        say_word(""), say_name(typekey_first_name(n, i));
        if (c >> 2 & 1) say("?", 1);
    }
    if (sort == TYPEKEY_MEMBER_INDEX && (c & 1)) say_word(""), say_name(typekey_first_name(n, i));
    if (!typekey_has_children(n, i)) return;
    for (uint64_t k = typekey_first_child(n, i); kids == 0 || k; k = typekey_next_sibling(n, k), kids++) {
        static const char *const WHAT[] = {"", "type parameter", "parameter"};
        int what = typekey_member_child(typekey_choices(n, i), kids);
        say_word(*WHAT[what] ? WHAT[what] : "type"), say_word("");
        say((const char *)text.at + typekey_first_byte(n, k), typekey_end_byte(n, k) - typekey_first_byte(n, k));
    }
}

/* The members of the object type that was read, then its diagnostics; or the refusal. */
static void show(void) {
    char number[64];
    said[used = 0] = 0;
    if (answer[0]) {
        snprintf(number, sizeof number, "%d at %d, half %d, byte %d", (int)answer[0], (int)answer[1], (int)answer[2], (int)answer[3]);
        say_word(number);
        return;
    }
    const uint64_t *n = words(&nodes);
    uint64_t root = answer[1] - 1, count = typekey_choices(n, root) >> 6, k = typekey_first_child(n, root);
    must(typekey_tag(n, root) == TYPEKEY_OBJECT, "no object type");
    must((count > 0) == typekey_has_children(n, root), "the count of members");
    for (uint64_t i = 0; i < count; i++, k = typekey_next_sibling(n, k)) {
        must(typekey_child(typekey_choices(n, root), i) == TYPEKEY_CHILD_MEMBER, "a child that is no member");
        if (i) say(";", 1);
        say_member(k);
    }
    for (uint64_t i = 0; i < answer[3]; i++) {
        const uint64_t *r = words(&notes);
        snprintf(number, sizeof number, "| %d on %d to %d", (int)typekey_note_number(r, i), (int)typekey_note_first(r, i), (int)typekey_note_end(r, i));
        say_word(number);
        snprintf(number, sizeof number, "and %d to %d", (int)typekey_note_other_first(r, i), (int)typekey_note_other_end(r, i));
        if (typekey_note_other_end(r, i)) say_word(number);
    }
}

static const char *const ROWS[][2] = {
    {"{}", ""},
    {"{ a: A }", "property a type A"},
    {"{ readonly \"a\"?: A, 1 }", "property readonly string \"a\"? type A; property number 1"},
    {"{ a: A\nb }", "property a type A; property b"},
    {"{ m<T extends A>(this: B, x?: C): x is D }", "method m type parameter T extends A type B parameter x?: C type x is D"},
    {"{ get(): A; new?(): B; set }", "method get type A; method new? type B; property set"},
    {"{ <T>(x: T): T, (this) }", "call type parameter T parameter x: T type T; call"},
    {"{ new <T>(x: T), }", "construct type parameter T parameter x: T"},
    {"{ new (this: A<>): B<> }", "construct type B<> | 2 on 14 to 16 | 3 on 7 to 16 | 2 on 20 to 22"},
    {"{ readonly [k: string]: A }", "index readonly k type string type A"},
    {"{ [a: A, b: B]: C }", "index a type A type C | 12 on 2 to 14"},
    {"{ []: A }", "index type A | 12 on 2 to 4"},
    {"{ readonly [a?: boolean,]: C }", "index readonly a type boolean type C | 8 on 13 to 14 | 9 on 23 to 24 | 11 on 12 to 23"},
    {"{ [a: 'x']: A }", "index a type 'x' type A | 10 on 6 to 9"},
    {"{ a: { b: B } }", "property a type { b: B }"},
    {"{ a: [A?, [B?, C], D] }", "property a type [A?, [B?, C], D] | 4 on 15 to 16 and 11 to 13 | 4 on 10 to 17 and 6 to 8 | 4 on 19 to 20 and 6 to 8"},
    {"{ m<bigint>(string): A }", "method m type parameter bigint parameter string type A | 13 on 4 to 10"},
    {"{ a: B extends infer string ? C : D }", "property a type B extends infer string ? C : D | 13 on 21 to 27"},
    {"{ a b: A }", "3 at 2, half 0, byte 4"},
    {"{ [a: string] }", "3 at 6, half 0, byte 14"},
    {"{ a: A", "3 at 4, half 0, byte 6"},
    {"{ a: A<=B> }", "3 at 4, half 1, byte 7"},
    {"{ a: ? A }", "20 at 3, half 0, byte 5"},
    {"{ m(readonly a: B) }", "21 at 3, half 0, byte 4"},
    {"{ m(a = 1) }", "22 at 4, half 0, byte 6"},
    {"{ m(a, this: B) }", "23 at 5, half 0, byte 7"},
    {"{ m(...this) }", "23 at 4, half 0, byte 7"},
    {"{ m(...a, b) }", "24 at 5, half 0, byte 8"},
    {"{ m<in T>() }", "25 at 3, half 0, byte 4"},
    {"{ a: import(A) }", "26 at 5, half 0, byte 12"},
    {"{ a: import('a', {}) }", "27 at 6, half 0, byte 15"},
    {"{ [a]: A }", "31 at 1, half 0, byte 2"},
    {"{ get a(): A }", "31 at 1, half 0, byte 2"},
    {"{ readonly static a: A }", "31 at 2, half 0, byte 11"},
};

/* The key of what was read comes back with as many nodes and names. */
static void comes_back(void) {
    uint8_t kept[256];
    uint64_t n = answer[1], m = answer[2], size = answer[4];
    must(size <= sizeof kept, "a test has a long key");
    memcpy(kept, key.at, size);
    give(&key, kept, size), lend(&nodes, TYPEKEY_BACK_NODE_WORDS(size)), lend(&names, TYPEKEY_BACK_NAME_WORDS(size)), lend(&letters, TYPEKEY_BACK_TEXT_BYTES(size));
    take_back_lent();
    must(answer[0] == 0 && answer[1] == n && answer[2] == m && typekey_tag(words(&nodes), n - 1) == TYPEKEY_OBJECT, "a key does not come back");
}

int main(void) {
    uint64_t made[64], run = 0;
    make_slices();
    for (; run < sizeof ROWS / sizeof *ROWS; run++) {
        uint64_t length = strlen(ROWS[run][0]), n = cut(ROWS[run][0], made);
        give(&text, ROWS[run][0], length), give(&tokens, made, n);
        lend(&nodes, TYPEKEY_READ_NODE_WORDS(n)), lend(&names, TYPEKEY_READ_NAME_WORDS(n)), lend(&notes, TYPEKEY_READ_NOTE_WORDS), lend(&key, TYPEKEY_READ_KEY_BYTES(length, n));
        read_lent(0, 0);
        show();
        if (strcmp(said, ROWS[run][1])) printf("%s: %s, not %s\n", ROWS[run][0], said, ROWS[run][1]), must(0, "an object type is read otherwise");
        if (answer[0] == 0) comes_back();
    }
    printf("%d object types, 0 different\n", (int)run);
    return 0;
}
