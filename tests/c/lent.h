/* What the tests share: slices whose ends are watched, sums over them, and one call of each function with all that can be said of any call. */
#ifndef LENT_H
#define LENT_H
#ifndef _GNU_SOURCE
#define _GNU_SOURCE
#endif
#include "typekey.h"
#include <stdio.h>
#include <stdlib.h>
#include <string.h>
#include <sys/mman.h>
#include <unistd.h>

/* A slice ends right at a page that may not be touched; the 64 bytes before it hold a pattern. An empty one is null every second time. */
enum { GUARD = 64 };
typedef struct { uint8_t *end; size_t room; uint8_t *at; uint64_t count; int width; } Slice;

static void must(int fine, const char *what) {
    if (fine) return;
    printf("FAILED: %s\n", what);
    fflush(stdout);
    abort();
}

static Slice slice_of(size_t most, int width) {
    size_t page = (size_t)sysconf(_SC_PAGESIZE), size = (most * width + GUARD + page - 1) / page * page;
    uint8_t *p = mmap(0, size + page, PROT_READ | PROT_WRITE, MAP_PRIVATE | MAP_ANONYMOUS, -1, 0);
    must(p != MAP_FAILED && mprotect(p + size, page, PROT_NONE) == 0, "no memory");
    return (Slice){p + size, size - GUARD, 0, 0, width};
}

/* So many elements, dirty. */
static void lend(Slice *s, uint64_t count) {
    static unsigned turn;
    must(count * s->width <= s->room, "a test lends too much");
    s->count = count;
    s->at = s->end - count * s->width;
    memset(s->at, 0xff, count * s->width);
    memset(s->at - GUARD, 0xa5, GUARD);
    if (count == 0 && turn++ % 2) s->at = 0;
}

/* The same, holding what is given to the call. */
static void give(Slice *s, const void *from, uint64_t count) {
    lend(s, count);
    if (count) memcpy(s->at, from, count * s->width);
}

static void watch(const Slice *s) {
    const uint8_t *p = s->end - s->count * s->width - GUARD;
    for (int i = 0; i < GUARD; i++) must(p[i] == 0xa5, "a byte before a slice was written");
}

static void zero_from(const Slice *s, uint64_t used, const char *what) {
    must(used <= s->count, "more is used than was lent");
    uint64_t n = (s->count - used) * s->width;
    const uint8_t *p = s->end - n;
    if (n) must(p[0] == 0 && memcmp(p, p + 1, n - 1) == 0, what);
}

static const uint64_t *words(const Slice *s) { return (const uint64_t *)(const void *)s->at; }
static uint64_t *words_mut(Slice *s) { return (uint64_t *)(void *)s->at; }

/* A sum over a whole slice, as the stored records have it. */
static inline uint64_t sum(const Slice *s) {
    uint64_t h = 1;
    for (uint64_t i = 0; i < s->count; i++) {
        if (s->width == 1) h = (h * 1000003 + s->at[i]) % 4294967291u;
        else h = ((h * 1000003 + (words(s)[i] & 0xffffffff)) % 4294967291u * 1000003 + (words(s)[i] >> 32)) % 4294967291u;
    }
    return h;
}

static Slice text, tokens, nodes, names, notes, key, letters, other, pairs;
static uint64_t answer_room[10], *const answer = answer_room + 1;

static void make_slices(void) {
    text = slice_of(TYPEKEY_MOST_TEXT + 1, 1);
    tokens = slice_of(TYPEKEY_MOST_TOKENS + 1, 8);
    nodes = slice_of(TYPEKEY_BACK_NODE_WORDS(TYPEKEY_MOST_KEY + 2), 8);
    names = slice_of(TYPEKEY_BACK_NAME_WORDS(TYPEKEY_MOST_KEY + 2), 8);
    notes = slice_of(212, 8);
    key = slice_of(TYPEKEY_MOST_KEY + 2 + 65536, 1);
    letters = slice_of(TYPEKEY_MOST_KEY + 2, 1);
    other = slice_of(TYPEKEY_MOST_KEY + 2, 1);
    pairs = slice_of(TYPEKEY_DIFFER_LIST_WORDS(TYPEKEY_MOST_KEY + 2, TYPEKEY_MOST_KEY + 2), 8);
}

static void dirty_answer(void) { memset(answer_room, 0xff, sizeof answer_room); }
static void watch_answer(int from) {
    must(answer_room[0] == UINT64_MAX && answer_room[9] == UINT64_MAX, "a word beside the answer was written");
    for (int i = from; i < 8; i++) must(answer[i] == 0, "a word of the answer is not 0");
}

/* What holds for any diagnostic: its bytes are of the text, and those of a second place stand before them. */
static void note_lent(uint64_t i) {
    const uint64_t *n = words(&notes), first = typekey_note_first(n, i), end = typekey_note_end(n, i);
    const uint64_t other_first = typekey_note_other_first(n, i), other_end = typekey_note_other_end(n, i);
    must(typekey_note_number(n, i) - 1 < TYPEKEY_NOTE_RESERVED_NAME && first < end && end <= text.count, "a note");
    if (typekey_note_number(n, i) == TYPEKEY_NOTE_REQUIRED_AFTER) must(0 < other_first && other_first < other_end && other_end < first, "the second place of a note");
    else must(other_first == 0 && other_end == 0, "a second place of a note that has none");
}

/* Reads what text and tokens hold into what is lent; says of the answer all that holds for any. */
static void read_lent(uint64_t start, uint64_t options) {
    dirty_answer();
    typekey_read(text.at, text.count, words(&tokens), tokens.count, start, options, words_mut(&nodes), nodes.count, words_mut(&names), names.count,
                 words_mut(&notes), notes.count, key.at, key.count, answer);
    watch(&text), watch(&tokens), watch(&nodes), watch(&names), watch(&notes), watch(&key);
    if (answer[0] == 0) {
        watch_answer(8);
        zero_from(&nodes, 4 * answer[1], "nodes past the last are not 0");
        zero_from(&names, answer[2], "names past the last are not 0");
        zero_from(&notes, 5 * answer[3], "notes past the last are not 0");
        for (uint64_t i = 0; i < answer[3]; i++) note_lent(i);
        zero_from(&key, answer[4], "bytes past the key are not 0");
        must(answer[1] > 0 && answer[4] > 0 && answer[5] > start && answer[5] < tokens.count && answer[6] == 0, "counts or end of a reading");
        must(answer[7] > 0 && answer[7] <= TYPEKEY_MOST_ENTERED * tokens.count, "type rules entered");
        return;
    }
    watch_answer(4);
    int form = (answer[0] >= TYPEKEY_PREFIX_MARK && answer[0] <= TYPEKEY_IMPORT_OPTIONS) || answer[0] == TYPEKEY_MEMBER_FORM;
    must((answer[0] <= 9 && answer[0] != 4) || answer[0] == 11 || answer[0] == TYPEKEY_MANY_TRIALS || form, "no refusal of a read");
    must(answer[0] == 1 || answer[0] == 11 ? answer[1] + answer[2] + answer[3] == 0 : answer[1] < tokens.count, "place of a refusal");
    must(answer[0] != 2 || answer[2] + answer[3] == 0, "half or byte of a bad token");
    must(answer[2] <= 1 && answer[3] <= text.count, "half or byte of a refusal");
    must(answer[2] == 0 || answer[0] == 3 || answer[0] == 5, "half of a refusal");
    must(answer[0] <= 2 || answer[0] == 11 || answer[3] == (words(&tokens)[answer[1]] & 0xffffffff) + answer[2], "byte of a refusal");
    zero_from(&nodes, 0, "nodes after a refusal"), zero_from(&names, 0, "names after a refusal");
    zero_from(&notes, 0, "notes after a refusal"), zero_from(&key, 0, "key after a refusal");
}

/* The same for the key that is given. */
static void take_back_lent(void) {
    dirty_answer();
    typekey_take_back(key.at, key.count, words_mut(&nodes), nodes.count, words_mut(&names), names.count, letters.at, letters.count, answer);
    watch(&key), watch(&nodes), watch(&names), watch(&letters);
    if (answer[0] == 0) {
        watch_answer(4);
        zero_from(&nodes, 4 * answer[1], "nodes past the last are not 0");
        zero_from(&names, answer[2], "names past the last are not 0");
        zero_from(&letters, answer[3], "text past the last spelling is not 0");
        must(answer[1] > 0, "no node was taken back");
        return;
    }
    watch_answer(2);
    must(answer[0] == 6 || answer[0] == 8 || answer[0] == 10 || answer[0] == 11, "no refusal of taking back");
    must(answer[1] <= 8 * key.count, "bit of a refusal");
    zero_from(&nodes, 0, "nodes after a refusal"), zero_from(&names, 0, "names after a refusal"), zero_from(&letters, 0, "text after a refusal");
}

/* The same for two keys, `key` on the left and `other` on the right. */
static inline void differ_lent(void) {
    dirty_answer();
    typekey_differ(key.at, key.count, other.at, other.count, words_mut(&pairs), pairs.count, answer);
    watch(&key), watch(&other), watch(&pairs);
    if (answer[0] == 0) {
        watch_answer(2);
        zero_from(&pairs, 2 * answer[1], "words past the last pair are not 0");
        for (uint64_t i = 0, a = 4, b = 4; i < answer[1]; a = words(&pairs)[2 * i] + 1, b = words(&pairs)[2 * i + 1] + 1, i++)
            must(a <= words(&pairs)[2 * i] && words(&pairs)[2 * i] < 8 * key.count && b <= words(&pairs)[2 * i + 1] && words(&pairs)[2 * i + 1] < 8 * other.count,
                 "pairs do not rise inside the keys");
        must((answer[1] == 0) == (key.count == other.count && memcmp(key.at, other.at, key.count) == 0), "no pair of two keys, or a pair of one");
        return;
    }
    watch_answer(3);
    must(answer[0] == 6 || answer[0] == 10 || answer[0] == 29, "no refusal of comparing");
    must(answer[0] == 29 ? answer[1] + answer[2] == 0 : answer[1] == 1 ? answer[2] <= 8 * key.count : answer[1] == 2 && answer[2] <= 8 * other.count, "side or bit of a refusal");
    zero_from(&pairs, 0, "list after a refusal");
}
#endif
