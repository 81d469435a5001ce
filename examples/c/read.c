/* Reads the type `A | B & C`, prints its key and its tree, and says what differs from `A | B & D`. After tools/build_library.sh:

   gcc -I include examples/c/read.c target/lib/libtypekey.a -o target/read && target/read */
#include "typekey.h"
#include <stdio.h>

static const char text[] = "A | B & C";
enum { TEXT = sizeof text - 1, TOKENS = 6 };

/* What we lend: the header's macros say how much is always enough. */
static uint64_t nodes[TYPEKEY_READ_NODE_WORDS(TOKENS)], names[TYPEKEY_READ_NAME_WORDS(TOKENS)], notes[TYPEKEY_READ_NOTE_WORDS];
static uint8_t key[TYPEKEY_READ_KEY_BYTES(TEXT, TOKENS)];

/* A node, and then its children under it. */
static void show(uint64_t i, int depth) {
    uint64_t tag = typekey_tag(nodes, i), first = typekey_first_byte(nodes, i), end = typekey_end_byte(nodes, i);
    printf("%*s%s: %.*s\n", 2 * depth, "", tag == TYPEKEY_UNION ? "union" : tag == TYPEKEY_INTERSECTION ? "intersection" : "reference", (int)(end - first), text + first);
    if (!typekey_has_children(nodes, i)) return;
    for (uint64_t child = typekey_first_child(nodes, i); ; child = typekey_next_sibling(nodes, child)) {
        show(child, depth + 1);
        if (typekey_next_sibling(nodes, child) == 0) return;
    }
}

int main(void) {
    /* The tokens, as a lexer would hand them over: kind, line break before it, first byte, length. The last is the Eof. */
    const uint64_t tokens[TOKENS] = {
        typekey_token(TYPEKEY_WORD, 0, 0, 1), typekey_token(TYPEKEY_BAR, 0, 2, 1), typekey_token(TYPEKEY_WORD, 0, 4, 1),
        typekey_token(TYPEKEY_AND, 0, 6, 1), typekey_token(TYPEKEY_WORD, 0, 8, 1), typekey_token(TYPEKEY_EOF, 0, 9, 0)};
    uint64_t answer[8];

    typekey_read((const uint8_t *)text, TEXT, tokens, TOKENS, 0, 0, nodes, sizeof nodes / 8, names, sizeof names / 8, notes, sizeof notes / 8, key, sizeof key, answer);
    if (answer[0] != TYPEKEY_OK) {
        printf("refusal %d at token %d, byte %d\n", (int)answer[0], (int)answer[1], (int)answer[3]);
        return 1;
    }
    printf("key:");
    for (uint64_t i = 0; i < answer[4]; i++) printf(" %02x", key[i]);
    printf("\n");
    show(answer[1] - 1, 0); /* the root is the last node */

    /* The key of `A | B & D`: the last letter of the last name is another. */
    static uint8_t other[sizeof key];
    static uint64_t list[TYPEKEY_DIFFER_LIST_WORDS(sizeof key, sizeof other)];
    uint64_t size = answer[4];
    for (uint64_t i = 0; i < size; i++) other[i] = key[i];
    other[size - 2] ^= 'C' ^ 'D';
    typekey_differ(key, size, other, size, list, sizeof list / 8, answer);
    if (answer[0] != TYPEKEY_OK) {
        printf("refusal %d, side %d, bit %d\n", (int)answer[0], (int)answer[1], (int)answer[2]);
        return 1;
    }
    for (uint64_t i = 0; i < answer[1]; i++) printf("beside A | B & D: bit %d, bit %d\n", (int)list[2 * i], (int)list[2 * i + 1]);
    return 0;
}
