/* trials FILE: how long one read of each list takes, with what the header says lent. FILE has token lists one after the other as bench/types.py writes them:
   the text's length and the number of words (4 bytes each, lowest first), the text, the words. A line for each: answer, tokens, type rules entered, ns. The time is
   the least of the rounds (ROUNDS, 15), each of as many calls as take a millisecond or more. */
#include "typekey.h"
#include <stdio.h>
#include <stdlib.h>
#include <string.h>
#include <time.h>

static double now(void) {
    struct timespec t;
    clock_gettime(CLOCK_MONOTONIC, &t);
    return 1e9 * (double)t.tv_sec + (double)t.tv_nsec;
}

static uint64_t tokens[TYPEKEY_MOST_TOKENS], nodes[TYPEKEY_READ_NODE_WORDS(TYPEKEY_MOST_TOKENS)], names[TYPEKEY_MOST_TOKENS], notes[TYPEKEY_READ_NOTE_WORDS], answer[8];
static uint8_t text[TYPEKEY_MOST_TEXT], key[TYPEKEY_READ_KEY_BYTES(TYPEKEY_MOST_TEXT, TYPEKEY_MOST_TOKENS)];

static double calls(uint32_t size, uint32_t count, unsigned times) {
    double began = now();
    for (; times; times--)
        typekey_read(text, size, tokens, count, 0, 0, nodes, TYPEKEY_READ_NODE_WORDS(count), names, count, notes, TYPEKEY_READ_NOTE_WORDS, key, TYPEKEY_READ_KEY_BYTES(size, count), answer);
    return now() - began;
}

int main(int argc, char **argv) {
    FILE *f = argc > 1 ? fopen(argv[1], "rb") : 0;
    int rounds = getenv("ROUNDS") ? atoi(getenv("ROUNDS")) : 15;
    uint32_t head[2];
    if (!f) return fprintf(stderr, "trials: no file of lists\n"), 2;
    while (fread(head, 4, 2, f) == 2) {
        if (head[0] > sizeof text || head[1] > TYPEKEY_MOST_TOKENS || fread(text, 1, head[0], f) != head[0] || fread(tokens, 8, head[1], f) != head[1]) return fprintf(stderr, "trials: a bad list\n"), 2;
        unsigned times = 1;
        double least = calls(head[0], head[1], 1);
        while (calls(head[0], head[1], times) < 1e6) times *= 2;
        for (int i = 0; i < rounds; i++) {
            double t = calls(head[0], head[1], times) / times;
            if (t < least) least = t;
        }
        printf("%d %u %d %.0f\n", (int)answer[0], head[1], (int)answer[7], least);
        fflush(stdout);
    }
    fclose(f);
    return 0;
}
