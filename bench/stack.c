/* stack LISTS KEYS: how many bytes of stack a call needs. Each call runs on a stack of its own that is painted before; the bytes
   from the caller's frame down to the deepest one that is not as it was painted are printed, a line for each list and each key
   of the files that types.py writes, with the answer's first number. */
#include <pthread.h>
#include <stdio.h>
#include <stdlib.h>
#include <string.h>
#include <sys/mman.h>
#include "typekey.h"

enum { STACK = 4 << 20, PAINT = 0xa5 };

static uint64_t nodes[1398108], names[87382], notes[TYPEKEY_READ_NOTE_WORDS], answer[8], tokens[TYPEKEY_MOST_TOKENS];
static uint8_t bytes[TYPEKEY_MOST_KEY], text[TYPEKEY_MOST_KEY];
static uint32_t text_len, token_count;
static char *top;

static void *read_text(void *unused) {
    top = __builtin_frame_address(0);
    typekey_read(text, text_len, tokens, token_count, 0, 0, nodes, 65536, names, 16384, notes, TYPEKEY_READ_NOTE_WORDS, bytes, sizeof bytes, answer);
    return unused;
}

static void *take_key(void *unused) {
    top = __builtin_frame_address(0);
    typekey_take_back(text, text_len, nodes, 1398108, names, 87382, bytes, sizeof bytes, answer);
    return unused;
}

static void run(const char *name, char *stack, void *(*call)(void *)) {
    pthread_t thread;
    pthread_attr_t attr;
    memset(stack, PAINT, STACK);
    pthread_attr_init(&attr);
    if (pthread_attr_setstack(&attr, stack, STACK) || pthread_create(&thread, &attr, call, 0)) exit(1);
    pthread_join(thread, 0);
    char *deepest = stack;
    while ((uint8_t)*deepest == PAINT) deepest++;
    printf("stack %s %ld answer %lu\n", name, (long)(top - deepest), (unsigned long)answer[0]);
}

static void get(void *to, size_t size, FILE *f) {
    if (size && fread(to, size, 1, f) != 1) exit(1);
}

int main(int count, char **args) {
    char *stack = mmap(0, STACK, PROT_READ | PROT_WRITE, MAP_PRIVATE | MAP_ANONYMOUS, -1, 0);
    FILE *lists = count == 3 ? fopen(args[1], "rb") : 0, *keys = count == 3 ? fopen(args[2], "rb") : 0;
    if (!lists || !keys || stack == MAP_FAILED) return 1;
    while (fread(&text_len, 4, 1, lists) == 1) {
        get(&token_count, 4, lists);
        get(text, text_len, lists);
        get(tokens, 8 * (size_t)token_count, lists);
        run("read", stack, read_text);
    }
    while (fread(&text_len, 4, 1, keys) == 1) {
        get(text, text_len, keys);
        run("take", stack, take_key);
    }
    return 0;
}
