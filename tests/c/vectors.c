/* vectors FILE: runs the stored records (crates/rows/data/vectors) through the C functions, and compares each answer and all that is lent.
   The format is in crates/rows/src/main.rt. The last line says how many records there were and how many differ. */
#include "lent.h"

static uint64_t four(const uint8_t *p) { return p[0] | (uint64_t)p[1] << 8 | (uint64_t)p[2] << 16 | (uint64_t)p[3] << 24; }
static uint64_t least(uint64_t a, uint64_t b) { return a < b ? a : b; }

int main(int argc, char **argv) {
    FILE *f = argc > 1 ? fopen(argv[1], "rb") : 0;
    if (!f) return fprintf(stderr, "vectors: no file of records\n"), 2;
    fseek(f, 0, SEEK_END);
    long size = ftell(f);
    rewind(f);
    uint8_t *data = malloc(size);
    if (!data || fread(data, 1, size, f) != (size_t)size) return fprintf(stderr, "vectors: cannot read %s\n", argv[1]), 2;
    make_slices();
    unsigned run = 0, different = 0, back = 0;
    for (long p = 0; p < size; run++) {
        const uint8_t *h = data + p, *rest = h + 81;
        if (size - p < 81) return printf("cut\n"), 1;
        uint64_t a[8], got[12] = {0};
        for (int i = 0; i < 8; i++) a[i] = four(h + 1 + 4 * i);
        lend(&nodes, least(a[3], 838860)), lend(&names, least(a[4], 16385));
        if (h[0] < 4) {
            p += 81 + a[1] + 8 * a[2];
            if (p > size) return printf("cut\n"), 1;
            give(&text, rest, a[1]), give(&tokens, rest + a[1], a[2]), lend(&notes, least(a[5], 212)), lend(&key, least(a[6], 262146));
            read_lent(a[0], h[0] & 1);
            must(a[1] == 0 || memcmp(text.at, rest, a[1]) == 0, "the text was written");
            must(a[2] == 0 || memcmp(tokens.at, rest + a[1], 8 * a[2]) == 0, "the tokens were written");
            memcpy(got, answer, 8 * 8);
            got[8] = sum(&nodes), got[9] = sum(&names), got[10] = sum(&notes), got[11] = sum(&key);
        } else {
            p += 81 + a[6];
            if (p > size) return printf("cut\n"), 1;
            give(&key, rest, a[6]), lend(&letters, least(a[7], 131072));
            take_back_lent();
            must(a[6] == 0 || memcmp(key.at, rest, a[6]) == 0, "the key was written");
            memcpy(got, answer, 8 * 8);
            got[8] = sum(&nodes), got[9] = sum(&names), got[10] = sum(&letters);
            back++;
        }
        for (int i = 0; i < 12; i++)
            if (got[i] != four(h + 33 + 4 * i)) {
                printf("different %u: number %d is %llu, not %llu\n", run, i, (unsigned long long)got[i], (unsigned long long)four(h + 33 + 4 * i));
                different++;
                break;
            }
    }
    free(data), fclose(f);
    printf("%u vectors, %u different\n", run, different);
    fprintf(stderr, "%u reads, %u keys taken back\n", run - back, back);
    return different != 0;
}
