/* How long the smallest calls take: what a call costs before it comes to its type. Best of 40 times 2,000 calls. */
#include <stdio.h>
#include <time.h>

#include "lepugaso.h"

static double now(void) {
    struct timespec t;
    clock_gettime(CLOCK_MONOTONIC, &t);
    return (double)t.tv_sec * 1e9 + (double)t.tv_nsec;
}

int main(void) {
    enum { REFUSED, WRITE, CHECK, VIEW, SET, INSERT, EXTRACT, WAYS };
    static const char *const names[WAYS] = {"write, refused at its trailer", "write of a u32", "check of a u32", "view of a u32",
                                             "set of a u32", "insert_bits in a u32", "extract_bits of a u32"};
    uint8_t file[22] = {[0] = 2, [12] = 1, [20] = 1}, buf[4] = {0};
    const uint8_t *part;
    size_t part_len;
    uint32_t word = 0;
    double best[WAYS] = {1e9, 1e9, 1e9, 1e9, 1e9, 1e9, 1e9};
    for (int turn = 0; turn < 40; turn++) {
        for (int way = REFUSED; way < WAYS; way++) {
            file[20] = way == REFUSED ? 3 : 1;
            double began = now();
            for (int i = 0; i < 2000; i++) {
                switch (way) {
                case CHECK: lepugaso_check(file, sizeof file); break;
                case VIEW: lepugaso_view(file, sizeof file, 0, NULL, 0, buf, sizeof buf, &part, &part_len); break;
                case SET: lepugaso_set(file, sizeof file, 0, NULL, 0, &word, 1, buf, sizeof buf); break;
                case INSERT: lepugaso_insert_bits(file, sizeof file, 0, NULL, 0, word, 4, 12, buf, sizeof buf); break;
                case EXTRACT: lepugaso_extract_bits(file, sizeof file, 0, NULL, 0, buf, sizeof buf, 4, 12); break;
                default: lepugaso_write(file, sizeof file, 0, &word, 1, buf, sizeof buf);
                }
            }
            double each = (now() - began) / 2000;
            if (each < best[way]) best[way] = each;
        }
    }
    for (int way = REFUSED; way < WAYS; way++) printf("%s: %.0f ns\n", names[way], best[way]);
    return 0;
}
