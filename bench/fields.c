/* How long a bit field takes through the library, beside the shifts and masks that a C programmer writes, over an array of words in one
 * process, best of 30. A call into the archive cannot be inlined, so C's shifts are timed as a function that is called, and inlined, where
 * the compiler also works on several words at once. They are right only for fields of 1 to 32 bits that end within the word; "any field"
 * takes any offset and count, as the library does. */
#include <stdio.h>
#include <stdlib.h>
#include <time.h>

#include "lepugaso.h"

enum { WORDS = 4096, TURNS = 30, ROUNDS = 16 };

static uint32_t words[WORDS], out[WORDS];

static double now(void) {
    struct timespec t;
    clock_gettime(CLOCK_MONOTONIC, &t);
    return (double)t.tv_sec * 1e9 + (double)t.tv_nsec;
}

static inline int32_t c_extract(int32_t e, uint32_t offset, uint32_t count) {
    return (int32_t)((uint32_t)e << (32 - offset - count)) >> (32 - count);
}

static inline uint32_t c_insert(uint32_t e, uint32_t newbits, uint32_t offset, uint32_t count) {
    uint32_t mask = UINT32_MAX >> (32 - count) << offset;
    return (e & ~mask) | (newbits << offset & mask);
}

#define CALLED static __attribute__((noinline))

CALLED int32_t called_extract(int32_t e, uint32_t offset, uint32_t count) { return c_extract(e, offset, count); }

CALLED uint32_t called_insert(uint32_t e, uint32_t newbits, uint32_t offset, uint32_t count) { return c_insert(e, newbits, offset, count); }

static inline uint32_t least(uint32_t a, uint32_t b) { return a < b ? a : b; }

CALLED int32_t any_extract(int32_t e, uint32_t offset, uint32_t count) {
    uint32_t o = least(offset, 32), c = least(count, 32 - o);
    return c ? c_extract(e, o, c) : 0;
}

CALLED uint32_t any_insert(uint32_t e, uint32_t newbits, uint32_t offset, uint32_t count) {
    uint32_t o = least(offset, 32), c = least(count, 32 - o);
    return c ? c_insert(e, newbits, o, c) : e;
}

/* Each way over all words; which field it is, is known to no compiler. */
static volatile uint32_t field_offset = 8, field_count = 12;
#define PASS(name, expression)                                    \
    CALLED void name(void) {                                      \
        uint32_t o = field_offset, c = field_count;               \
        for (size_t k = 0; k < WORDS; k++) out[k] = (expression); \
    }
PASS(extract_library, (uint32_t)lepugaso_extract_bits_i32((int32_t)words[k], o, c))
PASS(extract_any, (uint32_t)any_extract((int32_t)words[k], o, c))
PASS(extract_called, (uint32_t)called_extract((int32_t)words[k], o, c))
PASS(extract_inlined, (uint32_t)c_extract((int32_t)words[k], o, c))
PASS(insert_library, lepugaso_insert_bits_u32(words[k], words[k] >> 7, o, c))
PASS(insert_any, any_insert(words[k], words[k] >> 7, o, c))
PASS(insert_called, called_insert(words[k], words[k] >> 7, o, c))
PASS(insert_inlined, c_insert(words[k], words[k] >> 7, o, c))

enum { WAYS = 4 };
static const struct {
    const char *name;
    void (*passes[WAYS])(void);
} rows[] = {{"extract_bits_i32", {extract_library, extract_any, extract_called, extract_inlined}},
            {"insert_bits_u32", {insert_library, insert_any, insert_called, insert_inlined}}};

/* All that a pass writes, as one number. */
static uint32_t sum(void (*pass)(void)) {
    uint32_t total = 0;
    pass();
    for (size_t k = 0; k < WORDS; k++) total = total * 31 + out[k];
    return total;
}

int main(void) {
    for (uint32_t k = 0; k < WORDS; k++) words[k] = k * 2654435761u + 1;
    printf("%-17s %7s %15s %15s %15s   ns for 12 bits, best of %d (the library's over it)\n", "", "library", "C, any field",
           "C, called", "C, inlined", TURNS);
    for (size_t row = 0; row < sizeof rows / sizeof rows[0]; row++) {
        double best[WAYS] = {1e9, 1e9, 1e9, 1e9};
        for (int way = 1; way < WAYS; way++) {
            if (sum(rows[row].passes[way]) != sum(rows[row].passes[0])) return 1;
        }
        for (int turn = 0; turn < TURNS; turn++) {
            for (int way = 0; way < WAYS; way++) {
                double began = now();
                for (int round = 0; round < ROUNDS; round++) rows[row].passes[way]();
                double each = (now() - began) / (ROUNDS * WORDS);
                if (each < best[way]) best[way] = each;
            }
        }
        printf("%-17s %7.2f", rows[row].name, best[0]);
        for (int way = 1; way < WAYS; way++) printf(" %7.2f (%5.2f)", best[way], best[0] / best[way]);
        printf("\n");
    }
    return 0;
}
