/* How long a literal's conversion takes through the library, beside the compiler's, over an array of literals in one process, best of 30.
 * To an f32 that is one instruction of the processor; to an f16 it is a function of libgcc, since the processor has none from an f64. They
 * are timed as a function that refuses what is not finite and answers as the library does, and inlined, with nothing refused. The literals
 * are of any digits, their results neither infinite nor, but for one row, subnormal. */
#include <stdio.h>
#include <stdlib.h>
#include <string.h>
#include <time.h>

#include "lepugaso.h"

enum { LITERALS = 4096, TURNS = 30, ROUNDS = 16 };
enum { F32 = 3, F16 = 4, ABSTRACT_INT = 5, ABSTRACT_FLOAT = 6 };

static uint64_t literals[LITERALS], out[LITERALS];

static double now(void) {
    struct timespec t;
    clock_gettime(CLOCK_MONOTONIC, &t);
    return (double)t.tv_sec * 1e9 + (double)t.tv_nsec;
}

__extension__ typedef _Float16 half;

static inline double float_of(uint64_t bits) {
    double number;
    memcpy(&number, &bits, sizeof number);
    return number;
}

static inline uint64_t of_f32(float number) {
    uint32_t bits;
    memcpy(&bits, &number, sizeof bits);
    return bits;
}

static inline uint64_t of_f16(half number) {
    uint16_t bits;
    memcpy(&bits, &number, sizeof bits);
    return bits;
}

static inline uint64_t float_to_f32(uint64_t bits) { return of_f32((float)float_of(bits)); }

static inline uint64_t float_to_f16(uint64_t bits) { return of_f16((half)float_of(bits)); }

static inline uint64_t int_to_f32(uint64_t bits) { return of_f32((float)(int64_t)bits); }

/* The bits of a result as the library answers it, with those of infinity that it may not reach. */
static inline lepugaso_answer answered(uint64_t bits, uint64_t infinite) {
    return (bits & infinite) == infinite ? (lepugaso_answer){LEPUGASO_REFUSED_CONVERSION, 0, 0} : (lepugaso_answer){0, 0, bits};
}

#define CALLED static __attribute__((noinline))

CALLED lepugaso_answer called_float_to_f32(uint64_t bits) { return answered(float_to_f32(bits), 0x7F800000); }

CALLED lepugaso_answer called_float_to_f16(uint64_t bits) { return answered(float_to_f16(bits), 0x7C00); }

CALLED lepugaso_answer called_int_to_f32(uint64_t bits) { return answered(int_to_f32(bits), 0x7F800000); }

/* Each way over all literals; which kinds they are is known to no compiler. */
static volatile uint32_t from_kind, to_kind;
#define PASS(name, expression)                                       \
    CALLED void name(void) {                                         \
        for (size_t k = 0; k < LITERALS; k++) out[k] = (expression); \
    }
#define CALLED_PASS(name, call)                        \
    CALLED void name(void) {                           \
        uint32_t from = from_kind, to = to_kind;       \
        (void)from, (void)to;                          \
        for (size_t k = 0; k < LITERALS; k++) {        \
            lepugaso_answer a = call;                  \
            out[k] = a.refusal ? UINT64_MAX : a.value; \
        }                                              \
    }
CALLED_PASS(library, lepugaso_convert(from, literals[k], to))
CALLED_PASS(float_to_f32_called, called_float_to_f32(literals[k]))
CALLED_PASS(float_to_f16_called, called_float_to_f16(literals[k]))
CALLED_PASS(int_to_f32_called, called_int_to_f32(literals[k]))
PASS(float_to_f32_inlined, float_to_f32(literals[k]))
PASS(float_to_f16_inlined, float_to_f16(literals[k]))
PASS(int_to_f32_inlined, int_to_f32(literals[k]))

/* The literals: an exponent as an f64 has it, from the first to the last; of an abstract int, how many bits it has. */
enum { WAYS = 3 };
static const struct {
    const char *name;
    uint32_t from, to;
    uint32_t first, last;
    void (*passes[WAYS])(void);
} rows[] = {{"abstract float to f32", ABSTRACT_FLOAT, F32, 1023 - 100, 1023 + 100, {library, float_to_f32_called, float_to_f32_inlined}},
            {"  subnormal", ABSTRACT_FLOAT, F32, 1023 - 148, 1023 - 128, {library, float_to_f32_called, float_to_f32_inlined}},
            {"abstract float to f16", ABSTRACT_FLOAT, F16, 1023 - 14, 1023 + 14, {library, float_to_f16_called, float_to_f16_inlined}},
            {"abstract int to f32", ABSTRACT_INT, F32, 1, 63, {library, int_to_f32_called, int_to_f32_inlined}}};

static void fill(uint32_t from, uint32_t first, uint32_t last) {
    uint64_t any = 88172645463325252u;
    for (uint32_t k = 0; k < LITERALS; k++) {
        any ^= any << 13;
        any ^= any >> 7;
        any ^= any << 17;
        uint64_t size = first + k * 7 % (last - first + 1), minus = any & 1;
        if (from == ABSTRACT_INT) {
            literals[k] = minus ? -(any >> (64 - size)) : any >> (64 - size);
        } else {
            literals[k] = minus << 63 | size << 52 | any >> 12;
        }
    }
}

/* All that a pass writes, as one number. */
static uint64_t sum(void (*pass)(void)) {
    uint64_t total = 0;
    pass();
    for (size_t k = 0; k < LITERALS; k++) total = total * 31 + out[k];
    return total;
}

int main(void) {
    printf("%-21s %7s %15s %15s   ns for a literal, best of %d (the library's over it)\n", "", "library", "C, called", "C, inlined", TURNS);
    for (size_t row = 0; row < sizeof rows / sizeof rows[0]; row++) {
        double best[WAYS] = {1e9, 1e9, 1e9};
        fill(rows[row].from, rows[row].first, rows[row].last);
        from_kind = rows[row].from, to_kind = rows[row].to;
        for (int way = 1; way < WAYS; way++) {
            if (sum(rows[row].passes[way]) != sum(rows[row].passes[0])) return 1;
        }
        for (int turn = 0; turn < TURNS; turn++) {
            for (int way = 0; way < WAYS; way++) {
                double began = now();
                for (int round = 0; round < ROUNDS; round++) rows[row].passes[way]();
                double each = (now() - began) / (ROUNDS * LITERALS);
                if (each < best[way]) best[way] = each;
            }
        }
        printf("%-21s %7.2f", rows[row].name, best[0]);
        for (int way = 1; way < WAYS; way++) printf(" %7.2f (%5.2f)", best[way], best[0] / best[way]);
        printf("\n");
    }
    return 0;
}
