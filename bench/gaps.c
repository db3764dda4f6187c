/* How long cleaning the gaps of an array of structs takes beside the loop over them that a C programmer writes, in one process, best of
 * 400, in turn: with gaps that are clean already, and with gaps full of rubbish, which both sides get from the same copy before each call.
 * And cleaning an array without gaps beside asking for its size, which takes its table and nothing else. `gaps compare` compares what both
 * sides say and leave, and times nothing. */
#include <stdio.h>
#include <string.h>
#include <time.h>

#include "layout_file.h"
#include "lepugaso.h"

enum { COUNT = 4096, STRIDE = 32, GAP = 4, GAP_END = 16, SIZE = COUNT * STRIDE, TURNS = 400 };

static const uint8_t structs[] = {
    U32,             /* 0 */
    F32,             /* 1 */
    VECTOR(3, 1),    /* 2: vec3<f32> */
    STRUCT(0, 3),    /* 3: u32, vec3<f32>, f32: at 0, 16, 28; 32 bytes */
    ARRAY(3, COUNT), /* 4 */
    MEMBER(0), MEMBER(2), MEMBER(1),
    TRAILER(5, 3),
};
static const uint8_t packed[] = {F32, VECTOR(4, 0), ARRAY(1, COUNT), TRAILER(3, 0)};

static uint8_t old[SIZE], buf[SIZE];

/* What a cleaning says. */
struct said {
    uint64_t changed, first;
};

static double nanoseconds(void) {
    struct timespec t;
    clock_gettime(CLOCK_MONOTONIC, &t);
    return (double)t.tv_sec * 1e9 + (double)t.tv_nsec;
}

#define CALLED static __attribute__((noinline))

CALLED struct said by_library(void) {
    struct said s = {0, 0};
    s.changed = lepugaso_clean(structs, sizeof structs, 4, buf, sizeof buf, &s.first).value;
    return s;
}

CALLED struct said by_loop(void) {
    struct said s = {0, SIZE};
    for (size_t k = 0; k < COUNT; k++) {
        for (size_t at = STRIDE * k + GAP; at < STRIDE * k + GAP_END; at++) {
            if (buf[at] == 0) continue;
            if (s.changed == 0) s.first = at;
            s.changed++;
            buf[at] = 0;
        }
    }
    return s;
}

CALLED struct said no_gaps(void) {
    struct said s = {0, 0};
    s.changed = lepugaso_clean(packed, sizeof packed, 2, buf, sizeof buf, &s.first).value;
    return s;
}

CALLED struct said size(void) { return (struct said){0, lepugaso_size(packed, sizeof packed, 2).value}; }

/* Every byte that holds a scalar is some number; a gap holds 0, or rubbish. */
static void fill(int rubbish) {
    for (size_t k = 0; k < SIZE; k++) {
        int gap = k % STRIDE >= GAP && k % STRIDE < GAP_END;
        old[k] = gap && !rubbish ? 0 : (uint8_t)(k * 2654435761u >> 24 | 1);
    }
}

/* Both say the same, as expected, and leave the same. */
static int agree(struct said (*sides[2])(void), uint64_t changed, uint64_t first) {
    static uint8_t left[SIZE];
    for (int side = 0; side < 2; side++) {
        memcpy(buf, old, SIZE);
        struct said s = sides[side]();
        if (s.changed != changed || s.first != first || (side && memcmp(buf, left, SIZE))) return 0;
        memcpy(left, buf, SIZE);
    }
    return 1;
}

static const struct row {
    const char *name, *what;
    int rubbish, calls;
    struct said (*sides[2])(void);
    uint64_t changed, first;
} rows[] = {
    {"array<{u32, vec3<f32>, f32}, 4096>", "a loop in C, gaps clean", 0, 1, {by_library, by_loop}, 0, SIZE},
    {"array<{u32, vec3<f32>, f32}, 4096>", "a loop in C, gaps full of rubbish", 1, 1, {by_library, by_loop}, COUNT * (GAP_END - GAP), GAP},
    {"array<vec4<f32>, 4096>", "its size asked for", 1, 200, {no_gaps, size}, 0, COUNT * 16},
};

int main(int argc, char **argv) {
    int compare = argc > 1 && strcmp(argv[1], "compare") == 0;
    if (!compare) printf("%-35s %-5s %10s %10s %6s  %s\n", "", "", "Lepugaso", "beside", "of it", "which is");
    for (const struct row *row = rows; row < rows + sizeof rows / sizeof rows[0]; row++) {
        struct said (*sides[2])(void) = {row->sides[0], row->sides[1]};
        fill(row->rubbish);
        if (!agree(sides, row->changed, row->first)) {
            printf("%s: %s: NOT THE SAME\n", row->name, row->what);
            return 1;
        }
        if (compare) {
            printf("%s: %s: the same\n", row->name, row->what);
            continue;
        }
        double best[2] = {1e12, 1e12};
        for (int turn = 0; turn < TURNS; turn++) {
            for (int side = 0; side < 2; side++) {
                memcpy(buf, old, SIZE);
                __asm__ volatile("" : : "r"(buf) : "memory");
                double began = nanoseconds();
                for (int k = 0; k < row->calls; k++) sides[side]();
                double took = (nanoseconds() - began) / row->calls;
                if (took < best[side]) best[side] = took;
            }
        }
        printf("%-35s %-5s %7.2f us %7.2f us %6.2f  %s\n", row->name, "clean", best[0] / 1e3, best[1] / 1e3, best[0] / best[1], row->what);
    }
    return 0;
}
