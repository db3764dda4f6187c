/* How long a check of a file takes, which looks for members that no struct names: in a table of as many types and members as there can be,
 * 255 structs of four members each, the last of eight, that stand in the order of their members, the other way round, and scattered, each
 * alone with its members or naming one more, the next one's first; and in two small ones. The best of 200 times 50 calls. */
#include <stdio.h>
#include <stdlib.h>
#include <string.h>
#include <time.h>

#include "lepugaso.h"

enum { STRUCTS = 255, MEMBERS = 1024, TIMES = 200, CALLS = 50 };
static uint8_t file[12 * (1 + STRUCTS + MEMBERS) + 10];
static const struct table {
    const char *name;
    uint32_t structs, members;
    /* from a struct's place to the next one's, around the table; 0: falling */
    uint32_t step;
    /* members of the next struct that each names too */
    uint32_t shared;
} tables[] = {
    {"a u32", 0, 0, 1, 0},
    {"a struct of 5 members", 1, 5, 1, 0},
    {"255 structs of 1024 members, rising", STRUCTS, MEMBERS, 1, 0},
    {"255 structs of 1024 members, falling", STRUCTS, MEMBERS, 0, 0},
    {"255 structs of 1024 members, scattered", STRUCTS, MEMBERS, 97, 0},
    {"the same, each naming one more", STRUCTS, MEMBERS, 97, 1},
};

static void put_16(uint8_t *at, uint32_t number) {
    at[0] = (uint8_t)number;
    at[1] = (uint8_t)(number >> 8);
}

/* A u32, structs of as many members each, the last one of what is left too, and the members, each a u32. The value is the length. */
static size_t fill(const struct table *t) {
    uint32_t each = t->structs ? t->members / t->structs : 0;
    uint8_t *trailer = file + 12 * (1 + t->structs + t->members);
    memset(file, 0, sizeof file);
    file[0] = 2;
    for (uint32_t k = 0; k < t->structs; k++) {
        uint8_t *type = file + 12 * (t->step ? 1 + k * t->step % t->structs : t->structs - k);
        type[0] = 12;
        put_16(type + 4, each * k);
        put_16(type + 8, k + 1 < t->structs ? each + t->shared : t->members - each * k);
    }
    put_16(trailer, 1 + t->structs);
    put_16(trailer + 2, t->members);
    put_16(trailer + 8, 1);
    return (size_t)(trailer - file) + 10;
}

static double nanoseconds(void) {
    struct timespec t;
    clock_gettime(CLOCK_MONOTONIC, &t);
    return (double)t.tv_sec * 1e9 + (double)t.tv_nsec;
}

int main(void) {
    printf("%-38s %12s   nanoseconds\n", "", "check");
    for (const struct table *t = tables; t < tables + sizeof tables / sizeof *tables; t++) {
        size_t length = fill(t);
        double best = 1e18;
        for (int n = 0; n < TIMES; n++) {
            double began = nanoseconds();
            for (int k = 0; k < CALLS; k++) {
                lepugaso_answer a = lepugaso_check(file, length);
                if (a.refusal || a.value != 1 + t->structs) exit(1);
            }
            double took = (nanoseconds() - began) / CALLS;
            if (took < best) best = took;
        }
        printf("%-38s %12.0f\n", t->name, best);
    }
    return 0;
}
