/* How long the starts of a site block take, beside a memcpy of the same bytes: a struct of one array of u32, the block's bytes copied from a
 * factory buffer of that size. The best of 200. */
#include <stdio.h>
#include <stdlib.h>
#include <string.h>
#include <time.h>

#include "lepugaso.h"

enum { MOST = 1 << 20, TIMES = 200 };
static const uint32_t sizes[] = {4, 48, 4096, MOST};
static uint8_t file[3 * 12 + 12 + 10];
static uint8_t factory[MOST], site[MOST];
static uint64_t mask;
static enum { INHERITING, FRESH, MEMCPY, WAYS } way;

static void fill(uint32_t count) {
    static const uint8_t trailer[] = {3, 0, 1, 0, 0, 0, 0, 0, 1, 0};
    file[0] = 2, file[12] = 9, file[24] = 12, file[32] = 1, file[36] = 1;
    for (int k = 0; k < 4; k++) file[20 + k] = (uint8_t)(count >> 8 * k);
    memcpy(file + sizeof file - sizeof trailer, trailer, sizeof trailer);
    for (size_t k = 0; k < MOST; k++) factory[k] = (uint8_t)(k * 7 + 1);
}

static void call(uint32_t size) {
    lepugaso_answer a = {0, 0, 0};
    switch (way) {
    case INHERITING: a = lepugaso_site_inheriting(file, sizeof file, 2, &mask); break;
    case FRESH: a = lepugaso_site_fresh(file, sizeof file, 2, factory, size, site, size, &mask); break;
    default:
        memcpy(site, factory, size);
        __asm__ volatile("" : : "r"(site) : "memory");
    }
    if (a.refusal || (way == FRESH && mask != 1)) exit(1);
}

static double nanoseconds(void) {
    struct timespec t;
    clock_gettime(CLOCK_MONOTONIC, &t);
    return (double)t.tv_sec * 1e9 + (double)t.tv_nsec;
}

int main(void) {
    printf("%8s %12s %12s %12s   nanoseconds\n", "size", "inheriting", "fresh", "memcpy");
    for (size_t k = 0; k < sizeof sizes / sizeof *sizes; k++) {
        fill(sizes[k] / 4);
        printf("%8u", sizes[k]);
        for (way = 0; way < WAYS; way++) {
            double best = 1e18;
            for (int n = 0; n < TIMES; n++) {
                double began = nanoseconds();
                call(sizes[k]);
                double took = nanoseconds() - began;
                if (took < best) best = took;
            }
            printf(" %12.0f", best);
        }
        printf("\n");
        if (memcmp(site, factory, sizes[k])) return 1;
    }
    return 0;
}
