/* How long the moves between the forms of a layout file take, beside a check of it and a memcpy of its bytes: a file of as many members as
 * there can be, with nothing before its types and with a mebibyte. The best of 200. */
#include <stdio.h>
#include <stdlib.h>
#include <string.h>
#include <time.h>

#include "lepugaso.h"

enum { MEMBERS = 1024, TIMES = 200 };
static uint8_t *file, *named, *back;
static size_t file_len, named_len;
static enum { CHECK, TO_FORM_2, TO_FORM_1, MEMCPY, CALLS } way;

/* A u32, and a struct of members of it. */
static void fill(uint32_t start) {
    file_len = start + 2 * 12 + MEMBERS * 12 + 10;
    named_len = file_len + 4 * MEMBERS;
    file = calloc(1, file_len), named = malloc(named_len), back = malloc(file_len);
    if (!file || !named || !back) exit(2);
    file[start] = 2, file[start + 12] = 12, file[start + 21] = MEMBERS / 256;
    const uint8_t trailer[] = {2, 0, MEMBERS % 256, MEMBERS / 256, start & 255, start >> 8 & 255, start >> 16 & 255, start >> 24, 1, 0};
    memcpy(file + file_len - sizeof trailer, trailer, sizeof trailer);
}

static void call(void) {
    lepugaso_answer a = {0, 0, 0};
    switch (way) {
    case CHECK: a = lepugaso_check(file, file_len); break;
    case TO_FORM_2: a = lepugaso_to_form_2(file, file_len, named, named_len); break;
    case TO_FORM_1: a = lepugaso_to_form_1(named, named_len, back, file_len); break;
    default: memcpy(back, file, file_len);
    }
    __asm__ volatile("" : : "r"(back) : "memory");
    if (a.refusal) exit(1);
}

static double microseconds(void) {
    struct timespec t;
    clock_gettime(CLOCK_MONOTONIC, &t);
    return (double)t.tv_sec * 1e6 + (double)t.tv_nsec / 1e3;
}

int main(void) {
    static const uint32_t starts[] = {0, 1 << 20};
    printf("%8s %10s %10s %10s %10s   microseconds\n", "before", "check", "to_form_2", "to_form_1", "memcpy");
    for (int k = 0; k < 2; k++) {
        fill(starts[k]);
        printf("%8u", (unsigned)starts[k]);
        for (way = 0; way < CALLS; way++) {
            double best = 1e9;
            for (int n = 0; n < TIMES; n++) {
                double began = microseconds();
                call();
                double took = microseconds() - began;
                if (took < best) best = took;
            }
            printf(" %10.2f", best);
        }
        printf("   %s\n", memcmp(back, file, file_len) ? "OTHER BYTES" : "");
        free(file), free(named), free(back);
    }
    return 0;
}
