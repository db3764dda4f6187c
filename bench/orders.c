/* How long planning an order and checking one take, beside a check of the file: a struct of as many members as there can be, u32 and
 * vec4<u32> in turn, and what is checked is the planned order. The best of 200. */
#include <stdio.h>
#include <stdlib.h>
#include <string.h>
#include <time.h>

#include "lepugaso.h"

enum { MEMBERS = 1024, TIMES = 200, NEW_END = MEMBERS / 2 * (4 + 16) };
static uint8_t file[3 * 12 + MEMBERS * 12 + 10];
static uint32_t order[MEMBERS];
static enum { CHECK, PLAN_ORDER, CHECK_ORDER, CALLS } way;

static void fill(void) {
    static const uint8_t trailer[] = {3, 0, MEMBERS % 256, MEMBERS / 256, 0, 0, 0, 0, 1, 0};
    file[0] = 2, file[12] = 7, file[14] = 4, file[24] = 12, file[33] = MEMBERS / 256;
    for (int k = 1; k < MEMBERS; k += 2) file[36 + 12 * k] = 1;
    memcpy(file + sizeof file - sizeof trailer, trailer, sizeof trailer);
}

static void call(void) {
    lepugaso_answer a;
    switch (way) {
    case CHECK: a = lepugaso_check(file, sizeof file); break;
    case PLAN_ORDER: a = lepugaso_plan_order(file, sizeof file, 2, order, MEMBERS); break;
    default: a = lepugaso_check_order(file, sizeof file, 2, order, MEMBERS);
    }
    if (a.refusal || a.value != (way == CHECK ? 3 : way == PLAN_ORDER ? MEMBERS : NEW_END)) exit(1);
}

static double microseconds(void) {
    struct timespec t;
    clock_gettime(CLOCK_MONOTONIC, &t);
    return (double)t.tv_sec * 1e6 + (double)t.tv_nsec / 1e3;
}

int main(void) {
    printf("%8s %10s %12s %12s   microseconds\n%8d", "members", "check", "plan_order", "check_order", MEMBERS);
    fill();
    for (way = 0; way < CALLS; way++) {
        double best = 1e9;
        for (int n = 0; n < TIMES; n++) {
            double began = microseconds();
            call();
            double took = microseconds() - began;
            if (took < best) best = took;
        }
        printf(" %*.2f", way == CHECK ? 10 : 12, best);
    }
    printf("\n");
    return 0;
}
