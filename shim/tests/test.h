/* What the C tests share: an answer, or a fact, held to what it must be. */
#ifndef TEST_H
#define TEST_H

#include <inttypes.h>
#include <stdio.h>
#include <string.h>

#include "layout_file.h"
#include "lepugaso.h"

static int failures;

#define EXPECT(call, refusal, place, value) expect(__FILE__, __LINE__, #call, (call), (refusal), (place), (value))
static void expect(const char *source, int line, const char *call, lepugaso_answer a, uint32_t refusal, uint32_t place, uint64_t value) {
    if (a.refusal == refusal && a.place == place && a.value == value) return;
    printf("%s:%d: %s is %" PRIu32 " at %" PRIu32 ", %" PRIu64 ", and must be %" PRIu32 " at %" PRIu32 ", %" PRIu64 "\n", source, line,
           call, a.refusal, a.place, a.value, refusal, place, value);
    fflush(stdout); /* so that a crash later on does not hide it */
    failures++;
}

#define HOLDS(fact) hold(__FILE__, __LINE__, #fact, (fact))
static void hold(const char *source, int line, const char *fact, int so) {
    if (so) return;
    printf("%s:%d: not so: %s\n", source, line, fact);
    fflush(stdout);
    failures++;
}

#endif
