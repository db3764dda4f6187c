/* The limits blocks of two receiver boards (limits.c) that were given the same limits and come back with rubbish in their gaps: compared as
 * bytes they differ, until the gaps are cleaned.
 */
#include <inttypes.h>
#include <stdio.h>
#include <string.h>

#include "layout_file.h"
#include "lepugaso.h"

static const uint8_t limits[] = {
    U32,          /* 0 */
    F32,          /* 1 */
    VECTOR(3, 1), /* 2: vec3<f32> */
    VECTOR(2, 1), /* 3: vec2<f32> */
    STRUCT(0, 5), /* 4: Limits: board, position, frost, window, on */
    MEMBER(0), MEMBER(2), MEMBER(1), MEMBER(3), MEMBER(0),
    TRAILER(5, 5),
};
enum { LIMITS = 4, SIZE = 48, WORDS = 8 };

static uint32_t bits_of(float number) {
    uint32_t bits;
    memcpy(&bits, &number, sizeof bits);
    return bits;
}

/* Whether two blocks have the same bytes, and whether they say the same. */
static int compare(const char *when, const uint8_t *north, const uint8_t *south) {
    uint32_t here[WORDS], there[WORDS];
    if (lepugaso_read(limits, sizeof limits, LIMITS, north, SIZE, here, WORDS).refusal) return 1;
    if (lepugaso_read(limits, sizeof limits, LIMITS, south, SIZE, there, WORDS).refusal) return 1;
    printf("%-19s %s bytes, %s words\n", when, memcmp(north, south, SIZE) ? "different" : "the same",
           memcmp(here, there, sizeof here) ? "different" : "the same");
    return 0;
}

static int clean(const char *when, uint8_t *block) {
    uint64_t first;
    lepugaso_answer changed = lepugaso_clean(limits, sizeof limits, LIMITS, block, SIZE, &first);
    if (changed.refusal) return 1;
    /* Where none did, the first is the size. */
    printf("%-19s %2" PRIu64 " bytes changed, %s %" PRIu64 "\n", when, changed.value, changed.value ? "the first at" : "none of", first);
    return 0;
}

int main(void) {
    const uint32_t given[WORDS] = {7, bits_of(12), bits_of(4.5f), bits_of(0.25f), bits_of(-1.5f), bits_of(20), bits_of(7), 1};
    uint8_t north[SIZE], south[SIZE];
    if (lepugaso_write(limits, sizeof limits, LIMITS, given, WORDS, north, SIZE).refusal) return 1;
    memcpy(south, north, SIZE);
    /* Bytes 4 to 15 lie before the position, 44 to 47 at the end: on one board they were never set, on the other two of them were hit. */
    memset(north + 4, 0xa5, 12);
    memset(north + 44, 0xa5, 4);
    south[9] = 1;
    south[47] = 0x80;

    if (compare("as they come back:", north, south)) return 1;
    if (clean("north cleaned:", north) || clean("south cleaned:", south)) return 1;
    if (compare("now:", north, south)) return 1;
    if (clean("north once more:", north)) return 1;
    return 0;
}
