/* The layout file of the limits block (limits.c), with names for support's tools: moved to form 2, which has a name number in each member,
 * and back to form 1, which has none. Names change no answer.
 */
#include <inttypes.h>
#include <stdio.h>
#include <string.h>

#include "layout_file.h"
#include "lepugaso.h"

static const uint8_t limits[] = {
    U32,          /* 0 */
    F32,          /* 1 */
    VECTOR(3, 1), /* 2: vec3<f32> */
    VECTOR(2, 1), /* 3: vec2<f32> */
    STRUCT(0, 5), /* 4: Limits: board, position, frost, window, on */
    MEMBER(0), MEMBER(2), MEMBER(1), MEMBER(3), MEMBER(0),
    TRAILER(5, 5),
};
enum { TYPES = 5, MEMBERS = 5, LIMITS = 4, FROST = 2, SIZE = 48, NAMED_LENGTH = sizeof limits + 4 * MEMBERS };
static const char *const members[MEMBERS] = {"board", "position", "frost", "window", "on"};

/* The name number of a member of a form 2 file: the last 4 of its 16 bytes. */
static void name(uint8_t *file, size_t member, uint32_t number) {
    const uint8_t bytes[] = {LE32(number)};
    memcpy(file + 12 * TYPES + 16 * member + 12, bytes, sizeof bytes);
}

static void show(const char *what, const uint8_t *file, size_t length) {
    static const uint32_t frost[] = {LEPUGASO_MEMBER(FROST)};
    static const uint8_t block[SIZE];
    const uint8_t *part;
    size_t part_len;
    lepugaso_answer at = lepugaso_view(file, length, LIMITS, frost, 1, block, SIZE, &part, &part_len);
    printf("%-22s %3zu bytes, ", what, length);
    if (at.refusal) printf("refused %" PRIu32 "\n", at.refusal);
    else printf("frost at offset %" PRIu64 "\n", at.value);
}

int main(void) {
    uint8_t named[NAMED_LENGTH], plain[sizeof limits];
    show("form 1:", limits, sizeof limits);
    lepugaso_answer moved = lepugaso_to_form_2(limits, sizeof limits, named, sizeof named);
    if (moved.refusal) return 1;
    show("form 2, without names:", named, moved.value);

    for (uint32_t m = 0; m < MEMBERS; m++) name(named, m, 101 + m);
    show("form 2, with names:", named, moved.value);
    for (uint32_t m = 0; m < MEMBERS; m++) printf("  %" PRIu32 " %s", 101 + m, members[m]);

    lepugaso_answer back = lepugaso_to_form_1(named, moved.value, plain, sizeof plain);
    printf("\nback to form 1:        refused %" PRIu32 " (LEPUGASO_REFUSED_NAMED): the names would be lost\n", back.refusal);

    for (uint32_t m = 0; m < MEMBERS; m++) name(named, m, 0);
    back = lepugaso_to_form_1(named, moved.value, plain, sizeof plain);
    if (back.refusal || back.value != sizeof limits) return 1;
    show("back, without names:", plain, back.value);
    printf("%s\n", memcmp(plain, limits, sizeof limits) ? "not the file that it was" : "the same bytes as at first");
    return 0;
}
