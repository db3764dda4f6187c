/* The limits block of a receiver board (limits.c) on site: a grower changes the frost limit, the factory has another sheet, and the grower
 * wants the factory's limit again. A fresh block keeps what the sheet said on the day when it was made. An inherit tool asks for an
 * inheriting block by name: what is not set on site goes along with the sheet.
 */
#include <inttypes.h>
#include <stdio.h>
#include <string.h>

#include "layout_file.h"
#include "lepugaso.h"

static const uint8_t limits[] = {
    U32,          /* 0 */
    F32,          /* 1 */
    VECTOR(3, 1), /* 2: vec3<f32> */
    VECTOR(2, 1), /* 3: vec2<f32> */
    STRUCT(0, 5), /* 4: Limits: board, position, frost, window, on */
    MEMBER(0), MEMBER(2), MEMBER(1), MEMBER(3), MEMBER(0),
    TRAILER(5, 5),
};
enum { LIMITS = 4, FROST = 2, WINDOW = 3, SIZE = 48 };

static uint32_t bits_of(float number) {
    uint32_t bits;
    memcpy(&bits, &number, sizeof bits);
    return bits;
}

/* What the heater's code sees of a member: its bytes, and whose they are. */
static int ask(uint32_t member, uint64_t mask, const uint8_t *factory, const uint8_t *site, float *numbers, const char **whose) {
    const uint8_t *part;
    size_t part_len;
    lepugaso_answer at =
        lepugaso_site_member(limits, sizeof limits, LIMITS, member, mask, factory, SIZE, site, SIZE, &part, &part_len);
    if (at.refusal) return 1;
    memcpy(numbers, part, part_len);
    *whose = part == site + at.value ? "site's" : "factory's";
    return 0;
}

static int show(const char *when, uint64_t mask, const uint8_t *factory, const uint8_t *site) {
    float frost, hours[2];
    const char *whose_frost, *whose_hours;
    if (ask(FROST, mask, factory, site, &frost, &whose_frost) || ask(WINDOW, mask, factory, site, hours, &whose_hours)) return 1;
    printf("  %-19s mask %2" PRIu64 ", frost below %g, the %s; from %g to %g o'clock, the %s\n", when, mask, frost, whose_frost, hours[0],
           hours[1], whose_hours);
    return 0;
}

/* What happens to a block on site, whichever way it started. */
static int on_site(uint64_t mask, const uint8_t *sheet, const uint8_t *other_sheet, uint8_t *site) {
    const uint32_t colder[] = {bits_of(-2.5f)};
    if (show("as made:", mask, sheet, site)) return 1;
    if (lepugaso_site_set(limits, sizeof limits, LIMITS, FROST, NULL, 0, colder, 1, sheet, SIZE, site, SIZE, &mask).refusal) return 1;
    if (show("frost set on site:", mask, sheet, site)) return 1;
    if (show("another sheet:", mask, other_sheet, site)) return 1;
    if (lepugaso_site_clear(limits, sizeof limits, LIMITS, FROST, &mask).refusal) return 1;
    return show("frost cleared:", mask, other_sheet, site);
}

static int write_sheet(float frost, float from, float to, uint8_t *sheet) {
    const uint32_t words[] = {7, bits_of(12), bits_of(4.5f), bits_of(0.25f), bits_of(frost), bits_of(from), bits_of(to), 1};
    return lepugaso_write(limits, sizeof limits, LIMITS, words, 8, sheet, SIZE).refusal != 0;
}

int main(void) {
    uint8_t sheet[SIZE], other_sheet[SIZE], copy[SIZE], empty[SIZE] = {0};
    uint64_t mask;
    if (write_sheet(-1.5f, 20, 7, sheet) || write_sheet(-1, 21, 6, other_sheet)) return 1;

    printf("a fresh block:\n");
    if (lepugaso_site_fresh(limits, sizeof limits, LIMITS, sheet, SIZE, copy, SIZE, &mask).refusal) return 1;
    if (on_site(mask, sheet, other_sheet, copy)) return 1;

    printf("an inheriting block:\n");
    if (lepugaso_site_inheriting(limits, sizeof limits, LIMITS, &mask).refusal) return 1;
    if (on_site(mask, sheet, other_sheet, empty)) return 1;

    printf("a sixth member cleared: refused %" PRIu32 "\n", lepugaso_site_clear(limits, sizeof limits, LIMITS, 5, &mask).refusal);
    return 0;
}
