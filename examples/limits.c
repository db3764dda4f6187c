/* The limits block of a receiver board, as its shader declares it:
 *
 *     struct Limits { board: u32, position: vec3<f32>, frost: f32, window: vec2<f32>, on: u32 }
 *
 * Where does each member lie, and where are the gaps? A view of each member tells, and the layout how far the blocks of an array lie
 * apart. The shader has the block as a uniform buffer: may it live there, and would it with another type for `window`? Then the program
 * fills a block and reads it back, and sets the frost limit alone, by its path.
 */
#include <inttypes.h>
#include <stdio.h>
#include <string.h>

#include "layout_file.h"
#include "lepugaso.h"

static const uint8_t limits[] = {
    U32,          /* 0 */
    F32,          /* 1 */
    VECTOR(3, 1), /* 2: vec3<f32> */
    VECTOR(2, 1), /* 3: vec2<f32> */
    STRUCT(0, 5), /* 4: Limits */
    MEMBER(0), MEMBER(2), MEMBER(1), MEMBER(3), MEMBER(0),
    TRAILER(5, 5),
};
enum { LIMITS = 4, SIZE = 48, WORDS = 8 };

static const struct {
    const char *name, *type;
    uint32_t entry;
} members[] = {{"board", "u32", 0}, {"position", "vec3<f32>", 2}, {"frost", "f32", 1}, {"window", "vec2<f32>", 3}, {"on", "u32", 0}};
enum { BOARD, POSITION, FROST, WINDOW, ON, MEMBERS };

/* The same block with @align(12) on `frost`, which WGSL does not allow. */
static const uint8_t misaligned[] = {
    U32, F32, VECTOR(3, 1), STRUCT(0, 3), MEMBER(0), MEMBER(2), MEMBER_ALIGN(1, 12), TRAILER(4, 3),
};

/* The same block with another type for `window`. Of the last two it is struct Hours { from: f32, to: f32 }. */
static const uint8_t two_f32[] = {
    U32,       F32,       VECTOR(3, 1), ARRAY(1, 2), STRUCT(0, 5), /* Limits is entry 4 */
    MEMBER(0), MEMBER(2), MEMBER(1),    MEMBER(3),   MEMBER(0),    TRAILER(5, 5),
};
static const uint8_t two_vec4[] = {
    U32,       F32,       VECTOR(3, 1), VECTOR(4, 1), ARRAY(3, 2), STRUCT(0, 5), /* Limits is entry 5 */
    MEMBER(0), MEMBER(2), MEMBER(1),    MEMBER(4),    MEMBER(0),   TRAILER(6, 5),
};
static const uint8_t hours[] = {
    U32,       F32,       VECTOR(3, 1), STRUCT(5, 2), STRUCT(0, 5), /* Limits is entry 4 */
    MEMBER(0), MEMBER(2), MEMBER(1),    MEMBER(3),    MEMBER(0),    MEMBER(1), MEMBER(1), TRAILER(5, 7),
};
static const uint8_t hours_of_16[] = {
    U32,       F32,       VECTOR(3, 1), STRUCT(5, 2),       STRUCT(0, 5), /* Limits is entry 4 */
    MEMBER(0), MEMBER(2), MEMBER(1),    MEMBER_SIZE(3, 16), MEMBER(0),    MEMBER(1), MEMBER(1), TRAILER(5, 7),
};

static const struct block {
    const char *window;
    const uint8_t *file;
    size_t file_len;
    uint32_t entry;
} blocks[] = {
    {"window: vec2<f32>", limits, sizeof limits, LIMITS},
    {"window: array<f32, 2>", two_f32, sizeof two_f32, 4},
    {"window: array<vec4<f32>, 2>", two_vec4, sizeof two_vec4, 5},
    {"window: Hours", hours, sizeof hours, 4},
    {"@size(16) window: Hours", hours_of_16, sizeof hours_of_16, 4},
};
enum { BLOCKS = sizeof blocks / sizeof blocks[0] };

static void print_gap(size_t from, size_t to, const char *where, const char *name) {
    if (from < to) printf("%6zu  %4zu         (gap %s%s)\n", from, to - from, where, name);
}

/* A row of 16 bytes of a block. */
static void print_row(const uint8_t *block, size_t at) {
    printf("%6zu", at);
    for (size_t k = at; k < at + 16; k++) printf("%s%02x", k % 4 ? " " : "  ", block[k]);
}

/* An f32 is written and read as its bits. */
static uint32_t bits(float number) {
    uint32_t word;
    memcpy(&word, &number, sizeof word);
    return word;
}

static double number(uint32_t word) {
    float number;
    memcpy(&number, &word, sizeof number);
    return number;
}

/* Where the members lie; 0 if the library answers everything. */
static int print_layout(const uint8_t *block) {
    lepugaso_layout whole;
    size_t end = 0;
    if (lepugaso_layout_of(limits, sizeof limits, LIMITS, &whole).refusal || whole.size != SIZE) return 1;
    printf("offset  size  align  member\n");
    for (uint32_t k = 0; k < MEMBERS; k++) {
        uint32_t path[] = {LEPUGASO_MEMBER(k)};
        const uint8_t *part;
        size_t length;
        lepugaso_answer place = lepugaso_view(limits, sizeof limits, LIMITS, path, 1, block, SIZE, &part, &length);
        lepugaso_answer align = lepugaso_align(limits, sizeof limits, members[k].entry);
        if (place.refusal || align.refusal) return 1;
        size_t start = (size_t)(part - block);
        print_gap(end, start, "before ", members[k].name);
        printf("%6zu  %4zu  %5" PRIu64 "  %s: %s\n", start, length, align.value, members[k].name, members[k].type);
        end = start + length;
    }
    print_gap(end, SIZE, "at the end", "");
    printf("        %4d  %5" PRIu64 "  struct Limits\n\n", SIZE, whole.align);
    return 0;
}

/* How far the elements of an array begin from each other: of blocks, and of positions, which are shorter than that. */
static int print_strides(void) {
    lepugaso_layout block, position;
    if (lepugaso_layout_of(limits, sizeof limits, LIMITS, &block).refusal) return 1;
    if (lepugaso_layout_of(limits, sizeof limits, members[POSITION].entry, &position).refusal) return 1;
    printf("in an array: a Limits every %" PRIu64 " bytes, a %s of %" PRIu64 " bytes every %" PRIu64 "\n\n", block.stride,
           members[POSITION].type, position.size, position.stride);
    return 0;
}

/* Where a member of such a block lies. */
static uint64_t offset(const struct block *b, uint32_t member) {
    uint32_t path[] = {LEPUGASO_MEMBER(member)};
    static const uint8_t bytes[128];
    const uint8_t *part;
    size_t length;
    return lepugaso_view(b->file, b->file_len, b->entry, path, 1, bytes, sizeof bytes, &part, &length).value;
}

/* Which of the blocks may live in a uniform buffer. A refusal names the entry at fault: Limits itself if a member stands wrong in it, or
 * what a member is made of, here window's array. */
static int print_uniform(void) {
    printf("Limits as a uniform buffer, Hours a struct of two f32:\n");
    for (const struct block *b = blocks; b < blocks + BLOCKS; b++) {
        lepugaso_answer may = lepugaso_uniform(b->file, b->file_len, b->entry);
        printf("  %-27s  ", b->window);
        if (!may.refusal) {
            printf("accepted, on at offset %" PRIu64 "\n", offset(b, ON));
            continue;
        }
        if (may.refusal != LEPUGASO_REFUSED_UNIFORM) return 1;
        printf("refused %" PRIu32 " at entry %" PRIu32 " (LEPUGASO_REFUSED_UNIFORM)\n%31s", may.refusal, may.place, "");
        if (may.place == b->entry) {
            uint64_t window = offset(b, WINDOW);
            printf("in Limits, on at offset %" PRIu64 " follows a struct at %" PRIu64 ", and may not start before %" PRIu64 "\n",
                   offset(b, ON), window, window + 16);
        } else {
            lepugaso_layout f32;
            if (lepugaso_layout_of(b->file, b->file_len, members[FROST].entry, &f32).refusal) return 1;
            printf("window has an f32 every %" PRIu64 " bytes, and an array here needs 16 or a multiple of it\n", f32.stride);
        }
    }
    printf("\n");
    return 0;
}

/* A block from its words, one for each scalar in order, and back; 0 if both are answered. */
static int print_block(uint8_t *block) {
    uint32_t words[] = {7, bits(12), bits(4.5f), bits(0.25f), bits(-1.5f), bits(20), bits(7), 1}, read[WORDS];
    lepugaso_answer filled = lepugaso_write(limits, sizeof limits, LIMITS, words, WORDS, block, SIZE);
    lepugaso_answer found = lepugaso_read(limits, sizeof limits, LIMITS, block, SIZE, read, WORDS);
    if (filled.refusal || found.refusal) return 1;

    printf("%d words fill %" PRIu64 " bytes:\n", WORDS, filled.value);
    for (size_t at = 0; at < filled.value; at += 16) {
        print_row(block, at);
        printf("\n");
    }
    printf("%" PRIu64 " words read: board %" PRIu32 " at (%g, %g, %g), frost below %g from %g to %g o'clock, heater %s\n\n", found.value,
           read[0], number(read[1]), number(read[2]), number(read[3]), number(read[4]), number(read[5]), number(read[6]),
           read[7] ? "on" : "off");
    return 0;
}

/* The frost limit alone, by its path; 0 if all is answered and every other byte stays. */
static int print_set(uint8_t *block) {
    uint32_t path[] = {LEPUGASO_MEMBER(FROST)}, word[] = {bits(-2.3f)}, read[WORDS];
    uint8_t before[SIZE];
    memcpy(before, block, SIZE);
    lepugaso_answer set = lepugaso_set(limits, sizeof limits, LIMITS, path, 1, word, 1, block, SIZE);
    lepugaso_answer found = lepugaso_read(limits, sizeof limits, LIMITS, block, SIZE, read, WORDS);
    if (set.refusal || found.refusal) return 1;

    size_t changed = 0;
    for (size_t k = 0; k < SIZE; k++) {
        if (before[k] == block[k]) continue;
        if (k < set.value || k >= set.value + 4) return 1;
        changed++;
    }
    printf("frost, at offset %" PRIu64 ", set to -2.3:\n", set.value);
    print_row(before, 16);
    printf("  before\n");
    print_row(block, 16);
    printf("  after\n");
    printf("%zu of %d bytes changed, none outside frost; read: (%g, %g, %g), frost below %g from %g to %g o'clock\n\n", changed, SIZE,
           number(read[1]), number(read[2]), number(read[3]), number(read[4]), number(read[5]), number(read[6]));
    return 0;
}

static void print_refusals(uint8_t *block) {
    uint32_t words[WORDS], path[] = {LEPUGASO_MEMBER(POSITION), 3}, word[] = {bits(-2.3f)};
    lepugaso_answer cut = lepugaso_read(limits, sizeof limits, LIMITS, block, 44, words, WORDS);
    printf("without the gap at the end: refused %" PRIu32 "%s\n", cut.refusal,
           cut.refusal == LEPUGASO_REFUSED_SHORT_BUFFER ? " (LEPUGASO_REFUSED_SHORT_BUFFER)" : "");
    lepugaso_answer past = lepugaso_set(limits, sizeof limits, LIMITS, path, 2, word, 1, block, SIZE);
    printf("position[3] set to -2.3: refused %" PRIu32 " at step %" PRIu32 "%s\n", past.refusal, past.place,
           past.refusal == LEPUGASO_REFUSED_INDEX ? " (LEPUGASO_REFUSED_INDEX)" : "");
    lepugaso_answer given = lepugaso_size(misaligned, sizeof misaligned, 3);
    printf("with @align(12) on frost: refused %" PRIu32 " at entry %" PRIu32 "%s\n", given.refusal, given.place,
           given.refusal == LEPUGASO_REFUSED_GIVEN ? " (LEPUGASO_REFUSED_GIVEN)" : "");
}

int main(void) {
    uint8_t block[SIZE];
    memset(block, 0xFF, SIZE);
    if (print_layout(block) || print_strides() || print_uniform() || print_block(block) || print_set(block)) return 1;
    print_refusals(block);
    return 0;
}
