/* The readings of a receiver board, as its shader declares them:
 *
 *     struct Readings { board: u32, sensors: array<i32, 4>, frost: f32 }
 *
 * A sensor packs its reading into one word: a temperature in sixteenths of a degree, 12 bits and signed, its channel in 4 bits, and how
 * often it has measured in 16. The program packs such a word field by field, where it lies in the block, and unpacks all four.
 */
#include <inttypes.h>
#include <stdio.h>
#include <string.h>

#include "layout_file.h"
#include "lepugaso.h"

static const uint8_t readings[] = {
    U32,          /* 0 */
    I32,          /* 1: signed, so that its fields are */
    F32,          /* 2 */
    ARRAY(1, 4),  /* 3: array<i32, 4> */
    STRUCT(0, 3), /* 4: Readings */
    MEMBER(0), MEMBER(3), MEMBER(2),
    TRAILER(5, 3),
};
enum { READINGS = 4, SIZE = 24, SENSORS = 4 };
enum { BOARD, SENSOR_WORDS, FROST };

/* A field of a word: its first bit, and how many it has. */
typedef struct {
    uint32_t offset, count;
} field;
static const field temperature = {0, 12}, channel = {12, 4}, samples = {16, 16}, whole = {0, 32};

static lepugaso_answer extract(const uint8_t *block, uint32_t sensor, field f) {
    uint32_t path[] = {LEPUGASO_MEMBER(SENSOR_WORDS), sensor};
    return lepugaso_extract_bits(readings, sizeof readings, READINGS, path, 2, block, SIZE, f.offset, f.count);
}

static lepugaso_answer insert(uint8_t *block, uint32_t sensor, field f, int32_t number) {
    uint32_t path[] = {LEPUGASO_MEMBER(SENSOR_WORDS), sensor};
    return lepugaso_insert_bits(readings, sizeof readings, READINGS, path, 2, (uint32_t)number, f.offset, f.count, block, SIZE);
}

typedef struct {
    uint32_t word, channel, samples;
    double degrees;
} reading;

/* What a sensor says; 0 if that is answered. */
static int unpack(const uint8_t *block, uint32_t sensor, reading *out) {
    lepugaso_answer sixteenths = extract(block, sensor, temperature), word = extract(block, sensor, whole);
    if (sixteenths.refusal || word.refusal) return 1;
    out->degrees = (int32_t)(uint32_t)sixteenths.value / 16.0;
    /* Each field of an i32 is signed: channel 9 would be -7. So those that are not are taken from the word, as a u32. */
    out->word = (uint32_t)word.value;
    out->channel = lepugaso_extract_bits_u32(out->word, channel.offset, channel.count);
    out->samples = lepugaso_extract_bits_u32(out->word, samples.offset, samples.count);
    return 0;
}

/* The four bytes of a word. */
static void print_word(const uint8_t *block, uint64_t at, const char *what) {
    printf("%6" PRIu64 "  %02x %02x %02x %02x  %s\n", at, block[at], block[at + 1], block[at + 2], block[at + 3], what);
}

/* The word of sensor 1, field by field; 0 if all is answered. */
static int print_packed(uint8_t *block) {
    static const struct {
        const field *field;
        int32_t number;
        const char *what;
    } steps[] = {{&channel, 9, "channel 9, in bits 12 to 15"},
                 {&samples, 300, "300 samples, in bits 16 to 31"},
                 {&temperature, -40, "-2.5 degrees, -40 sixteenths, in bits 0 to 11"}};
    printf("sensors[1], packed:\n");
    for (size_t k = 0; k < sizeof steps / sizeof steps[0]; k++) {
        lepugaso_answer put = insert(block, 1, *steps[k].field, steps[k].number);
        if (put.refusal) return 1;
        print_word(block, put.value, steps[k].what);
    }
    printf("\n");
    return 0;
}

/* All four, unpacked; 0 if all is answered. */
static int print_unpacked(const uint8_t *block) {
    printf("sensor  word      channel  samples   degrees  were the sign lost\n");
    for (uint32_t k = 0; k < SENSORS; k++) {
        reading r;
        if (unpack(block, k, &r)) return 1;
        uint32_t lost = lepugaso_extract_bits_u32(r.word, temperature.offset, temperature.count);
        printf("%6" PRIu32 "  %08" PRIx32 "  %7" PRIu32 "  %7" PRIu32 "  %8.4f  %18.4f\n", k, r.word, r.channel, r.samples, r.degrees,
               lost / 16.0);
    }
    printf("\n");
    return 0;
}

/* A new temperature alone; 0 if all is answered and every other byte stays. */
static int print_warmer(uint8_t *block) {
    uint8_t before[SIZE];
    reading r;
    memcpy(before, block, SIZE);
    lepugaso_answer put = insert(block, 1, temperature, 12);
    if (put.refusal || unpack(block, 1, &r)) return 1;
    size_t changed = 0;
    for (size_t k = 0; k < SIZE; k++) {
        if (before[k] == block[k]) continue;
        if (k < put.value || k >= put.value + 2) return 1;
        changed++;
    }
    printf("sensors[1] warms up:\n");
    print_word(before, put.value, "before");
    print_word(block, put.value, "after");
    printf("%zu of %d bytes changed; channel %" PRIu32 ", %" PRIu32 " samples, %g degrees\n\n", changed, SIZE, r.channel, r.samples,
           r.degrees);
    return 0;
}

static void print_refusals(uint8_t *block) {
    uint32_t path[] = {LEPUGASO_MEMBER(FROST)};
    lepugaso_answer f32 = lepugaso_insert_bits(readings, sizeof readings, READINGS, path, 1, 12, 0, 12, block, SIZE);
    printf("12 bits of frost, an f32: refused %" PRIu32 "%s\n", f32.refusal,
           f32.refusal == LEPUGASO_REFUSED_WORDS ? " (LEPUGASO_REFUSED_WORDS)" : "");
    lepugaso_answer past = extract(block, 4, temperature);
    printf("the temperature of sensors[4]: refused %" PRIu32 " at step %" PRIu32 "%s\n", past.refusal, past.place,
           past.refusal == LEPUGASO_REFUSED_INDEX ? " (LEPUGASO_REFUSED_INDEX)" : "");
}

int main(void) {
    /* The board, its four sensors, of which one has nothing yet, and the frost limit. */
    static const uint32_t words[] = {7, 0x012C8158, 0, 0x012CAFFF, 0x012BB001, 0xBFC00000};
    uint8_t block[SIZE];
    if (lepugaso_write(readings, sizeof readings, READINGS, words, 6, block, SIZE).refusal) return 1;
    if (print_packed(block) || print_unpacked(block) || print_warmer(block)) return 1;
    print_refusals(block);
    return 0;
}
