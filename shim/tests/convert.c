/* Literals converted: each case of document 02 and each edge as numbers written out; every kind to every other; every f16 and the middle
 * between every two; and any literals beside the processor's own conversions and beside two models that round as the text says it: of all
 * numbers that the target has the two around the literal are looked for, and the nearer one is taken. */
#include <stdlib.h>

#include "test.h"

#define COUNT(list) (sizeof(list) / sizeof(list)[0])

/* Document 01's numbers of the scalars. */
enum {
    A_BOOL = 0,
    AN_I32 = 1,
    A_U32 = 2,
    AN_F32 = 3,
    AN_F16 = 4,
    AN_INT = 5,  /* abstract int, an i64 */
    A_FLOAT = 6, /* abstract float, an f64 */
    AN_I64 = 13,
    A_U64 = 14,
    AN_F64 = 15
};

enum { MILLION = 1000000 };

/* ---- numbers and their bits */

static uint64_t of_f64(double number) {
    uint64_t bits;
    memcpy(&bits, &number, sizeof bits);
    return bits;
}

static double f64_of(uint64_t bits) {
    double number;
    memcpy(&number, &bits, sizeof number);
    return number;
}

static uint32_t of_f32(float number) {
    uint32_t bits;
    memcpy(&bits, &number, sizeof bits);
    return bits;
}

static float f32_of(uint32_t bits) {
    float number;
    memcpy(&number, &bits, sizeof number);
    return number;
}

static int64_t i64_of(uint64_t bits) {
    int64_t number;
    memcpy(&number, &bits, sizeof number);
    return number;
}

/* xorshift: 64 bits that look like any others */
static uint64_t next_bits(void) {
    static uint64_t bits = 88172645463325252u;
    bits ^= bits << 13;
    bits ^= bits >> 7;
    bits ^= bits << 17;
    return bits;
}

/* any of 0 to n - 1 */
static uint32_t below(uint32_t n) { return (uint32_t)((next_bits() >> 32) * n >> 32); }

/* ---- one conversion, held to what it must be */

static const uint64_t NONE = UINT64_MAX; /* refused, where a result of 32 bits or fewer is expected */

static void converts(int line, uint32_t from, uint64_t bits, uint32_t to, int refused, uint64_t expected) {
    lepugaso_answer a = lepugaso_convert(from, bits, to);
    uint32_t refusal = refused ? LEPUGASO_REFUSED_CONVERSION : 0;
    uint64_t value = refused ? 0 : expected;
    if (a.refusal == refusal && a.place == 0 && a.value == value) return;
    char call[80];
    snprintf(call, sizeof call, "lepugaso_convert(%" PRIu32 ", 0x%" PRIx64 ", %" PRIu32 ")", from, bits, to);
    expect(__FILE__, line, call, a, refusal, 0, value);
    if (failures >= 100) exit(1); /* what is wrong once may be wrong a million times */
}

#define GIVES(from, bits, to, expected) converts(__LINE__, from, bits, to, 0, expected)
#define REFUSED(from, bits, to) converts(__LINE__, from, bits, to, 1, 0)

/* An abstract int, an abstract float, as numbers. */
#define INT(number, to, expected) GIVES(AN_INT, (uint64_t)(INT64_C(number)), to, expected)
#define NO_INT(number, to) REFUSED(AN_INT, (uint64_t)(INT64_C(number)), to)
#define FLOAT(number, to, expected) GIVES(A_FLOAT, of_f64(number), to, expected)
#define NO_FLOAT(number, to) REFUSED(A_FLOAT, of_f64(number), to)

/* ---- numbers written out */

static void ints(void) {
    /* to i32 and u32: all that they have, and nothing beside it */
    INT(0, AN_I32, 0);
    INT(1, AN_I32, 1);
    INT(-1, AN_I32, 0xFFFFFFFF);
    INT(-2, AN_I32, 0xFFFFFFFE);
    INT(2147483647, AN_I32, 0x7FFFFFFF);
    NO_INT(2147483648, AN_I32);
    INT(-2147483648, AN_I32, 0x80000000);
    NO_INT(-2147483649, AN_I32);
    NO_INT(4294967295, AN_I32);
    NO_INT(4294967296, AN_I32);
    NO_INT(-4294967295, AN_I32);
    NO_INT(-4294967296, AN_I32);
    INT(0, A_U32, 0);
    INT(1, A_U32, 1);
    INT(2147483648, A_U32, 0x80000000);
    INT(4294967295, A_U32, 0xFFFFFFFF);
    NO_INT(4294967296, A_U32);
    NO_INT(4294967297, A_U32);
    NO_INT(-1, A_U32);
    NO_INT(-2147483648, A_U32);
    NO_INT(-4294967295, A_U32);
    NO_INT(-4294967296, A_U32);
    for (uint32_t to = AN_I32; to <= A_U32; to++) {
        REFUSED(AN_INT, INT64_MAX, to);
        REFUSED(AN_INT, UINT64_C(1) << 63, to);
        for (uint32_t bit = 32; bit < 64; bit++) REFUSED(AN_INT, (UINT64_C(1) << bit) + 7, to);
    }

    /* zero is positive zero */
    INT(0, AN_F16, 0);
    INT(0, AN_F32, 0);
    INT(0, A_FLOAT, 0);
    INT(1, AN_F16, 0x3C00);
    INT(1, AN_F32, 0x3F800000);
    INT(1, A_FLOAT, 0x3FF0000000000000);
    INT(-1, AN_F16, 0xBC00);
    INT(-1, AN_F32, 0xBF800000);
    INT(-1, A_FLOAT, 0xBFF0000000000000);

    /* f16 has 11 digits, f32 24, f64 53: up to there as they are, then ties to even, and just beside a tie to the nearer */
    INT(2047, AN_F16, 0x67FF);
    INT(2048, AN_F16, 0x6800);
    INT(2049, AN_F16, 0x6800);
    INT(2050, AN_F16, 0x6801);
    INT(2051, AN_F16, 0x6802);
    INT(-2049, AN_F16, 0xE800);
    INT(-2051, AN_F16, 0xE802);
    INT(4095, AN_F16, 0x6C00);
    INT(4097, AN_F16, 0x6C00);
    INT(4098, AN_F16, 0x6C00);
    INT(4099, AN_F16, 0x6C01);
    INT(4101, AN_F16, 0x6C01);
    INT(4102, AN_F16, 0x6C02);
    INT(16777215, AN_F32, 0x4B7FFFFF);
    INT(16777216, AN_F32, 0x4B800000);
    INT(16777217, AN_F32, 0x4B800000); /* 2^24 + 1 */
    INT(16777218, AN_F32, 0x4B800001);
    INT(16777219, AN_F32, 0x4B800002); /* 2^24 + 3 */
    INT(-16777217, AN_F32, 0xCB800000);
    INT(-16777219, AN_F32, 0xCB800002);
    INT(33554433, AN_F32, 0x4C000000);
    INT(33554434, AN_F32, 0x4C000000);
    INT(33554435, AN_F32, 0x4C000001);
    INT(9007199254740991, A_FLOAT, 0x433FFFFFFFFFFFFF);
    INT(9007199254740992, A_FLOAT, 0x4340000000000000);
    INT(9007199254740993, A_FLOAT, 0x4340000000000000); /* 2^53 + 1 */
    INT(9007199254740994, A_FLOAT, 0x4340000000000001);
    INT(9007199254740995, A_FLOAT, 0x4340000000000002);
    INT(-9007199254740993, A_FLOAT, 0xC340000000000000);
    INT(-9007199254740995, A_FLOAT, 0xC340000000000002);
    /* 2^24 + 1 as the highest digits of a number: a tie, and one more by its lowest digit; by way of an f64 that one would be lost */
    INT(0x2000002000000000, AN_F32, 0x5E000000);
    INT(0x2000002000000001, AN_F32, 0x5E000001);
    INT(0x2000001FFFFFFFFF, AN_F32, 0x5E000000);
    INT(-0x2000002000000001, AN_F32, 0xDE000001);

    /* the least and the greatest */
    INT(9223372036854775807, AN_F32, 0x5F000000);
    INT(9223372036854775807, A_FLOAT, 0x43E0000000000000);
    NO_INT(9223372036854775807, AN_F16);
    GIVES(AN_INT, UINT64_C(1) << 63, AN_F32, 0xDF000000);
    GIVES(AN_INT, UINT64_C(1) << 63, A_FLOAT, 0xC3E0000000000000);
    REFUSED(AN_INT, UINT64_C(1) << 63, AN_F16);
    GIVES(AN_INT, (UINT64_C(1) << 63) + 1, AN_F32, 0xDF000000);
    GIVES(AN_INT, (UINT64_C(1) << 63) + 1, A_FLOAT, 0xC3E0000000000000);
    INT(9223371761976868863, AN_F32, 0x5EFFFFFF);
    INT(9223371761976868864, AN_F32, 0x5F000000); /* 2^63 - 2^38, the middle between the last f32 below 2^63 and that */
    INT(9223371761976868864, A_FLOAT, 0x43DFFFFFF0000000);

    /* the edge of f16 */
    INT(65503, AN_F16, 0x7BFF);
    INT(65504, AN_F16, 0x7BFF);
    INT(65519, AN_F16, 0x7BFF);
    NO_INT(65520, AN_F16);
    NO_INT(65521, AN_F16);
    NO_INT(65535, AN_F16);
    NO_INT(65536, AN_F16);
    NO_INT(65537, AN_F16);
    INT(-65519, AN_F16, 0xFBFF);
    NO_INT(-65520, AN_F16);
    NO_INT(-65536, AN_F16);
    NO_INT(4294967297, AN_F16);
    NO_INT(-4294967295, AN_F16);
}

static void floats(void) {
    FLOAT(0.0, AN_F16, 0);
    FLOAT(0.0, AN_F32, 0);
    FLOAT(-0.0, AN_F16, 0x8000);
    FLOAT(-0.0, AN_F32, 0x80000000);
    FLOAT(1.0, AN_F16, 0x3C00);
    FLOAT(1.0, AN_F32, 0x3F800000);
    FLOAT(-2.5, AN_F16, 0xC100);
    FLOAT(-2.5, AN_F32, 0xC0200000);
    FLOAT(0.1, AN_F16, 0x2E66);
    FLOAT(0.1, AN_F32, 0x3DCCCCCD);
    FLOAT(-0.1, AN_F16, 0xAE66);
    FLOAT(-0.1, AN_F32, 0xBDCCCCCD);

    /* ties to even, and every digit counts: the lowest too, which an f32 on the way would drop */
    FLOAT(0x1.002p0, AN_F16, 0x3C00);
    FLOAT(0x1.006p0, AN_F16, 0x3C02);
    FLOAT(0x1.0020000001p0, AN_F16, 0x3C01); /* 1 + 2^-11 + 2^-40 */
    FLOAT(0x1.0020000000001p0, AN_F16, 0x3C01);
    FLOAT(0x1.001FFFFFFFFFFp0, AN_F16, 0x3C00);
    FLOAT(0x1.0060000000001p0, AN_F16, 0x3C02);
    FLOAT(0x1.005FFFFFFFFFFp0, AN_F16, 0x3C01);
    FLOAT(-0x1.0020000000001p0, AN_F16, 0xBC01);
    FLOAT(-0x1.006p0, AN_F16, 0xBC02);
    FLOAT(0x1.000001p0, AN_F32, 0x3F800000);
    FLOAT(0x1.000003p0, AN_F32, 0x3F800002);
    FLOAT(0x1.0000010000001p0, AN_F32, 0x3F800001);
    FLOAT(0x1.000000FFFFFFFp0, AN_F32, 0x3F800000);
    FLOAT(0x1.0000030000001p0, AN_F32, 0x3F800002);
    FLOAT(0x1.000002FFFFFFFp0, AN_F32, 0x3F800001);
    FLOAT(-0x1.0000010000001p0, AN_F32, 0xBF800001);
    FLOAT(16777217.0, AN_F32, 0x4B800000);
    FLOAT(16777219.0, AN_F32, 0x4B800002);
    FLOAT(2049.0, AN_F16, 0x6800);
    FLOAT(2051.0, AN_F16, 0x6802);
    /* all digits carry into the next power of two */
    FLOAT(0x1.FFFFFFFFFFFFFp0, AN_F16, 0x4000);
    FLOAT(0x1.FFFFFFFFFFFFFp0, AN_F32, 0x40000000);
    FLOAT(0x1.FFEp0, AN_F16, 0x4000);
    FLOAT(0x1.FFDFFFFFFFFFFp0, AN_F16, 0x3FFF);

    /* the largest: 65,504 and FLT_MAX, and the middle between each and what would come next */
    FLOAT(65504.0, AN_F16, 0x7BFF);
    FLOAT(65519.0, AN_F16, 0x7BFF);
    FLOAT(0x1.FFDFFFFFFFFFFp15, AN_F16, 0x7BFF);
    NO_FLOAT(65520.0, AN_F16);
    NO_FLOAT(0x1.FFE0000000001p15, AN_F16);
    NO_FLOAT(65536.0, AN_F16);
    NO_FLOAT(131072.0, AN_F16);
    FLOAT(-0x1.FFDFFFFFFFFFFp15, AN_F16, 0xFBFF);
    NO_FLOAT(-65520.0, AN_F16);
    NO_FLOAT(-65536.0, AN_F16);
    FLOAT(0x1.FFFFFEp127, AN_F32, 0x7F7FFFFF);
    FLOAT(0x1.FFFFFEFFFFFFFp127, AN_F32, 0x7F7FFFFF);
    NO_FLOAT(0x1.FFFFFFp127, AN_F32);
    NO_FLOAT(0x1.FFFFFF0000001p127, AN_F32);
    NO_FLOAT(0x1p128, AN_F32);
    NO_FLOAT(0x1p129, AN_F32);
    FLOAT(-0x1.FFFFFEFFFFFFFp127, AN_F32, 0xFF7FFFFF);
    NO_FLOAT(-0x1.FFFFFFp127, AN_F32);
    NO_FLOAT(-0x1p128, AN_F32);
    for (uint32_t to = AN_F32; to <= AN_F16; to++) {
        NO_FLOAT(0x1.FFFFFFFFFFFFFp1023, to);
        NO_FLOAT(-0x1.FFFFFFFFFFFFFp1023, to);
        /* infinite, and NaN: quiet, with a sign, with the lowest bit alone, with all */
        REFUSED(A_FLOAT, 0x7FF0000000000000, to);
        REFUSED(A_FLOAT, 0xFFF0000000000000, to);
        REFUSED(A_FLOAT, 0x7FF8000000000000, to);
        REFUSED(A_FLOAT, 0xFFF8000000000000, to);
        REFUSED(A_FLOAT, 0x7FF0000000000001, to);
        REFUSED(A_FLOAT, 0xFFFFFFFFFFFFFFFF, to);
    }

    /* the smallest: below 2^-14 and 2^-126 the steps get no smaller */
    FLOAT(0x1p-14, AN_F16, 0x0400);
    FLOAT(0x1.FF8p-15, AN_F16, 0x03FF);
    FLOAT(0x1.FFCp-15, AN_F16, 0x0400);
    FLOAT(0x1.FFBFFFFFFFFFFp-15, AN_F16, 0x03FF);
    FLOAT(0x1p-15, AN_F16, 0x0200);
    FLOAT(0x1.004p-15, AN_F16, 0x0200);
    FLOAT(0x1.00Cp-15, AN_F16, 0x0202);
    FLOAT(0x1p-23, AN_F16, 2);
    FLOAT(0x1.8p-24, AN_F16, 2);
    FLOAT(0x1.7FFFFFFFFFFFFp-24, AN_F16, 1);
    FLOAT(0x1.4p-23, AN_F16, 2);
    FLOAT(0x1.4000000000001p-23, AN_F16, 3);
    FLOAT(0x1p-24, AN_F16, 1);
    FLOAT(0x1.FFFFFFFFFFFFFp-25, AN_F16, 1);
    FLOAT(0x1.0000000000001p-25, AN_F16, 1);
    FLOAT(0x1p-25, AN_F16, 0);
    FLOAT(0x1.FFFFFFFFFFFFFp-26, AN_F16, 0);
    FLOAT(-0x1p-24, AN_F16, 0x8001);
    FLOAT(-0x1.0000000000001p-25, AN_F16, 0x8001);
    FLOAT(-0x1p-25, AN_F16, 0x8000);
    FLOAT(-0x1p-26, AN_F16, 0x8000);
    FLOAT(0x1p-126, AN_F32, 0x00800000);
    FLOAT(0x1.FFFFFCp-127, AN_F32, 0x007FFFFF);
    FLOAT(0x1.FFFFFEp-127, AN_F32, 0x00800000);
    FLOAT(0x1.FFFFFDFFFFFFFp-127, AN_F32, 0x007FFFFF);
    FLOAT(0x1p-127, AN_F32, 0x00400000);
    FLOAT(0x1.000002p-127, AN_F32, 0x00400000);
    FLOAT(0x1.000006p-127, AN_F32, 0x00400002);
    FLOAT(0x1.8p-149, AN_F32, 2);
    FLOAT(0x1.7FFFFFFFFFFFFp-149, AN_F32, 1);
    FLOAT(0x1p-149, AN_F32, 1);
    FLOAT(0x1.0000000000001p-150, AN_F32, 1);
    FLOAT(0x1p-150, AN_F32, 0);
    FLOAT(0x1.FFFFFFFFFFFFFp-151, AN_F32, 0);
    FLOAT(-0x1p-149, AN_F32, 0x80000001);
    FLOAT(-0x1.0000000000001p-150, AN_F32, 0x80000001);
    FLOAT(-0x1p-150, AN_F32, 0x80000000);
    FLOAT(-0x1p-151, AN_F32, 0x80000000);
    /* an f64's own smallest */
    for (uint32_t to = AN_F32; to <= AN_F16; to++) {
        uint64_t minus = to == AN_F32 ? 0x80000000 : 0x8000;
        GIVES(A_FLOAT, 1, to, 0);
        GIVES(A_FLOAT, 0x8000000000000001, to, minus);
        GIVES(A_FLOAT, 0x000FFFFFFFFFFFFF, to, 0);
        GIVES(A_FLOAT, 0x800FFFFFFFFFFFFF, to, minus);
        GIVES(A_FLOAT, 0x0010000000000000, to, 0);
    }
}

/* ---- every kind to every kind */

static const struct {
    uint32_t kind, width;
} scalars[] = {{A_BOOL, 1},  {AN_I32, 32},  {A_U32, 32},  {AN_F32, 32}, {AN_F16, 16},
               {AN_INT, 64}, {A_FLOAT, 64}, {AN_I64, 64}, {A_U64, 64},  {AN_F64, 64}};

static const struct {
    uint32_t from, to;
} conversions[] = {{AN_INT, A_FLOAT}, {AN_INT, AN_I32},  {AN_INT, A_U32},  {AN_INT, AN_F32},
                   {AN_INT, AN_F16},  {A_FLOAT, AN_F32}, {A_FLOAT, AN_F16}};

static uint32_t width_of(uint32_t kind) {
    for (size_t k = 0; k < COUNT(scalars); k++) {
        if (scalars[k].kind == kind) return scalars[k].width;
    }
    return 0;
}

static int is_conversion(uint32_t from, uint32_t to) {
    for (size_t k = 0; k < COUNT(conversions); k++) {
        if (conversions[k].from == from && conversions[k].to == to) return 1;
    }
    return 0;
}

/* A kind to itself is its low bits; those that are above it in `bits` are gone. Two kinds without a conversion are refused, whatever the
 * bits. Those with one are elsewhere. */
static void any_kinds(uint32_t from, uint64_t bits, uint32_t to) {
    uint32_t width = width_of(from);
    if (from == to && width) {
        GIVES(from, bits, to, width == 64 ? bits : bits & ((UINT64_C(1) << width) - 1));
    } else if (!is_conversion(from, to)) {
        REFUSED(from, bits, to);
    }
}

static void kinds(void) {
    static const uint64_t patterns[] = {
        0, 1, 2, 3, 7, 0x3C00, 0x7C00, 0x7E00, 0x8000, 0xFC00, 0xFFFF, 0x10000, 0x3F800000, 0x7F800000, 0x7FC00000, 0x80000000, 0xFF800000,
        0xFFFFFFFF, 0x100000000, 0x123456789ABCDEF0, 0x3FF0000000000000, 0x7FF0000000000000, 0x7FF0000000000001, 0x7FF8000000000000,
        0x8000000000000000, 0xFFF0000000000000, 0xFFFFFFFF00000000, 0xFFFFFFFFFFFF0000, 0xFFFFFFFFFFFFFFFE, 0xFFFFFFFFFFFFFFFF};
    /* All up to 20, and 0 to 15 with each higher bit. */
    uint32_t numbers[21 + 16 * 28 + 3], many = 0;
    for (; many < 21; many++) numbers[many] = many;
    for (uint32_t bit = 4; bit < 32; bit++) {
        for (uint32_t kind = 0; kind < 16; kind++) numbers[many++] = (UINT32_C(1) << bit) + kind;
    }
    numbers[many++] = UINT32_MAX, numbers[many++] = UINT32_MAX - 9, numbers[many++] = UINT32_MAX - 10;
    HOLDS(many == COUNT(numbers));
    for (size_t i = 0; i < COUNT(numbers); i++) {
        for (size_t j = 0; j < COUNT(numbers); j++) {
            /* To itself, and among those that there are, with every pattern. */
            if (i == j || (i < 21 && j < 21)) {
                for (size_t k = 0; k < COUNT(patterns); k++) any_kinds(numbers[i], patterns[k], numbers[j]);
            }
            any_kinds(numbers[i], next_bits(), numbers[j]);
            any_kinds(numbers[i], 1, numbers[j]);
        }
    }
    for (size_t k = 0; k < COUNT(scalars); k++) {
        for (int n = 0; n < 1000; n++) any_kinds(scalars[k].kind, next_bits(), scalars[k].kind);
    }
}

/* ---- the models */

/* The numbers of an f16 that are not below 0, in the order of their bits: the first 2,048 are 2^-24 apart, each further 1,024 twice as far.
 * What would come after the last, 65,504, stands at infinity's bits. */
enum { F16_INFINITE = 0x7C00, F32_INFINITE = 0x7F800000 };
static double f16s[F16_INFINITE + 1];

static void list_f16s(void) {
    double step = 0x1p-24;
    for (uint32_t k = 0; k < F16_INFINITE; k++) {
        if (k >= 2048 && k % 1024 == 0) step *= 2;
        f16s[k + 1] = f16s[k] + step;
    }
    HOLDS(f16s[1] == 0x1p-24 && f16s[0x400] == 0x1p-14 && f16s[0x3C00] == 1 && f16s[0x3C01] == 0x1.004p0);
    HOLDS(f16s[0x7BFF] == 65504 && f16s[F16_INFINITE] == 65536);
}

static double f16_number(uint32_t bits) { return f16s[bits]; }

/* The same of an f32, which the processor knows: an f32 as an f64 is exact. */
static double f32_number(uint32_t bits) { return bits == F32_INFINITE ? 0x1p128 : (double)f32_of(bits); }

/* The bits of the number nearest to `x`, or those of infinity. The two numbers around it are found by halving; two that are neighbours have
 * a sum of at most 26 digits, so that this and twice `x` are exact. */
static uint32_t nearest(double (*number)(uint32_t), uint32_t infinite, double x) {
    if (x >= number(infinite)) return infinite;
    uint32_t low = 0, high = infinite;
    while (high - low > 1) {
        uint32_t middle = low + (high - low) / 2;
        if (number(middle) <= x) {
            low = middle;
        } else {
            high = middle;
        }
    }
    double sum = number(low) + number(high);
    if (2 * x != sum) return 2 * x < sum ? low : high;
    return low % 2 == 0 ? low : high;
}

/* An abstract float as an f16 or f32, or NONE. */
static uint64_t float_as(uint32_t to, uint64_t bits) {
    uint64_t size = bits & INT64_MAX;
    int minus = bits != size;
    if (size >= 0x7FF0000000000000) return NONE;
    if (to == AN_F16) {
        uint32_t found = nearest(f16_number, F16_INFINITE, f64_of(size));
        return found == F16_INFINITE ? NONE : found + (minus ? 0x8000u : 0u);
    }
    uint32_t found = nearest(f32_number, F32_INFINITE, f64_of(size));
    return found == F32_INFINITE ? NONE : found + (minus ? 0x80000000u : 0u);
}

/* The same as the processor has it. An f64 too large for an f32 is infinite there. */
static uint64_t float_by_processor(uint64_t bits) {
    uint32_t found = of_f32((float)f64_of(bits));
    return (found & 0x7FFFFFFF) >= F32_INFINITE ? NONE : found;
}

static void to_f16(int line, uint64_t bits) {
    uint64_t expected = float_as(AN_F16, bits);
    converts(line, A_FLOAT, bits, AN_F16, expected == NONE, expected);
}

static void to_f32(int line, uint64_t bits) {
    uint64_t expected = float_by_processor(bits);
    converts(line, A_FLOAT, bits, AN_F32, expected == NONE, expected);
}

/* Whole numbers by whole numbers: the nearest to `n`, at most 2^63, of those that have so many binary digits and then zeros. */
static uint64_t whole(uint64_t n, uint32_t digits) {
    uint64_t step = 1;
    while (n >> digits >= step) step *= 2;
    uint64_t over = n % step, low = n - over, high = low + step;
    if (over != step - over) return over < step - over ? low : high;
    return low / step % 2 == 0 ? low : high;
}

/* Whether an i64 to an f32 is rounded once. So it is by the processor; but valgrind, which stands in for it, goes by way of an f64. */
static int rounds_once(void) {
    volatile int64_t number = 0x2000002000000001;
    return of_f32((float)number) == 0x5E000001;
}

/* An abstract int to all that it converts to, beside both. What is found as a whole number has so few digits that no float rounds it. */
static void from_int(int line, uint64_t bits) {
    int64_t number = i64_of(bits);
    uint64_t size = number < 0 ? -bits : bits, sign = number < 0 ? UINT64_C(1) << 63 : 0;
    uint64_t as_f64 = of_f64((double)whole(size, 53)) | sign;
    uint32_t as_f32 = of_f32((float)whole(size, 24)) | (uint32_t)(sign >> 32);
    uint64_t as_f16 = whole(size, 11);
    hold(__FILE__, line, "the model has the processor's f64", as_f64 == of_f64((double)number));
    hold(__FILE__, line, "the model has the processor's f32", !rounds_once() || as_f32 == of_f32((float)number));
    converts(line, AN_INT, bits, A_FLOAT, 0, as_f64);
    converts(line, AN_INT, bits, AN_F32, 0, as_f32);
    /* Up to 65,504 an f16 has it. */
    converts(line, AN_INT, bits, AN_F16, as_f16 > 65504,
             as_f16 > 65504 ? 0 : nearest(f16_number, F16_INFINITE, (double)as_f16) | (uint32_t)(sign >> 48));
    converts(line, AN_INT, bits, AN_I32, number < INT32_MIN || number > INT32_MAX, bits & UINT32_MAX);
    converts(line, AN_INT, bits, A_U32, number < 0 || number > UINT32_MAX, bits & UINT32_MAX);
}

/* ---- beside the models */

/* Every number of an f16 is itself, each middle goes to the even one, and what is next to it on either side to the nearer. With these all
 * roundings to an f16 are between two that are tested. */
static void all_f16s(void) {
    for (uint32_t k = 0; k < F16_INFINITE; k++) {
        uint64_t middle = of_f64((f16s[k] + f16s[k + 1]) / 2);
        uint32_t even = k + k % 2;
        int top = k + 1 == F16_INFINITE;
        for (uint32_t minus = 0; minus < 2; minus++) {
            uint64_t sign = (uint64_t)minus << 63, low = k + 0x8000 * minus;
            GIVES(A_FLOAT, of_f64(f16s[k]) | sign, AN_F16, low);
            GIVES(A_FLOAT, (middle - 1) | sign, AN_F16, low);
            converts(__LINE__, A_FLOAT, middle | sign, AN_F16, top, even + 0x8000 * minus);
            converts(__LINE__, A_FLOAT, (middle + 1) | sign, AN_F16, top, low + 1);
        }
    }
}

/* Every abstract int around 0, as far as an f16 goes and farther. */
static void small_ints(void) {
    for (uint64_t n = 0; n < 70000; n++) {
        from_int(__LINE__, n);
        from_int(__LINE__, -n);
    }
}

/* A float with so many digits after its first: the exponents of its least and its greatest number that are not subnormal, as an f64 has
 * them. */
struct format {
    uint32_t digits, least, greatest;
};
static const struct format f16 = {10, 1023 - 14, 1023 + 15}, f32 = {23, 1023 - 126, 1023 + 127};

/* An abstract float of any bits; or about as large as the largest or the smallest of a format; or half way between two of its numbers, or
 * beside that by a digit of any place; or of few digits that are 1. */
static uint64_t any_float(const struct format *f) {
    uint64_t bits = next_bits(), sign = bits >> 63 << 63, digits = bits >> 12;
    uint32_t lowest = f->least - f->digits, exponent;
    switch (below(4)) {
    case 0: return bits;
    case 1: exponent = below(2) ? f->greatest - 1 + below(4) : lowest - 3 + below(f->digits + 6); break;
    case 2: {
        exponent = lowest + below(f->greatest - lowest + 1);
        uint32_t kept = exponent < f->least ? exponent - lowest : f->digits, dropped = 52 - kept;
        digits = digits >> dropped << dropped | UINT64_C(1) << (dropped - 1);
        if (below(3) == 0) break;
        uint64_t beside = UINT64_C(1) << below(dropped - 1);
        digits = below(2) ? digits + beside : digits - beside;
        break;
    }
    default:
        exponent = lowest - 3 + below(f->greatest - lowest + 6);
        digits = 0;
        for (uint32_t ones = below(4); ones; ones--) digits |= UINT64_C(1) << below(52);
    }
    return sign | (uint64_t)exponent << 52 | digits;
}

static void any_floats(void) {
    uint32_t refused = 0, small = 0;
    for (uint32_t n = 0; n < MILLION; n++) {
        uint64_t bits = any_float(&f32);
        to_f32(__LINE__, bits);
        /* The model, which takes longer. */
        if (n % 8 == 0) {
            uint64_t expected = float_as(AN_F32, bits);
            HOLDS(expected == float_by_processor(bits));
            refused += expected == NONE;
            small += expected != NONE && (expected & 0x7F800000) == 0;
        }
        if (n % 4 == 0) to_f16(__LINE__, any_float(&f16));
    }
    /* Each kind of answer was asked for. */
    HOLDS(refused > 10000 && small > 10000);
}

/* An abstract int of any length; or of a few digits, a one where a target drops the next, and then zeros or a place more or less. */
static uint64_t any_int(void) {
    static const uint32_t digits[] = {11, 24, 53};
    uint64_t bits = next_bits() >> (1 + below(63));
    if (below(2)) {
        uint32_t kept = digits[below(3)], dropped = 1 + below(63 - kept);
        uint64_t top = UINT64_C(1) << (kept - 1);
        bits = ((next_bits() & (top - 1)) | top) << dropped | UINT64_C(1) << (dropped - 1);
        if (dropped > 1 && below(3)) {
            uint64_t place = UINT64_C(1) << below(dropped - 1);
            bits = below(2) ? bits + place : bits - place;
        }
    }
    return below(2) ? bits : -bits;
}

static void any_ints(void) {
    for (uint32_t n = 0; n < MILLION; n++) from_int(__LINE__, n % 4 ? any_int() : next_bits());
}

int main(void) {
    list_f16s();
    ints();
    floats();
    kinds();
    all_f16s();
    small_ints();
    any_floats();
    any_ints();
    return failures != 0;
}
