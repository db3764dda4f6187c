/* Bit fields: the four calls on a number and the two at a path, beside a model that goes bit by bit. What is lent stands at the end of a
 * page after which nothing can be touched, and what is lent to be read cannot be written. */
#include "pages.h"
#include "test.h"

#define M LEPUGASO_MEMBER
#define COUNT(list) (sizeof(list) / sizeof(list)[0])

#define IS(call, number) is(__LINE__, #call, (call), (number))
static void is(int line, const char *call, int64_t number, int64_t expected) {
    if (number == expected) return;
    printf("%s:%d: %s is %" PRId64 ", and must be %" PRId64 "\n", __FILE__, line, call, number, expected);
    fflush(stdout);
    failures++;
}

static uint32_t least(uint32_t a, uint32_t b) { return a < b ? a : b; }

/* The i32 of a word's bits. */
static int32_t signed_of(uint32_t word) {
    int32_t number;
    memcpy(&number, &word, sizeof number);
    return number;
}

/* "the c bits from o, and a signed field repeats its top bit above" */
static uint32_t extracted(int is_signed, uint32_t e, uint32_t offset, uint32_t count) {
    uint32_t o = least(offset, 32), c = least(count, 32 - o), field = 0, top = 0;
    for (uint32_t k = 0; k < c; k++) {
        top = e >> (o + k) & 1;
        field |= top << k;
    }
    for (uint32_t k = c; is_signed && k < 32; k++) field |= top << k;
    return field;
}

/* "the new value's low c bits at those places and changes no other bit" */
static uint32_t inserted(uint32_t e, uint32_t newbits, uint32_t offset, uint32_t count) {
    uint32_t o = least(offset, 32), c = least(count, 32 - o);
    for (uint32_t k = 0; k < c; k++) {
        uint32_t place = UINT32_C(1) << (o + k);
        e = newbits >> k & 1 ? e | place : e & ~place;
    }
    return e;
}

/* xorshift: a word that looks like any other */
static uint32_t next_word(void) {
    static uint32_t word = 2463534242u;
    word ^= word << 13;
    word ^= word >> 17;
    word ^= word << 5;
    return word;
}

/* ---- a number */

static void edges(void) {
    /* document 02's */
    IS(lepugaso_extract_bits_i32(4095, 0, 12), -1);
    IS(lepugaso_extract_bits_i32(2048, 0, 12), -2048);
    IS(lepugaso_extract_bits_i32(2047, 0, 12), 2047);
    IS(lepugaso_extract_bits_u32(4095, 0, 12), 4095);
    IS(lepugaso_extract_bits_u32(2048, 0, 12), 2048);
    /* bits around the field are not looked at */
    IS(lepugaso_extract_bits_i32(signed_of(0xABCFFFDE), 8, 12), -1);
    IS(lepugaso_extract_bits_i32(signed_of(0xFFF7FFFF), 8, 12), 2047);
    IS(lepugaso_extract_bits_u32(0xABC12345, 8, 12), 0x123);
    /* the top bit */
    IS(lepugaso_extract_bits_i32(INT32_MIN, 31, 1), -1);
    IS(lepugaso_extract_bits_i32(INT32_MAX, 31, 1), 0);
    IS(lepugaso_extract_bits_u32(0x80000000, 31, 1), 1);
    IS(lepugaso_extract_bits_i32(INT32_MIN, 31, UINT32_MAX), -1);
    /* all bits */
    IS(lepugaso_extract_bits_i32(INT32_MIN, 0, 32), INT32_MIN);
    IS(lepugaso_extract_bits_i32(-1, 0, UINT32_MAX), -1);
    IS(lepugaso_extract_bits_u32(UINT32_MAX, 0, 33), UINT32_MAX);
    /* no bit */
    IS(lepugaso_extract_bits_i32(-1, 0, 0), 0);
    IS(lepugaso_extract_bits_i32(-1, 32, 32), 0);
    IS(lepugaso_extract_bits_i32(-1, UINT32_MAX, UINT32_MAX), 0);
    IS(lepugaso_extract_bits_u32(UINT32_MAX, 17, 0), 0);
    IS(lepugaso_extract_bits_u32(UINT32_MAX, 32, 1), 0);
    IS(lepugaso_extract_bits_u32(UINT32_MAX, UINT32_MAX, 1), 0);

    IS(lepugaso_insert_bits_u32(0xAAAAAAAA, 0x123, 8, 12), 0xAAA123AA);
    IS(lepugaso_insert_bits_u32(0, UINT32_MAX, 8, 12), 0x000FFF00);
    IS(lepugaso_insert_bits_u32(UINT32_MAX, 0, 8, 12), 0xFFF000FF);
    IS(lepugaso_insert_bits_i32(0, -1, 0, 12), 4095);
    IS(lepugaso_insert_bits_i32(-1, 0, 0, 12), -4096);
    IS(lepugaso_insert_bits_i32(0, -1, 31, 1), INT32_MIN);
    IS(lepugaso_insert_bits_i32(7, -1, 31, 2), INT32_MIN + 7);
    IS(lepugaso_insert_bits_i32(7, INT32_MIN, 0, 32), INT32_MIN);
    IS(lepugaso_insert_bits_u32(7, 0x89ABCDEF, 0, UINT32_MAX), 0x89ABCDEF);
    IS(lepugaso_insert_bits_i32(-7, 5, 0, 0), -7);
    IS(lepugaso_insert_bits_i32(-7, 5, 32, 32), -7);
    IS(lepugaso_insert_bits_u32(7, 5, UINT32_MAX, UINT32_MAX), 7);
}

static void beside_the_model(uint32_t e, uint32_t newbits, uint32_t offset, uint32_t count) {
    uint32_t after = inserted(e, newbits, offset, count);
    IS(lepugaso_extract_bits_u32(e, offset, count), extracted(0, e, offset, count));
    IS(lepugaso_extract_bits_i32(signed_of(e), offset, count), signed_of(extracted(1, e, offset, count)));
    IS(lepugaso_insert_bits_u32(e, newbits, offset, count), after);
    IS(lepugaso_insert_bits_i32(signed_of(e), signed_of(newbits), offset, count), signed_of(after));
    /* "Extracting a freshly inserted field gives it back, cut to c bits" */
    uint32_t c = least(count, 32 - least(offset, 32));
    IS(lepugaso_extract_bits_u32(after, offset, count), extracted(0, newbits, 0, c));
    IS(lepugaso_extract_bits_i32(signed_of(after), offset, count), signed_of(extracted(1, newbits, 0, c)));
}

/* Each offset and each count from 0 to 33, and larger ones that are small only in their low bits, with words of their own for each pair. */
static void all_fields(void) {
    uint32_t numbers[34 + 27 + 3], many = 0;
    for (; many < 34; many++) numbers[many] = many;
    for (uint32_t bit = 5; bit < 32; bit++) numbers[many++] = (UINT32_C(1) << bit) + 7;
    numbers[many++] = 65535, numbers[many++] = UINT32_MAX - 31, numbers[many++] = UINT32_MAX;
    HOLDS(many == COUNT(numbers));
    for (size_t i = 0; i < COUNT(numbers); i++) {
        for (size_t j = 0; j < COUNT(numbers); j++) {
            beside_the_model(0, UINT32_MAX, numbers[i], numbers[j]);
            beside_the_model(UINT32_MAX, 0, numbers[i], numbers[j]);
            beside_the_model(next_word(), next_word(), numbers[i], numbers[j]);
        }
    }
}

/* ---- at a path */

static const uint8_t types[] = {
    BOOL,             /* 0 */
    I32,              /* 1 */
    U32,              /* 2 */
    F32,              /* 3 */
    F16,              /* 4 */
    ABSTRACT_INT,     /* 5: no layout */
    ATOMIC(1),        /* 6: atomic<i32> */
    ATOMIC(2),        /* 7: atomic<u32> */
    VECTOR(3, 1),     /* 8: vec3<i32> */
    VECTOR(2, 2),     /* 9: vec2<u32> */
    VECTOR(2, 3),     /* 10: vec2<f32> */
    VECTOR(4, 4),     /* 11: vec4<f16> */
    MATRIX(2, 3, 3),  /* 12: mat2x3<f32> */
    STRUCT(0, 5),     /* 13: u32, vec3<i32>, atomic<i32>, f16, f32: at 0, 16, 28, 32, 36; 48 bytes */
    ARRAY(13, 3),     /* 14 */
    RUNTIME_ARRAY(9), /* 15: of vec2<u32> */
    STRUCT(5, 2),     /* 16: i32, runtime array of vec2<u32> */
    STRUCT(7, 2),     /* 17: u32, bool */
    RUNTIME_ARRAY(0), /* 18: of bool */
    ARRAY(7, 2),      /* 19: of atomic<u32> */
    VECTOR(3, 0),     /* 20: vec3<bool>, not storable */
    STRUCT(9, 2),     /* 21: u32, vec3<bool> */
    I64,              /* 22 */
    U64,              /* 23 */
    F64,              /* 24 */
    VECTOR(2, 23),    /* 25: vec2<u64> */
    STRUCT(11, 3),    /* 26: i64, u32, vec2<u64>: at 0, 8, 16; 32 bytes */
    MEMBER(2), MEMBER(8), MEMBER(6), MEMBER(4), MEMBER(3), /* 0 to 4 */
    MEMBER(1), MEMBER(15),                                 /* 5, 6 */
    MEMBER(2), MEMBER(0),                                  /* 7, 8 */
    MEMBER(2), MEMBER(20),                                 /* 9, 10 */
    MEMBER(22), MEMBER(2), MEMBER(25),                     /* 11 to 13 */
    TRAILER(27, 14),
};
enum { NO_ENTRY = 27, MOST = 256 };

/* What a buffer holds before a call: no two of its bytes are the same. */
static void fill(uint8_t *buf, size_t length) {
    for (size_t k = 0; k < length; k++) buf[k] = (uint8_t)(0xC5 + 75 * k);
}

static uint32_t word_at(const uint8_t *bytes) {
    return (uint32_t)bytes[0] | (uint32_t)bytes[1] << 8 | (uint32_t)bytes[2] << 16 | (uint32_t)bytes[3] << 24;
}

static void put_word(uint8_t *bytes, uint32_t word) {
    for (int k = 0; k < 4; k++) bytes[k] = (uint8_t)(word >> 8 * k);
}

static const uint32_t places[] = {0, 1, 4, 12, 20, 31, 32, 33, 64 + 4, 256 + 12, 65536 + 4, (UINT32_C(1) << 31) + 12, UINT32_MAX};

/* A path leads to an i32 or a u32 at `at` in a buffer of `length` bytes: fields of it are those of the word that stands there; a field is
 * inserted in that word, and no other byte changes. */
#define PATH(...) (const uint32_t[]){__VA_ARGS__}, sizeof((const uint32_t[]){__VA_ARGS__}) / sizeof(uint32_t)
#define WHOLE (const uint32_t *)NULL, (size_t)0
#define SIGNED_AT(at, entry, length, ...) fields(__LINE__, 1, at, entry, length, __VA_ARGS__)
#define UNSIGNED_AT(at, entry, length, ...) fields(__LINE__, 0, at, entry, length, __VA_ARGS__)
static void fields(int line, int is_signed, size_t at, uint32_t entry, size_t length, const uint32_t *path, size_t steps) {
    static const uint32_t words[] = {0, UINT32_MAX, 0x89ABCDEF, 0x00F0FF00};
    const uint8_t *file = lent(types, sizeof types);
    const void *given = lent(path, steps * sizeof *path);
    uint8_t before[MOST], expected[MOST], *buf = fresh(length);
    fill(before, length);
    const uint8_t *read = lent(before, length);
    uint32_t word = word_at(before + at);
    for (size_t i = 0; i < COUNT(places); i++) {
        for (size_t j = 0; j < COUNT(places); j++) {
            uint32_t offset = places[i], count = places[j];
            expect(__FILE__, line, "extracting",
                   lepugaso_extract_bits(file, sizeof types, entry, given, steps, read, length, offset, count), 0, 0,
                   extracted(is_signed, word, offset, count));
            for (size_t k = 0; k < COUNT(words); k++) {
                memcpy(buf, before, length);
                memcpy(expected, before, length);
                put_word(expected + at, inserted(word, words[k], offset, count));
                expect(__FILE__, line, "inserting",
                       lepugaso_insert_bits(file, sizeof types, entry, given, steps, words[k], offset, count, buf, length), 0, 0, at);
                hold(__FILE__, line, "the buffer after inserting", memcmp(buf, expected, length) == 0);
            }
        }
    }
}

/* Both calls are refused alike, and what is inserted into stays. */
#define REFUSED(entry, length, refusal, place, ...) refused(__LINE__, entry, length, refusal, place, __VA_ARGS__)
static void refused(int line, uint32_t entry, size_t length, uint32_t refusal, uint32_t place, const uint32_t *path, size_t steps) {
    const uint8_t *file = lent(types, sizeof types);
    const void *given = lent(path, steps * sizeof *path);
    uint8_t before[MOST], *buf = fresh(length);
    fill(before, length);
    fill(buf, length);
    const uint8_t *read = lent(before, length);
    for (size_t k = 0; k < COUNT(places); k++) {
        expect(__FILE__, line, "extracting", lepugaso_extract_bits(file, sizeof types, entry, given, steps, read, length, 4, places[k]),
               refusal, place, 0);
        /* newbits of more than 16 bits give no other number, to an f16 either */
        expect(__FILE__, line, "inserting",
               lepugaso_insert_bits(file, sizeof types, entry, given, steps, 0x89ABCDEF, 4, places[k], buf, length), refusal, place, 0);
    }
    hold(__FILE__, line, "the buffer after a refusal", memcmp(buf, before, length) == 0);
}

static void at_paths(void) {
    SIGNED_AT(0, 1, 4, WHOLE);
    SIGNED_AT(0, 1, 9, WHOLE);
    UNSIGNED_AT(0, 2, 4, WHOLE);
    SIGNED_AT(0, 6, 4, WHOLE);
    UNSIGNED_AT(0, 7, 4, WHOLE);
    SIGNED_AT(8, 8, 12, PATH(2));
    UNSIGNED_AT(4, 9, 8, PATH(1));
    UNSIGNED_AT(0, 13, 48, PATH(M(0)));
    SIGNED_AT(20, 13, 48, PATH(M(1), 1));
    SIGNED_AT(28, 13, 48, PATH(M(2)));
    UNSIGNED_AT(48, 14, 144, PATH(1, M(0)));
    SIGNED_AT(120, 14, 144, PATH(2, M(1), 2));
    SIGNED_AT(124, 14, 144, PATH(2, M(2)));
    UNSIGNED_AT(20, 15, 25, PATH(2, 1));
    SIGNED_AT(0, 16, 16, PATH(M(0)));
    UNSIGNED_AT(12, 16, 23, PATH(M(1), 0, 1));
    UNSIGNED_AT(16, 16, 24, PATH(M(1), 1, 0));
    UNSIGNED_AT(4, 19, 8, PATH(1));
    UNSIGNED_AT(8, 26, 32, PATH(M(1)));
}

/* The numbers of the header, written out: nothing here is the model's. */
static void as_the_header_says(void) {
    const uint8_t *file = lent(types, sizeof types);
    uint8_t *buf = fresh(4);
    put_word(buf, 0xABCDEFFF);
    EXPECT(lepugaso_extract_bits(file, sizeof types, 1, NULL, 0, buf, 4, 0, 12), 0, 0, 4294967295u);
    EXPECT(lepugaso_extract_bits(file, sizeof types, 2, NULL, 0, buf, 4, 0, 12), 0, 0, 4095);
    HOLDS((int32_t)(uint32_t)lepugaso_extract_bits(file, sizeof types, 6, NULL, 0, buf, 4, 0, 12).value == -1);
    EXPECT(lepugaso_insert_bits(file, sizeof types, 1, NULL, 0, 2048, 0, 12, buf, 4), 0, 0, 0);
    HOLDS(word_at(buf) == 0xABCDE800);
    EXPECT(lepugaso_extract_bits(file, sizeof types, 1, NULL, 0, buf, 4, 0, 12), 0, 0, 4294965248u);
    EXPECT(lepugaso_extract_bits(file, sizeof types, 1, NULL, 0, buf, 4, 0, 32), 0, 0, 0xABCDE800);
}

static void refusals(void) {
    REFUSED(NO_ENTRY, 64, LEPUGASO_REFUSED_ENTRY, 0, WHOLE);
    REFUSED(UINT32_MAX, 64, LEPUGASO_REFUSED_ENTRY, 0, WHOLE);
    REFUSED(5, 64, LEPUGASO_REFUSED_ABSENT, 0, WHOLE);
    REFUSED(0, 64, LEPUGASO_REFUSED_NOT_STORABLE, 0, WHOLE);
    REFUSED(17, 64, LEPUGASO_REFUSED_NOT_STORABLE, 0, PATH(M(0)));
    REFUSED(18, 64, LEPUGASO_REFUSED_NOT_STORABLE, 0, PATH(0));
    REFUSED(20, 64, LEPUGASO_REFUSED_NOT_STORABLE, 0, PATH(0));
    REFUSED(21, 64, LEPUGASO_REFUSED_NOT_STORABLE, 0, PATH(M(0)));
    REFUSED(1, 0, LEPUGASO_REFUSED_SHORT_BUFFER, 0, WHOLE);
    REFUSED(2, 3, LEPUGASO_REFUSED_SHORT_BUFFER, 0, WHOLE);
    REFUSED(13, 47, LEPUGASO_REFUSED_SHORT_BUFFER, 0, PATH(M(0)));
    REFUSED(15, 7, LEPUGASO_REFUSED_SHORT_BUFFER, 0, PATH(0, 0));
    REFUSED(16, 15, LEPUGASO_REFUSED_SHORT_BUFFER, 0, PATH(M(0)));
    REFUSED(1, 4, LEPUGASO_REFUSED_MEMBER_STEP, 0, PATH(M(0)));
    REFUSED(6, 4, LEPUGASO_REFUSED_MEMBER_STEP, 0, PATH(M(0)));
    REFUSED(14, 144, LEPUGASO_REFUSED_MEMBER_STEP, 1, PATH(2, M(5)));
    REFUSED(14, 144, LEPUGASO_REFUSED_INDEX, 0, PATH(3, M(0)));
    REFUSED(14, 144, LEPUGASO_REFUSED_INDEX, 2, PATH(2, M(1), 3));
    REFUSED(16, 23, LEPUGASO_REFUSED_INDEX, 1, PATH(M(1), 1, 0));
    REFUSED(2, 4, LEPUGASO_REFUSED_INDEX_STEP, 0, PATH(0));
    REFUSED(7, 4, LEPUGASO_REFUSED_INDEX_STEP, 0, PATH(0));
    REFUSED(13, 48, LEPUGASO_REFUSED_INDEX_STEP, 0, PATH(0));
    /* a scalar of another type */
    REFUSED(3, 4, LEPUGASO_REFUSED_WORDS, 0, WHOLE);
    REFUSED(4, 2, LEPUGASO_REFUSED_WORDS, 0, WHOLE);
    REFUSED(4, 4, LEPUGASO_REFUSED_WORDS, 0, WHOLE);
    REFUSED(10, 8, LEPUGASO_REFUSED_WORDS, 0, PATH(1));
    REFUSED(11, 8, LEPUGASO_REFUSED_WORDS, 0, PATH(3));
    REFUSED(12, 32, LEPUGASO_REFUSED_WORDS, 0, PATH(1, 2));
    REFUSED(13, 48, LEPUGASO_REFUSED_WORDS, 0, PATH(M(3)));
    REFUSED(14, 144, LEPUGASO_REFUSED_WORDS, 0, PATH(2, M(4)));
    /* 64 bits, of an integer too (E6) */
    REFUSED(22, 8, LEPUGASO_REFUSED_WORDS, 0, WHOLE);
    REFUSED(23, 8, LEPUGASO_REFUSED_WORDS, 0, WHOLE);
    REFUSED(24, 8, LEPUGASO_REFUSED_WORDS, 0, WHOLE);
    REFUSED(25, 16, LEPUGASO_REFUSED_WORDS, 0, PATH(1));
    REFUSED(26, 32, LEPUGASO_REFUSED_WORDS, 0, PATH(M(0)));
    REFUSED(26, 32, LEPUGASO_REFUSED_WORDS, 0, PATH(M(2), 0));
    REFUSED(22, 8, LEPUGASO_REFUSED_INDEX_STEP, 0, PATH(1));
    REFUSED(22, 7, LEPUGASO_REFUSED_SHORT_BUFFER, 0, WHOLE);
    /* no single scalar */
    REFUSED(8, 12, LEPUGASO_REFUSED_WORDS, 0, WHOLE);
    REFUSED(12, 32, LEPUGASO_REFUSED_WORDS, 0, PATH(1));
    REFUSED(13, 48, LEPUGASO_REFUSED_WORDS, 0, WHOLE);
    REFUSED(14, 144, LEPUGASO_REFUSED_WORDS, 0, PATH(2, M(1)));
    REFUSED(16, 24, LEPUGASO_REFUSED_WORDS, 0, PATH(M(1)));
    REFUSED(16, 24, LEPUGASO_REFUSED_WORDS, 0, PATH(M(1), 1));
    /* Of two or more the first by document 01's order. */
    REFUSED(5, 0, LEPUGASO_REFUSED_ABSENT, 0, PATH(M(0)));
    REFUSED(0, 0, LEPUGASO_REFUSED_NOT_STORABLE, 0, PATH(M(0)));
    REFUSED(13, 47, LEPUGASO_REFUSED_SHORT_BUFFER, 0, PATH(0));
    REFUSED(3, 3, LEPUGASO_REFUSED_SHORT_BUFFER, 0, WHOLE);
    REFUSED(3, 4, LEPUGASO_REFUSED_INDEX_STEP, 0, PATH(0));
    REFUSED(10, 8, LEPUGASO_REFUSED_INDEX, 0, PATH(2));
}

/* A buffer of 4,294,967,295 bytes and of one more: 17 after 8, before everything else. Only the first and last pages can be touched. */
static void long_buffers(void) {
    const uint64_t limit = 4294967295u, pages = limit + 1;
    const uint8_t *file = lent(types, sizeof types);
    uint8_t *buf = mmap(NULL, pages, PROT_NONE, MAP_PRIVATE | MAP_ANONYMOUS | MAP_NORESERVE, -1, 0);
    if (buf == MAP_FAILED || mprotect(buf, PAGE, PROT_READ | PROT_WRITE)) exit(2);
    if (mprotect(buf + pages - PAGE, PAGE, PROT_READ | PROT_WRITE)) exit(2);
    const uint32_t last[] = {0x1FFFFFFE, 1}, past[] = {0x1FFFFFFF, 0};
    uint8_t *at = buf + 0xFFFFFFF4;
    put_word(buf, 7);
    put_word(at, 0xABCDEF01);
    EXPECT(lepugaso_extract_bits(file, sizeof types, 15, last, 2, buf, limit, 8, 16), 0, 0, 0xCDEF);
    EXPECT(lepugaso_insert_bits(file, sizeof types, 15, last, 2, 0x12345678, 8, 16, buf, limit), 0, 0, 0xFFFFFFF4);
    HOLDS(word_at(at) == 0xAB567801);
    EXPECT(lepugaso_extract_bits(file, sizeof types, 15, past, 2, buf, limit, 8, 16), LEPUGASO_REFUSED_INDEX, 0, 0);
    EXPECT(lepugaso_insert_bits(file, sizeof types, 15, past, 2, 0x12345678, 8, 16, buf, limit), LEPUGASO_REFUSED_INDEX, 0, 0);
    static const struct {
        uint32_t entry, refusal;
    } cases[] = {{1, LEPUGASO_REFUSED_LONG_BUFFER},
                 {NO_ENTRY, LEPUGASO_REFUSED_ENTRY},
                 {5, LEPUGASO_REFUSED_LONG_BUFFER},
                 {0, LEPUGASO_REFUSED_LONG_BUFFER},
                 {3, LEPUGASO_REFUSED_LONG_BUFFER}};
    for (size_t k = 0; k < COUNT(cases); k++) {
        EXPECT(lepugaso_extract_bits(file, sizeof types, cases[k].entry, NULL, 0, buf, limit + 1, 0, 12), cases[k].refusal, 0, 0);
        EXPECT(lepugaso_insert_bits(file, sizeof types, cases[k].entry, NULL, 0, 5, 0, 12, buf, limit + 1), cases[k].refusal, 0, 0);
    }
    HOLDS(word_at(buf) == 7);
    if (munmap(buf, pages)) exit(2);
}

/* The longest path that leads to an i32: 255 steps, the first of them far into an array. */
static void long_paths(void) {
    enum { TYPES = 256, STEPS = TYPES - 1, ELEMENTS = 70000 };
    static uint8_t bytes[12 * TYPES + 10];
    static const uint8_t scalar[] = {I32}, trailer[] = {TRAILER(TYPES, 0)};
    uint32_t path[STEPS + 1] = {65536 + 3};
    memcpy(bytes, scalar, sizeof scalar);
    for (uint32_t k = 1; k < TYPES; k++) {
        const uint8_t array[] = {ARRAY(k - 1, k < TYPES - 1 ? 1u : (uint32_t)ELEMENTS)};
        memcpy(bytes + 12 * k, array, sizeof array);
    }
    memcpy(bytes + 12 * TYPES, trailer, sizeof trailer);
    const uint8_t *file = lent(bytes, sizeof bytes);
    const void *steps = lent(path, STEPS * sizeof *path), *too_many = lent(path, sizeof path);
    size_t length = 4 * (size_t)ELEMENTS, at = 4 * (65536 + 3);
    uint8_t *buf = fresh(length);
    put_word(buf + at, 0x89ABCDEF);
    EXPECT(lepugaso_extract_bits(file, sizeof bytes, TYPES - 1, steps, STEPS, buf, length, 20, 12), 0, 0, 0xFFFFF89A);
    EXPECT(lepugaso_insert_bits(file, sizeof bytes, TYPES - 1, steps, STEPS, 0x76543210, 4, 24, buf, length), 0, 0, at);
    HOLDS(word_at(buf + at) == 0x8543210F);
    put_word(buf + at, 0);
    HOLDS(buf[0] == 0 && memcmp(buf, buf + 1, length - 1) == 0);
    EXPECT(lepugaso_extract_bits(file, sizeof bytes, TYPES - 1, steps, STEPS - 1, buf, length, 0, 12), LEPUGASO_REFUSED_WORDS, 0, 0);
    EXPECT(lepugaso_insert_bits(file, sizeof bytes, TYPES - 1, steps, STEPS - 1, 5, 0, 12, buf, length), LEPUGASO_REFUSED_WORDS, 0, 0);
    EXPECT(lepugaso_extract_bits(file, sizeof bytes, TYPES - 1, too_many, STEPS + 1, buf, length, 0, 12), LEPUGASO_REFUSED_INDEX_STEP,
           STEPS, 0);
    EXPECT(lepugaso_insert_bits(file, sizeof bytes, TYPES - 1, too_many, STEPS + 1, 5, 0, 12, buf, length), LEPUGASO_REFUSED_INDEX_STEP,
           STEPS, 0);
    HOLDS(buf[0] == 0 && memcmp(buf, buf + 1, length - 1) == 0);
}

int main(void) {
    edges();
    all_fields();
    at_paths();
    as_the_header_says();
    refusals();
    long_buffers();
    long_paths();
    return failures != 0;
}
