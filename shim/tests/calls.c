/* Every call on a good file, and every refusal of documents 01 and 02 that it can give; bit fields are in fields.c, the two forms of a
 * file and the moves between them in forms.c, site blocks in site.c, cleaning in clean.c, orders in orders.c, members of no struct in
 * strays.c. What is lent stands at the end of a page after which nothing can be touched, and what is lent to be read cannot be written. */
#include "pages.h"
#include "refused.h"
#include "test.h"

static const uint8_t good[] = {
    BOOL,                  /* 0 */
    U32,                   /* 1 */
    F32,                   /* 2 */
    F16,                   /* 3 */
    ABSTRACT_INT,          /* 4: neither size nor alignment */
    VECTOR(3, 0),          /* 5: vec3<bool>, as vec3<f32> (E4) */
    VECTOR(3, 2),          /* 6: vec3<f32> */
    RUNTIME_ARRAY(6),      /* 7: of vec3<f32> */
    STRUCT(0, 3),          /* 8: u32, vec3<f32>, f32 (P6) */
    STRUCT(1, 3),          /* 9: vec3<f32>, f32, runtime array */
    ARRAY(1, 1073741823u), /* 10: the largest array of u32 (P9) */
    F32,                   /* 11: as 2 */
    MEMBER(1), MEMBER(6), MEMBER(2), MEMBER(7),
    TRAILER(12, 4),
};

#define BAD(refusal, place, ...) {__LINE__, refusal, place, sizeof((const uint8_t[]){__VA_ARGS__}), (const uint8_t[]){__VA_ARGS__}}
static const struct {
    int line;
    uint32_t refusal, place;
    size_t length;
    const uint8_t *bytes;
} bad_files[] = {
    BAD(LEPUGASO_REFUSED_SHORT_FILE, 0, 1, 0, 0, 0, 0, 0, 0, 0, 1),
    BAD(LEPUGASO_REFUSED_FORM, 0, U32, LE16(1), LE16(0), LE32(0), LE16(0)),
    BAD(LEPUGASO_REFUSED_FORM, 0, U32, LE16(1), LE16(0), LE32(0), LE16(3)),
    BAD(LEPUGASO_REFUSED_FORM, 0, U32, LE16(1), LE16(0), LE32(0), LE16(257)),
    BAD(LEPUGASO_REFUSED_FORM, 0, U32, LE16(1), LE16(0), LE32(0), LE16(258)),
    BAD(LEPUGASO_REFUSED_FORM, 0, U32, LE16(1), LE16(0), LE32(0), LE16(65535)),
    BAD(LEPUGASO_REFUSED_COUNTS, 0, TRAILER(0, 0)),
    BAD(LEPUGASO_REFUSED_LENGTH, 0, U32, TRAILER(2, 0)),
    BAD(LEPUGASO_REFUSED_RULE, 1, U32, VECTOR(5, 0), TRAILER(2, 0)),
    BAD(LEPUGASO_REFUSED_GIVEN, 1, U32, STRUCT(0, 1), MEMBER_SIZE(0, 3), TRAILER(2, 1)),
    BAD(LEPUGASO_REFUSED_TOO_LARGE, 2, U32, F32, ARRAY(0, 1073741824u), TRAILER(3, 0)),
    /* E6: kind 16, a u64 with a count; 64 bits in a matrix, in an atomic; a vec3<f64> as an element, and as a member though its align is
     * given; then a given size and align below those of an i64, and too many of them. */
    BAD(LEPUGASO_REFUSED_RULE, 1, U32, TYPE(16, 0, 0, 0, 0), TRAILER(2, 0)),
    BAD(LEPUGASO_REFUSED_RULE, 0, TYPE(14, 0, 0, 0, 1), TRAILER(1, 0)),
    BAD(LEPUGASO_REFUSED_RULE, 1, F64, MATRIX(2, 2, 0), TRAILER(2, 0)),
    BAD(LEPUGASO_REFUSED_RULE, 1, I64, ATOMIC(0), TRAILER(2, 0)),
    BAD(LEPUGASO_REFUSED_RULE, 1, U64, ATOMIC(0), TRAILER(2, 0)),
    BAD(LEPUGASO_REFUSED_RULE, 2, F64, VECTOR(3, 0), RUNTIME_ARRAY(1), TRAILER(3, 0)),
    BAD(LEPUGASO_REFUSED_RULE, 2, F64, VECTOR(3, 0), STRUCT(0, 1), MEMBER_ALIGN(1, 32), TRAILER(3, 1)),
    BAD(LEPUGASO_REFUSED_GIVEN, 1, I64, STRUCT(0, 1), MEMBER_SIZE(0, 7), TRAILER(2, 1)),
    BAD(LEPUGASO_REFUSED_GIVEN, 1, I64, STRUCT(0, 1), MEMBER_ALIGN(0, 4), TRAILER(2, 1)),
    BAD(LEPUGASO_REFUSED_TOO_LARGE, 1, I64, ARRAY(0, 536870912u), TRAILER(2, 0)),
    /* E12: a member of no struct, in either form, and beside a bad entry; more of them are in strays.c. */
    BAD(LEPUGASO_REFUSED_STRAY_MEMBER, 0, U32, MEMBER(0), TRAILER(1, 1)),
    BAD(LEPUGASO_REFUSED_STRAY_MEMBER, 1, U32, STRUCT(0, 1), MEMBER(0), MEMBER(0), TRAILER(2, 2)),
    BAD(LEPUGASO_REFUSED_STRAY_MEMBER, 1, U32, STRUCT(0, 1), NAMED(0, MEMBER(0)), NAMED(7, MEMBER(0)), TRAILER_2(2, 2)),
    BAD(LEPUGASO_REFUSED_RULE, 2, U32, STRUCT(1, 1), VECTOR(5, 0), MEMBER(0), MEMBER(0), TRAILER(3, 2)),
};

/* A refused file is refused by every call alike, for an entry that it may have and for one that it has not. */
static void refused_files(void) {
    for (size_t k = 0; k < sizeof bad_files / sizeof bad_files[0]; k++) {
        const uint8_t *file = lent(bad_files[k].bytes, bad_files[k].length);
        refused_by_all(__FILE__, bad_files[k].line, file, bad_files[k].length, 0, bad_files[k].refusal, bad_files[k].place);
        refused_by_all(__FILE__, bad_files[k].line, file, bad_files[k].length, UINT32_MAX, bad_files[k].refusal, bad_files[k].place);
    }
}

static void questions(const uint8_t *file, size_t length) {
    EXPECT(lepugaso_check(file, length), 0, 0, 12);

    EXPECT(lepugaso_size(file, length, 8), 0, 0, 32);
    EXPECT(lepugaso_size(file, length, 10), 0, 0, 4294967292u);
    EXPECT(lepugaso_size(file, length, 12), LEPUGASO_REFUSED_ENTRY, 0, 0);
    EXPECT(lepugaso_size(file, length, UINT32_MAX), LEPUGASO_REFUSED_ENTRY, 0, 0);
    EXPECT(lepugaso_size(file, length, 7), LEPUGASO_REFUSED_ABSENT, 0, 0);

    EXPECT(lepugaso_align(file, length, 6), 0, 0, 16);
    EXPECT(lepugaso_align(file, length, 12), LEPUGASO_REFUSED_ENTRY, 0, 0);
    EXPECT(lepugaso_align(file, length, 5), 0, 0, 16);
    EXPECT(lepugaso_align(file, length, 4), LEPUGASO_REFUSED_ABSENT, 0, 0);

    EXPECT(lepugaso_min_size(file, length, 7), 0, 0, 16);
    EXPECT(lepugaso_min_size(file, length, 6), 0, 0, 12);
    EXPECT(lepugaso_min_size(file, length, 12), LEPUGASO_REFUSED_ENTRY, 0, 0);
    EXPECT(lepugaso_min_size(file, length, 9), LEPUGASO_REFUSED_ABSENT, 0, 0);
}

#define NONE LEPUGASO_ABSENT

/* The four numbers of an entry. */
static void laid(const uint8_t *file, size_t length, uint32_t entry, uint64_t size, uint64_t align, uint64_t min_size, uint64_t stride) {
    lepugaso_layout *out = (void *)fresh(sizeof *out);
    EXPECT(lepugaso_layout_of(file, length, entry, out), 0, 0, 0);
    HOLDS(out->size == size && out->align == align && out->min_size == min_size && out->stride == stride);
}

static void layouts(const uint8_t *file, size_t length) {
    laid(file, length, 8, 32, 16, 32, 32);
    laid(file, length, 7, NONE, 16, 16, 16);
    laid(file, length, 5, 12, 16, 12, 16);
    laid(file, length, 4, NONE, NONE, NONE, NONE);
    laid(file, length, 9, NONE, 16, NONE, NONE);
    laid(file, length, 10, 4294967292u, 4, 4294967292u, 4294967292u);
    lepugaso_layout *out = (void *)fresh(sizeof *out);
    *out = (lepugaso_layout){1, 2, 3, 4};
    EXPECT(lepugaso_layout_of(file, length, 12, out), LEPUGASO_REFUSED_ENTRY, 0, 0);
    HOLDS(out->size == 1 && out->align == 2 && out->min_size == 3 && out->stride == 4);
}

/* A stride is the size rounded up to the alignment (E1), of a runtime array its element's. */
static const uint8_t strided[] = {
    F16,              /* 0 */
    VECTOR(3, 0),     /* 1: vec3<f16>, 6 bytes */
    MATRIX(2, 3, 0),  /* 2: mat2x3<f16> */
    RUNTIME_ARRAY(1), /* 3: of vec3<f16> */
    F32,              /* 4 */
    VECTOR(3, 4),     /* 5: vec3<f32>, 12 bytes */
    ARRAY(5, 4),      /* 6: of vec3<f32> */
    I32,              /* 7 */
    ATOMIC(7),        /* 8 */
    STRUCT(0, 2),     /* 9: vec3<f16>, f16 */
    MEMBER(1), MEMBER(0),
    TRAILER(10, 2),
};

static void strides(void) {
    const uint8_t *file = lent(strided, sizeof strided);
    laid(file, sizeof strided, 0, 2, 2, 2, 2);
    laid(file, sizeof strided, 1, 6, 8, 6, 8);
    laid(file, sizeof strided, 2, 16, 8, 16, 16);
    laid(file, sizeof strided, 3, NONE, 8, 8, 8);
    laid(file, sizeof strided, 5, 12, 16, 12, 16);
    laid(file, sizeof strided, 6, 64, 16, 64, 64);
    laid(file, sizeof strided, 8, 4, 4, 4, 4);
    laid(file, sizeof strided, 9, 8, 8, 8, 8);
}

/* What may live in a uniform buffer (E5), and what may not: an entry that is broken itself, or reaches one that is. */
static const uint8_t uniforms[] = {
    BOOL,             /* 0 */
    I32,              /* 1 */
    F32,              /* 2 */
    ABSTRACT_INT,     /* 3: no layout */
    VECTOR(4, 2),     /* 4: vec4<f32> */
    MATRIX(2, 2, 2),  /* 5: mat2x2<f32>, columns 8 bytes apart */
    ATOMIC(1),        /* 6: broken */
    ARRAY(2, 4),      /* 7: of f32, broken: stride 4 */
    ARRAY(4, 2),      /* 8: of vec4<f32> */
    ARRAY(5, 2),      /* 9: of mat2x2<f32>, stride 16 */
    STRUCT(0, 2),     /* 10: f32, f32 */
    STRUCT(2, 4),     /* 11: f32, f32, f32, f32 */
    ARRAY(10, 2),     /* 12: of 10, broken: stride 8 */
    ARRAY(11, 2),     /* 13: of 11, stride 16 */
    STRUCT(6, 2),     /* 14: f32, 10; broken: a struct at 4 */
    STRUCT(8, 2),     /* 15: f32, 10 of align 16 */
    STRUCT(10, 2),    /* 16: f32, 13; broken: an array at 4 */
    STRUCT(12, 2),    /* 17: f32 of size 16, 13 */
    STRUCT(14, 2),    /* 18: 10, f32; broken: f32 at 8 and not 16 */
    STRUCT(16, 2),    /* 19: 10 of size 12, f32; broken: f32 at 12 */
    STRUCT(18, 2),    /* 20: 10 of size 16, f32 */
    STRUCT(20, 2),    /* 21: 10 of size 20, f32: at 20, and that is enough */
    STRUCT(22, 2),    /* 22: 13, f32 */
    STRUCT(24, 3),    /* 23: vec4<f32>, mat2x2<f32>, f32 */
    STRUCT(27, 2),    /* 24: 7, 6: the higher one first */
    STRUCT(29, 2),    /* 25: 14, 18: broken itself too, and both within it */
    STRUCT(31, 2),    /* 26: 23, 20: all within it may */
    ARRAY(26, 3),     /* 27: of 26 */
    STRUCT(33, 1),    /* 28: 24 */
    ARRAY(28, 2),     /* 29: of 28 */
    STRUCT(34, 2),    /* 30: f32, bool */
    STRUCT(36, 2),    /* 31: bool, 6 */
    RUNTIME_ARRAY(4), /* 32: of vec4<f32> */
    RUNTIME_ARRAY(0), /* 33: of bool */
    STRUCT(38, 2),    /* 34: bool, 32 */
    ARRAY(3, 2),      /* 35: of abstract int, no layout */
    MEMBER(2), MEMBER(2),             /* 0, 1 */
    MEMBER(2), MEMBER(2),             /* 2, 3 */
    MEMBER(2), MEMBER(2),             /* 4, 5 */
    MEMBER(2), MEMBER(10),            /* 6, 7 */
    MEMBER(2), MEMBER_ALIGN(10, 16),  /* 8, 9 */
    MEMBER(2), MEMBER(13),            /* 10, 11 */
    MEMBER_SIZE(2, 16), MEMBER(13),   /* 12, 13 */
    MEMBER(10), MEMBER(2),            /* 14, 15 */
    MEMBER_SIZE(10, 12), MEMBER(2),   /* 16, 17 */
    MEMBER_SIZE(10, 16), MEMBER(2),   /* 18, 19 */
    MEMBER_SIZE(10, 20), MEMBER(2),   /* 20, 21 */
    MEMBER(13), MEMBER(2),            /* 22, 23 */
    MEMBER(4), MEMBER(5), MEMBER(2),  /* 24 to 26 */
    MEMBER(7), MEMBER(6),             /* 27, 28 */
    MEMBER(14), MEMBER(18),           /* 29, 30 */
    MEMBER(23), MEMBER(20),           /* 31, 32 */
    MEMBER(24),                       /* 33 */
    MEMBER(2), MEMBER(0),             /* 34, 35 */
    MEMBER(0), MEMBER(6),             /* 36, 37 */
    MEMBER(0), MEMBER(32),            /* 38, 39 */
    TRAILER(36, 40),
};

static void uniform_buffers(void) {
    static const uint32_t may[] = {1, 2, 4, 5, 8, 9, 10, 11, 13, 15, 17, 20, 21, 22, 23, 26, 27};
    /* The entry asked for, and the one at fault. */
    static const uint32_t broken[][2] = {{6, 6},   {7, 7},  {12, 12}, {14, 14}, {16, 16}, {18, 18},
                                         {19, 19}, {24, 6}, {25, 14}, {28, 6},  {29, 6}};
    const uint8_t *file = lent(uniforms, sizeof uniforms);
    for (size_t k = 0; k < sizeof may / sizeof may[0]; k++) EXPECT(lepugaso_uniform(file, sizeof uniforms, may[k]), 0, 0, 0);
    for (size_t k = 0; k < sizeof broken / sizeof broken[0]; k++) {
        EXPECT(lepugaso_uniform(file, sizeof uniforms, broken[k][0]), LEPUGASO_REFUSED_UNIFORM, broken[k][1], 0);
    }
    EXPECT(lepugaso_uniform(file, sizeof uniforms, 36), LEPUGASO_REFUSED_ENTRY, 0, 0);
    EXPECT(lepugaso_uniform(file, sizeof uniforms, UINT32_MAX), LEPUGASO_REFUSED_ENTRY, 0, 0);
    EXPECT(lepugaso_uniform(file, sizeof uniforms, 3), LEPUGASO_REFUSED_ABSENT, 0, 0);
    EXPECT(lepugaso_uniform(file, sizeof uniforms, 35), LEPUGASO_REFUSED_ABSENT, 0, 0);
    EXPECT(lepugaso_uniform(file, sizeof uniforms, 32), LEPUGASO_REFUSED_ABSENT, 0, 0); /* open */
    EXPECT(lepugaso_uniform(file, sizeof uniforms, 0), LEPUGASO_REFUSED_NOT_STORABLE, 0, 0);
    EXPECT(lepugaso_uniform(file, sizeof uniforms, 30), LEPUGASO_REFUSED_NOT_STORABLE, 0, 0);
    /* Of two or more the first: open, then a bool, then a broken entry. */
    EXPECT(lepugaso_uniform(file, sizeof uniforms, 33), LEPUGASO_REFUSED_ABSENT, 0, 0);
    EXPECT(lepugaso_uniform(file, sizeof uniforms, 34), LEPUGASO_REFUSED_ABSENT, 0, 0);
    EXPECT(lepugaso_uniform(file, sizeof uniforms, 31), LEPUGASO_REFUSED_NOT_STORABLE, 0, 0);
}

static lepugaso_answer common(const uint8_t *file, size_t length, size_t count, uint32_t a, uint32_t b, uint32_t c) {
    uint32_t list[] = {a, b, c};
    const void *entries = lent(list, count * sizeof list[0]);
    return lepugaso_common(file, length, entries, count);
}

static void conversions(const uint8_t *file, size_t length) {
    EXPECT(lepugaso_rank(file, length, 4, 2), 0, 0, 6); /* P12 */
    EXPECT(lepugaso_rank(file, length, 2, 11), 0, 0, 0);
    EXPECT(lepugaso_rank(file, length, 12, 4), LEPUGASO_REFUSED_ENTRY, 0, 0);
    EXPECT(lepugaso_rank(file, length, 4, 12), LEPUGASO_REFUSED_ENTRY, 0, 0);
    EXPECT(lepugaso_rank(file, length, 2, 4), LEPUGASO_REFUSED_NO_RANK, 0, 0);

    EXPECT(common(file, length, 1, 3, 0, 0), 0, 0, 3);
    EXPECT(common(file, length, 3, 4, 2, 4), 0, 0, 2);
    EXPECT(common(file, length, 3, 2, 11, 4), 0, 0, 11);
    EXPECT(common(file, length, 3, 1, 2, 12), LEPUGASO_REFUSED_ENTRY, 0, 0);
    EXPECT(common(file, length, 3, 4, 1, 2), LEPUGASO_REFUSED_NO_RANK, 0, 0);
    EXPECT(common(file, length, 0, 0, 0, 0), LEPUGASO_REFUSED_NO_RANK, 0, 0);
}

/* What words are written as, and read from. */
static const uint8_t stored[] = {
    BOOL,              /* 0 */
    I32,               /* 1 */
    U32,               /* 2 */
    F32,               /* 3 */
    F16,               /* 4 */
    ABSTRACT_INT,      /* 5: no layout */
    VECTOR(3, 0),      /* 6: vec3<bool>, a layout (E4), and not storable */
    VECTOR(2, 0),      /* 7: vec2<bool>, the same */
    VECTOR(3, 3),      /* 8: vec3<f32> */
    VECTOR(4, 3),      /* 9: vec4<f32> */
    VECTOR(3, 4),      /* 10: vec3<f16> */
    MATRIX(3, 3, 3),   /* 11: mat3x3<f32> (P4) */
    MATRIX(2, 3, 4),   /* 12: mat2x3<f16> (P5) */
    ATOMIC(1),         /* 13: atomic<i32> */
    STRUCT(0, 1),      /* 14: vec3<f32> */
    ARRAY(14, 2),      /* 15: two of them */
    STRUCT(1, 3),      /* 16: u32, vec3<f32>, f32 (P6) */
    RUNTIME_ARRAY(9),  /* 17: of vec4<f32> */
    STRUCT(4, 2),      /* 18: u32, runtime array of vec4<f32> (P10) */
    STRUCT(6, 2),      /* 19: u32 of size 20, u32 (P7) */
    STRUCT(8, 3),      /* 20: f16, u32, vec3<f16> */
    RUNTIME_ARRAY(20), /* 21: of those */
    STRUCT(11, 2),     /* 22: u32, bool */
    RUNTIME_ARRAY(7),  /* 23: of vec2<bool> */
    RUNTIME_ARRAY(4),  /* 24: of f16 */
    STRUCT(13, 2),     /* 25: u32, runtime array of f16 */
    ARRAY(6, 4),       /* 26: of vec3<bool> */
    RUNTIME_ARRAY(6),  /* 27: of vec3<bool> */
    STRUCT(15, 2),     /* 28: vec3<bool>, bool */
    STRUCT(17, 3),     /* 29: bool, 28, 27 */
    STRUCT(20, 2),     /* 30: vec3<bool> of size 20, bool of align 8 */
    I64,               /* 31 */
    U64,               /* 32 */
    F64,               /* 33 */
    VECTOR(2, 31),     /* 34: vec2<i64> */
    VECTOR(3, 33),     /* 35: vec3<f64>, no layout */
    VECTOR(4, 32),     /* 36: vec4<u64> */
    ARRAY(35, 2),      /* 37: of vec3<f64>, no layout either */
    STRUCT(22, 3),     /* 38: i64, f16, u64 */
    ARRAY(38, 2),      /* 39: two of them */
    RUNTIME_ARRAY(31), /* 40: of i64 */
    STRUCT(25, 3),     /* 41: f16, f64, runtime array of i64 */
    STRUCT(28, 2),     /* 42: u32, vec4<u64> */
    STRUCT(30, 2),     /* 43: u32, i64 */
    MEMBER(8),                              /* 0 */
    MEMBER(2), MEMBER(8), MEMBER(3),        /* 1 to 3 */
    MEMBER(2), MEMBER(17),                  /* 4, 5 */
    MEMBER_SIZE(2, 20), MEMBER(2),          /* 6, 7 */
    MEMBER(4), MEMBER(2), MEMBER(10),       /* 8 to 10 */
    MEMBER(2), MEMBER(0),                   /* 11, 12 */
    MEMBER(2), MEMBER(24),                  /* 13, 14 */
    MEMBER(6), MEMBER(0),                   /* 15, 16 */
    MEMBER(0), MEMBER(28), MEMBER(27),      /* 17 to 19 */
    MEMBER_SIZE(6, 20), MEMBER_ALIGN(0, 8), /* 20, 21 */
    MEMBER(31), MEMBER(4), MEMBER(32),      /* 22 to 24 */
    MEMBER(4), MEMBER(33), MEMBER(40),      /* 25 to 27 */
    MEMBER(2), MEMBER(36),                  /* 28, 29 */
    MEMBER(2), MEMBER(31),                  /* 30, 31 */
    TRAILER(44, 32),
};
enum { NO_ENTRY = 44 };

/* Vectors of three bools (E4): 12 bytes, aligned to 16, as members and as elements too. They are not storable. */
static void vectors_of_bools(void) {
    const uint8_t *file = lent(stored, sizeof stored);
    EXPECT(lepugaso_check(file, sizeof stored), 0, 0, NO_ENTRY);
    laid(file, sizeof stored, 6, 12, 16, 12, 16);
    laid(file, sizeof stored, 26, 64, 16, 64, 64);
    laid(file, sizeof stored, 27, NONE, 16, 16, 16);
    laid(file, sizeof stored, 28, 16, 16, 16, 16);
    laid(file, sizeof stored, 29, NONE, 16, NONE, NONE);
    laid(file, sizeof stored, 30, 32, 16, 32, 32);
    EXPECT(lepugaso_rank(file, sizeof stored, 6, 6), 0, 0, 0);
    EXPECT(lepugaso_rank(file, sizeof stored, 6, 8), LEPUGASO_REFUSED_NO_RANK, 0, 0);
    EXPECT(lepugaso_uniform(file, sizeof stored, 6), LEPUGASO_REFUSED_NOT_STORABLE, 0, 0);
    EXPECT(lepugaso_uniform(file, sizeof stored, 26), LEPUGASO_REFUSED_NOT_STORABLE, 0, 0);
    EXPECT(lepugaso_uniform(file, sizeof stored, 28), LEPUGASO_REFUSED_NOT_STORABLE, 0, 0);
    EXPECT(lepugaso_uniform(file, sizeof stored, 27), LEPUGASO_REFUSED_ABSENT, 0, 0); /* open */
}

/* Scalars of 64 bits (E6), vectors of them, and what holds them. A vector of three has a size, and nothing else. */
static void wide_layouts(void) {
    const uint8_t *file = lent(stored, sizeof stored);
    for (uint32_t scalar = 31; scalar <= 33; scalar++) {
        laid(file, sizeof stored, scalar, 8, 8, 8, 8);
        EXPECT(lepugaso_uniform(file, sizeof stored, scalar), 0, 0, 0);
        /* They convert to themselves alone. */
        for (uint32_t entry = 0; entry <= 36; entry++) {
            uint32_t refusal = entry == scalar ? 0 : LEPUGASO_REFUSED_NO_RANK;
            EXPECT(lepugaso_rank(file, sizeof stored, scalar, entry), refusal, 0, 0);
            EXPECT(lepugaso_rank(file, sizeof stored, entry, scalar), refusal, 0, 0);
            EXPECT(common(file, sizeof stored, 2, scalar, entry, 0), refusal, 0, refusal ? 0 : scalar);
        }
    }
    laid(file, sizeof stored, 34, 16, 16, 16, 16);
    laid(file, sizeof stored, 35, 24, NONE, 24, NONE);
    laid(file, sizeof stored, 36, 32, 32, 32, 32);
    laid(file, sizeof stored, 37, NONE, NONE, NONE, NONE);
    laid(file, sizeof stored, 38, 24, 8, 24, 24);
    laid(file, sizeof stored, 39, 48, 8, 48, 48);
    laid(file, sizeof stored, 40, NONE, 8, 8, 8);
    laid(file, sizeof stored, 41, NONE, 8, NONE, NONE);
    laid(file, sizeof stored, 42, 64, 32, 64, 64);
    laid(file, sizeof stored, 43, 16, 8, 16, 16);
    EXPECT(lepugaso_size(file, sizeof stored, 35), 0, 0, 24);
    EXPECT(lepugaso_align(file, sizeof stored, 35), LEPUGASO_REFUSED_ABSENT, 0, 0);
    EXPECT(lepugaso_min_size(file, sizeof stored, 35), 0, 0, 24);
    EXPECT(lepugaso_rank(file, sizeof stored, 35, 35), 0, 0, 0);
    EXPECT(lepugaso_rank(file, sizeof stored, 8, 35), LEPUGASO_REFUSED_NO_RANK, 0, 0);
    EXPECT(lepugaso_uniform(file, sizeof stored, 35), LEPUGASO_REFUSED_ABSENT, 0, 0);
    EXPECT(lepugaso_uniform(file, sizeof stored, 36), 0, 0, 0);
    EXPECT(lepugaso_uniform(file, sizeof stored, 38), 0, 0, 0);
    EXPECT(lepugaso_uniform(file, sizeof stored, 43), 0, 0, 0); /* an i64 may start at 8 */
    EXPECT(lepugaso_uniform(file, sizeof stored, 39), LEPUGASO_REFUSED_UNIFORM, 39, 0); /* stride 24 */
}

/* What a buffer, and what the words to read into, hold before a call. */
enum { OLD_BYTE = 0xA5 };
#define OLD_WORD 0xA5A5A5A5u

#define WORDS(...) (const uint32_t[]){__VA_ARGS__}, sizeof((const uint32_t[]){__VA_ARGS__}) / sizeof(uint32_t)
#define BYTES(...) (const uint8_t[]){__VA_ARGS__}, sizeof((const uint8_t[]){__VA_ARGS__})

/* Writes words into a buffer of `length` bytes: its first ones become `bytes`, as many as there are of them, and the others stay. */
#define WRITES(entry, length, ...) writes(__LINE__, entry, length, 0, 0, __VA_ARGS__)
#define WRITE_REFUSED(entry, length, refusal, place, ...) writes(__LINE__, entry, length, refusal, place, __VA_ARGS__, NULL, 0)
static void writes(int line, uint32_t entry, size_t length, uint32_t refusal, uint32_t place, const uint32_t *words, size_t count,
                   const uint8_t *bytes, size_t filled) {
    const uint8_t *file = lent(stored, sizeof stored);
    const void *given = lent(words, count * sizeof *words);
    uint8_t expected[256], *buf = fresh(length);
    memset(buf, OLD_BYTE, length);
    memset(expected, OLD_BYTE, sizeof expected);
    if (filled) memcpy(expected, bytes, filled);
    expect(__FILE__, line, "writing", lepugaso_write(file, sizeof stored, entry, given, count, buf, length), refusal, place, filled);
    hold(__FILE__, line, "the buffer after writing", memcmp(buf, expected, length) == 0);
}

/* Reads a buffer into `room` words: the first ones become `words`, as many as there are of them, and the others stay. */
#define READS(entry, room, ...) reads(__LINE__, entry, room, 0, __VA_ARGS__)
#define READ_REFUSED(entry, room, refusal, ...) reads(__LINE__, entry, room, refusal, __VA_ARGS__, NULL, 0)
static void reads(int line, uint32_t entry, size_t room, uint32_t refusal, const uint8_t *bytes, size_t length, const uint32_t *words,
                  size_t filled) {
    const uint8_t *file = lent(stored, sizeof stored), *buf = lent(bytes, length);
    uint32_t expected[64], *read = (void *)fresh(room * sizeof *read);
    memset(read, OLD_BYTE, room * sizeof *read);
    memset(expected, OLD_BYTE, sizeof expected);
    if (filled) memcpy(expected, words, filled * sizeof *words);
    expect(__FILE__, line, "reading", lepugaso_read(file, sizeof stored, entry, buf, length, read, room), refusal, 0, filled);
    hold(__FILE__, line, "the words after reading", memcmp(read, expected, room * sizeof *read) == 0);
}

/* Both ways, with room for it alone and with more: the words become the bytes, and the bytes these words. */
#define BOTH(entry, ...) both(__LINE__, entry, __VA_ARGS__)
static void both(int line, uint32_t entry, const uint32_t *words, size_t count, const uint8_t *bytes, size_t length) {
    writes(line, entry, length, 0, 0, words, count, bytes, length);
    writes(line, entry, length + 7, 0, 0, words, count, bytes, length);
    reads(line, entry, count, 0, bytes, length, words, count);
    reads(line, entry, count + 3, 0, bytes, length, words, count);
}

static void stored_values(void) {
    BOTH(1, WORDS((uint32_t)-1), BYTES(0xFF, 0xFF, 0xFF, 0xFF));
    BOTH(1, WORDS((uint32_t)INT32_MIN), BYTES(0, 0, 0, 0x80));
    BOTH(2, WORDS(0x04030201), BYTES(1, 2, 3, 4));
    BOTH(3, WORDS(0x3F800000), BYTES(0, 0, 0x80, 0x3F));    /* 1.0 */
    BOTH(3, WORDS(0x7F800001), BYTES(1, 0, 0x80, 0x7F));    /* a NaN that signals */
    BOTH(4, WORDS(65535), BYTES(0xFF, 0xFF));               /* a NaN too */
    BOTH(13, WORDS(0x80000001), BYTES(1, 0, 0, 0x80));
    BOTH(8, WORDS(1, 2, 3), BYTES(LE32(1), LE32(2), LE32(3)));
    BOTH(11, WORDS(1, 2, 3, 4, 5, 6, 7, 8, 9),
         BYTES(LE32(1), LE32(2), LE32(3), LE32(0), LE32(4), LE32(5), LE32(6), LE32(0), LE32(7), LE32(8), LE32(9), LE32(0)));
    BOTH(12, WORDS(1, 2, 3, 4, 5, 6), BYTES(LE16(1), LE16(2), LE16(3), LE16(0), LE16(4), LE16(5), LE16(6), LE16(0)));
    BOTH(15, WORDS(1, 2, 3, 4, 5, 6), BYTES(LE32(1), LE32(2), LE32(3), LE32(0), LE32(4), LE32(5), LE32(6), LE32(0)));
    BOTH(16, WORDS(7, 1, 2, 3, 9), BYTES(LE32(7), LE32(0), LE32(0), LE32(0), LE32(1), LE32(2), LE32(3), LE32(9)));
    BOTH(19, WORDS(1, 2), BYTES(LE32(1), LE32(0), LE32(0), LE32(0), LE32(0), LE32(2)));
    /* What a gap holds is not looked at. */
    READS(19, 2, BYTES(LE32(1), LE32(9), LE32(9), LE32(9), LE32(9), LE32(2)), WORDS(1, 2));
    /* One element, two elements; a buffer with the room of one more byte, or one less. */
    static const uint8_t open[] = {
        LE32(1), LE32(0), LE32(0), LE32(0), LE32(2), LE32(3), LE32(4), LE32(5), LE32(6), LE32(7), LE32(8), LE32(9),
    };
    WRITES(18, 32, WORDS(1, 2, 3, 4, 5), open, 32);
    WRITES(18, 47, WORDS(1, 2, 3, 4, 5), open, 32);
    WRITES(18, 48, WORDS(1, 2, 3, 4, 5), open, 32);
    WRITES(18, 48, WORDS(1, 2, 3, 4, 5, 6, 7, 8, 9), open, 48);
    READS(18, 5, open, 32, WORDS(1, 2, 3, 4, 5));
    READS(18, 9, open, 47, WORDS(1, 2, 3, 4, 5));
    READS(18, 9, open, 48, WORDS(1, 2, 3, 4, 5, 6, 7, 8, 9));
    BOTH(25, WORDS(UINT32_MAX, 1, 2, 65535), BYTES(LE32(0xFFFFFFFF), LE16(1), LE16(2), LE16(65535)));
    /* The last element's padding counts. */
    BOTH(21, WORDS(1, 2, 3, 4, 5), BYTES(LE16(1), LE16(0), LE32(2), LE16(3), LE16(4), LE16(5), LE16(0)));
    BOTH(21, WORDS(1, 2, 3, 4, 5, 6, 7, 8, 9, 10),
         BYTES(LE16(1), LE16(0), LE32(2), LE16(3), LE16(4), LE16(5), LE16(0), LE16(6), LE16(0), LE32(7), LE16(8), LE16(9),
               LE16(10), LE16(0)));
    /* Two words for 64 bits, the low one first. */
    BOTH(31, WORDS(0x04030201, 0x08070605), BYTES(1, 2, 3, 4, 5, 6, 7, 8));
    BOTH(31, WORDS((uint32_t)-2, (uint32_t)-1), BYTES(0xFE, 0xFF, 0xFF, 0xFF, 0xFF, 0xFF, 0xFF, 0xFF));
    BOTH(32, WORDS(UINT32_MAX, 0), BYTES(0xFF, 0xFF, 0xFF, 0xFF, 0, 0, 0, 0));
    BOTH(33, WORDS(0, 0x3FF00000), BYTES(0, 0, 0, 0, 0, 0, 0xF0, 0x3F)); /* 1.0 */
    BOTH(33, WORDS(1, 0x7FF00000), BYTES(1, 0, 0, 0, 0, 0, 0xF0, 0x7F)); /* a NaN that signals */
    BOTH(34, WORDS(1, 2, 3, 4), BYTES(LE32(1), LE32(2), LE32(3), LE32(4)));
    BOTH(36, WORDS(1, 2, 3, 4, 5, 6, 7, 8), BYTES(LE32(1), LE32(2), LE32(3), LE32(4), LE32(5), LE32(6), LE32(7), LE32(8)));
    BOTH(38, WORDS(1, 2, 3, UINT32_MAX, 5), BYTES(LE32(1), LE32(2), LE16(3), LE16(0), LE32(0), LE32(0xFFFFFFFF), LE32(5)));
    BOTH(39, WORDS(1, 2, 3, 4, 5, 6, 7, 8, 9, 10),
         BYTES(LE32(1), LE32(2), LE16(3), LE16(0), LE32(0), LE32(4), LE32(5), LE32(6), LE32(7), LE16(8), LE16(0), LE32(0), LE32(9),
               LE32(10)));
    BOTH(42, WORDS(1, 2, 3, 4, 5, 6, 7, 8, 9),
         BYTES(LE32(1), LE32(0), LE32(0), LE32(0), LE32(0), LE32(0), LE32(0), LE32(0), LE32(2), LE32(3), LE32(4), LE32(5), LE32(6),
               LE32(7), LE32(8), LE32(9)));
    BOTH(40, WORDS(1, 2), BYTES(LE32(1), LE32(2)));
    BOTH(40, WORDS(1, 2, 3, 4), BYTES(LE32(1), LE32(2), LE32(3), LE32(4)));
    READS(40, 4, BYTES(LE32(1), LE32(2), LE32(3), LE32(4), LE32(5), LE16(6), 7), WORDS(1, 2, 3, 4)); /* a byte short of a third */
    BOTH(41, WORDS(1, 2, 3, 4, 5), BYTES(LE16(1), LE16(0), LE32(0), LE32(2), LE32(3), LE32(4), LE32(5)));
}

static void write_refusals(void) {
    WRITE_REFUSED(NO_ENTRY, 4, LEPUGASO_REFUSED_ENTRY, 0, WORDS(1));
    WRITE_REFUSED(UINT32_MAX, 4, LEPUGASO_REFUSED_ENTRY, 0, WORDS(1));
    WRITE_REFUSED(5, 64, LEPUGASO_REFUSED_ABSENT, 0, WORDS(1));
    WRITE_REFUSED(0, 64, LEPUGASO_REFUSED_NOT_STORABLE, 0, WORDS(1));
    WRITE_REFUSED(7, 64, LEPUGASO_REFUSED_NOT_STORABLE, 0, WORDS(1, 1));
    WRITE_REFUSED(22, 64, LEPUGASO_REFUSED_NOT_STORABLE, 0, WORDS(1, 1));
    WRITE_REFUSED(23, 64, LEPUGASO_REFUSED_NOT_STORABLE, 0, WORDS(1, 1));
    WRITE_REFUSED(6, 64, LEPUGASO_REFUSED_NOT_STORABLE, 0, WORDS(1, 1, 1));
    WRITE_REFUSED(26, 64, LEPUGASO_REFUSED_NOT_STORABLE, 0, WORDS(1, 1, 1, 1, 1, 1, 1, 1, 1, 1, 1, 1));
    WRITE_REFUSED(27, 64, LEPUGASO_REFUSED_NOT_STORABLE, 0, WORDS(1, 1, 1));
    WRITE_REFUSED(28, 64, LEPUGASO_REFUSED_NOT_STORABLE, 0, WORDS(1, 1, 1, 1));
    WRITE_REFUSED(29, 64, LEPUGASO_REFUSED_NOT_STORABLE, 0, WORDS(1, 1, 1, 1, 1, 1, 1, 1));
    WRITE_REFUSED(2, 64, LEPUGASO_REFUSED_WORDS, 0, NULL, 0);
    WRITE_REFUSED(2, 64, LEPUGASO_REFUSED_WORDS, 0, WORDS(1, 2));
    WRITE_REFUSED(16, 64, LEPUGASO_REFUSED_WORDS, 0, WORDS(1, 2, 3, 4));
    WRITE_REFUSED(16, 64, LEPUGASO_REFUSED_WORDS, 0, WORDS(1, 2, 3, 4, 5, 6));
    WRITE_REFUSED(17, 64, LEPUGASO_REFUSED_WORDS, 0, NULL, 0);
    WRITE_REFUSED(17, 64, LEPUGASO_REFUSED_WORDS, 0, WORDS(1, 2, 3));
    WRITE_REFUSED(18, 64, LEPUGASO_REFUSED_WORDS, 0, NULL, 0);
    WRITE_REFUSED(18, 64, LEPUGASO_REFUSED_WORDS, 0, WORDS(1)); /* no element */
    WRITE_REFUSED(18, 64, LEPUGASO_REFUSED_WORDS, 0, WORDS(1, 2, 3, 4));
    WRITE_REFUSED(18, 64, LEPUGASO_REFUSED_WORDS, 0, WORDS(1, 2, 3, 4, 5, 6));
    WRITE_REFUSED(2, 0, LEPUGASO_REFUSED_SHORT_BUFFER, 0, WORDS(1));
    WRITE_REFUSED(2, 3, LEPUGASO_REFUSED_SHORT_BUFFER, 0, WORDS(1));
    WRITE_REFUSED(11, 44, LEPUGASO_REFUSED_SHORT_BUFFER, 0, WORDS(1, 2, 3, 4, 5, 6, 7, 8, 9));
    WRITE_REFUSED(11, 47, LEPUGASO_REFUSED_SHORT_BUFFER, 0, WORDS(1, 2, 3, 4, 5, 6, 7, 8, 9));
    WRITE_REFUSED(15, 31, LEPUGASO_REFUSED_SHORT_BUFFER, 0, WORDS(1, 2, 3, 4, 5, 6));
    WRITE_REFUSED(18, 31, LEPUGASO_REFUSED_SHORT_BUFFER, 0, WORDS(1, 2, 3, 4, 5));
    WRITE_REFUSED(18, 47, LEPUGASO_REFUSED_SHORT_BUFFER, 0, WORDS(1, 2, 3, 4, 5, 6, 7, 8, 9));
    /* The lowest bad word, and no word that an f16 does not take is one. */
    WRITE_REFUSED(4, 2, LEPUGASO_REFUSED_F16_WORD, 0, WORDS(65536));
    WRITE_REFUSED(12, 16, LEPUGASO_REFUSED_F16_WORD, 4, WORDS(1, 2, 3, 4, UINT32_MAX, 65536));
    WRITE_REFUSED(20, 16, LEPUGASO_REFUSED_F16_WORD, 2, WORDS(1, UINT32_MAX, 65536, 4, 65536));
    WRITE_REFUSED(20, 16, LEPUGASO_REFUSED_F16_WORD, 0, WORDS(65536, UINT32_MAX, 65536, 4, 5));
    WRITE_REFUSED(21, 48, LEPUGASO_REFUSED_F16_WORD, 9, WORDS(1, UINT32_MAX, 3, 4, 5, 6, UINT32_MAX, 8, 9, 65536));
    WRITE_REFUSED(25, 48, LEPUGASO_REFUSED_F16_WORD, 1, WORDS(UINT32_MAX, 65536));
    WRITE_REFUSED(25, 48, LEPUGASO_REFUSED_F16_WORD, 3, WORDS(UINT32_MAX, 1, 2, 65536));
    /* As many words as the scalars take, not as there are scalars; and the bad one is counted in words (E6). */
    WRITE_REFUSED(31, 64, LEPUGASO_REFUSED_WORDS, 0, NULL, 0);
    WRITE_REFUSED(31, 64, LEPUGASO_REFUSED_WORDS, 0, WORDS(1));
    WRITE_REFUSED(31, 64, LEPUGASO_REFUSED_WORDS, 0, WORDS(1, 2, 3));
    WRITE_REFUSED(34, 64, LEPUGASO_REFUSED_WORDS, 0, WORDS(1, 2));
    WRITE_REFUSED(38, 64, LEPUGASO_REFUSED_WORDS, 0, WORDS(1, 2, 3));
    WRITE_REFUSED(38, 64, LEPUGASO_REFUSED_WORDS, 0, WORDS(1, 2, 3, 4));
    WRITE_REFUSED(38, 64, LEPUGASO_REFUSED_WORDS, 0, WORDS(1, 2, 3, 4, 5, 6));
    WRITE_REFUSED(40, 64, LEPUGASO_REFUSED_WORDS, 0, WORDS(1));
    WRITE_REFUSED(40, 64, LEPUGASO_REFUSED_WORDS, 0, WORDS(1, 2, 3));
    WRITE_REFUSED(41, 64, LEPUGASO_REFUSED_WORDS, 0, WORDS(1, 2, 3));
    WRITE_REFUSED(41, 64, LEPUGASO_REFUSED_WORDS, 0, WORDS(1, 2, 3, 4));
    WRITE_REFUSED(41, 64, LEPUGASO_REFUSED_WORDS, 0, WORDS(1, 2, 3, 4, 5, 6));
    WRITE_REFUSED(35, 64, LEPUGASO_REFUSED_ABSENT, 0, WORDS(1, 2, 3, 4, 5, 6));
    WRITE_REFUSED(37, 64, LEPUGASO_REFUSED_ABSENT, 0, WORDS(1, 2, 3, 4, 5, 6, 7, 8, 9, 10, 11, 12));
    WRITE_REFUSED(31, 7, LEPUGASO_REFUSED_SHORT_BUFFER, 0, WORDS(1, 2));
    WRITE_REFUSED(38, 23, LEPUGASO_REFUSED_SHORT_BUFFER, 0, WORDS(1, 2, 3, 4, 5));
    WRITE_REFUSED(40, 15, LEPUGASO_REFUSED_SHORT_BUFFER, 0, WORDS(1, 2, 3, 4));
    WRITE_REFUSED(38, 24, LEPUGASO_REFUSED_F16_WORD, 2, WORDS(UINT32_MAX, UINT32_MAX, 65536, UINT32_MAX, UINT32_MAX));
    WRITE_REFUSED(39, 48, LEPUGASO_REFUSED_F16_WORD, 7, WORDS(UINT32_MAX, UINT32_MAX, 3, UINT32_MAX, UINT32_MAX, 6, 7, 65536, 9, 10));
    WRITE_REFUSED(41, 48, LEPUGASO_REFUSED_F16_WORD, 0, WORDS(65536, UINT32_MAX, UINT32_MAX, 4, 5));
    /* Of two or more the first by document 01's order. */
    WRITE_REFUSED(35, 0, LEPUGASO_REFUSED_ABSENT, 0, WORDS(1));
    WRITE_REFUSED(38, 23, LEPUGASO_REFUSED_WORDS, 0, WORDS(1, 2, 65536));
    WRITE_REFUSED(5, 0, LEPUGASO_REFUSED_ABSENT, 0, NULL, 0);
    WRITE_REFUSED(0, 0, LEPUGASO_REFUSED_NOT_STORABLE, 0, NULL, 0);
    WRITE_REFUSED(4, 0, LEPUGASO_REFUSED_WORDS, 0, WORDS(65536, 65536));
    WRITE_REFUSED(4, 1, LEPUGASO_REFUSED_SHORT_BUFFER, 0, WORDS(65536));
}

static void read_refusals(void) {
    static const uint8_t bytes[64] = {1};
    READ_REFUSED(NO_ENTRY, 4, LEPUGASO_REFUSED_ENTRY, bytes, 64);
    READ_REFUSED(UINT32_MAX, 4, LEPUGASO_REFUSED_ENTRY, bytes, 64);
    READ_REFUSED(5, 4, LEPUGASO_REFUSED_ABSENT, bytes, 64);
    READ_REFUSED(0, 4, LEPUGASO_REFUSED_NOT_STORABLE, bytes, 64);
    READ_REFUSED(7, 4, LEPUGASO_REFUSED_NOT_STORABLE, bytes, 64);
    READ_REFUSED(22, 4, LEPUGASO_REFUSED_NOT_STORABLE, bytes, 64);
    READ_REFUSED(23, 4, LEPUGASO_REFUSED_NOT_STORABLE, bytes, 64);
    READ_REFUSED(6, 4, LEPUGASO_REFUSED_NOT_STORABLE, bytes, 64);
    READ_REFUSED(26, 12, LEPUGASO_REFUSED_NOT_STORABLE, bytes, 64);
    READ_REFUSED(27, 12, LEPUGASO_REFUSED_NOT_STORABLE, bytes, 64);
    READ_REFUSED(28, 4, LEPUGASO_REFUSED_NOT_STORABLE, bytes, 64);
    READ_REFUSED(29, 8, LEPUGASO_REFUSED_NOT_STORABLE, bytes, 64);
    READ_REFUSED(1, 4, LEPUGASO_REFUSED_SHORT_BUFFER, bytes, 0);
    READ_REFUSED(1, 4, LEPUGASO_REFUSED_SHORT_BUFFER, bytes, 3);
    READ_REFUSED(11, 16, LEPUGASO_REFUSED_SHORT_BUFFER, bytes, 44);
    READ_REFUSED(11, 16, LEPUGASO_REFUSED_SHORT_BUFFER, bytes, 47);
    READ_REFUSED(15, 16, LEPUGASO_REFUSED_SHORT_BUFFER, bytes, 31);
    READ_REFUSED(17, 16, LEPUGASO_REFUSED_SHORT_BUFFER, bytes, 15);
    READ_REFUSED(18, 16, LEPUGASO_REFUSED_SHORT_BUFFER, bytes, 0);
    READ_REFUSED(18, 16, LEPUGASO_REFUSED_SHORT_BUFFER, bytes, 15);
    READ_REFUSED(18, 16, LEPUGASO_REFUSED_SHORT_BUFFER, bytes, 16);
    READ_REFUSED(18, 16, LEPUGASO_REFUSED_SHORT_BUFFER, bytes, 31); /* P10 */
    READ_REFUSED(1, 0, LEPUGASO_REFUSED_WORDS, bytes, 64);
    READ_REFUSED(16, 4, LEPUGASO_REFUSED_WORDS, bytes, 64);
    READ_REFUSED(18, 4, LEPUGASO_REFUSED_WORDS, bytes, 47);
    READ_REFUSED(18, 8, LEPUGASO_REFUSED_WORDS, bytes, 48);
    READ_REFUSED(35, 6, LEPUGASO_REFUSED_ABSENT, bytes, 64);
    READ_REFUSED(37, 12, LEPUGASO_REFUSED_ABSENT, bytes, 64);
    READ_REFUSED(31, 4, LEPUGASO_REFUSED_SHORT_BUFFER, bytes, 7);
    READ_REFUSED(40, 4, LEPUGASO_REFUSED_SHORT_BUFFER, bytes, 7);
    READ_REFUSED(41, 9, LEPUGASO_REFUSED_SHORT_BUFFER, bytes, 23);
    READ_REFUSED(31, 1, LEPUGASO_REFUSED_WORDS, bytes, 64);
    READ_REFUSED(38, 3, LEPUGASO_REFUSED_WORDS, bytes, 64);
    READ_REFUSED(38, 4, LEPUGASO_REFUSED_WORDS, bytes, 64);
    READ_REFUSED(40, 3, LEPUGASO_REFUSED_WORDS, bytes, 16);
    READ_REFUSED(41, 4, LEPUGASO_REFUSED_WORDS, bytes, 24);
    /* Of two or more the first by document 01's order. */
    READ_REFUSED(5, 0, LEPUGASO_REFUSED_ABSENT, bytes, 0);
    READ_REFUSED(0, 0, LEPUGASO_REFUSED_NOT_STORABLE, bytes, 0);
    READ_REFUSED(1, 0, LEPUGASO_REFUSED_SHORT_BUFFER, bytes, 3);
    READ_REFUSED(18, 0, LEPUGASO_REFUSED_SHORT_BUFFER, bytes, 31);
}

#define M LEPUGASO_MEMBER
#define PATH WORDS
#define WHOLE (const uint32_t *)NULL, (size_t)0
#define NO_WORDS WHOLE

/* Views a buffer of `length` bytes: the part at `offset` of `size` bytes, or when refused the empty one at its start. */
#define VIEWS(entry, length, offset, size, ...) views(__LINE__, entry, length, 0, 0, offset, size, __VA_ARGS__)
#define VIEW_REFUSED(entry, length, refusal, place, ...) views(__LINE__, entry, length, refusal, place, 0, 0, __VA_ARGS__)
static void views(int line, uint32_t entry, size_t length, uint32_t refusal, uint32_t place, size_t offset, size_t size,
                  const uint32_t *path, size_t steps) {
    static const uint8_t bytes[64] = {1};
    const uint8_t *file = lent(stored, sizeof stored), *buf = lent(bytes, length), *part = NULL;
    const void *given = lent(path, steps * sizeof *path);
    size_t part_len = 999;
    expect(__FILE__, line, "viewing", lepugaso_view(file, sizeof stored, entry, given, steps, buf, length, &part, &part_len), refusal,
           place, offset);
    hold(__FILE__, line, "the part of the buffer", part == buf + offset && part_len == size);
}

/* Sets a scalar in a buffer of `length` bytes: those from `offset` on become `bytes`, as many as there are of them, and the others stay. */
#define SETS(entry, length, offset, ...) sets(__LINE__, entry, length, 0, 0, offset, __VA_ARGS__)
#define SET_REFUSED(entry, length, refusal, place, ...) sets(__LINE__, entry, length, refusal, place, 0, __VA_ARGS__, NULL, 0)
static void sets(int line, uint32_t entry, size_t length, uint32_t refusal, uint32_t place, size_t offset, const uint32_t *path,
                 size_t steps, const uint32_t *words, size_t count, const uint8_t *bytes, size_t width) {
    const uint8_t *file = lent(stored, sizeof stored);
    const void *given = lent(path, steps * sizeof *path), *new = lent(words, count * sizeof *words);
    uint8_t expected[64], *buf = fresh(length);
    memset(buf, OLD_BYTE, length);
    memset(expected, OLD_BYTE, sizeof expected);
    if (width) memcpy(expected + offset, bytes, width);
    expect(__FILE__, line, "setting", lepugaso_set(file, sizeof stored, entry, given, steps, new, count, buf, length), refusal, place,
           offset);
    hold(__FILE__, line, "the buffer after setting", memcmp(buf, expected, length) == 0);
}

static void viewed_parts(void) {
    VIEWS(2, 4, 0, 4, WHOLE);
    VIEWS(2, 64, 0, 4, WHOLE);
    VIEWS(4, 2, 0, 2, WHOLE);
    VIEWS(13, 4, 0, 4, WHOLE);
    VIEWS(8, 12, 8, 4, PATH(2));
    VIEWS(10, 6, 4, 2, PATH(2));
    /* A column has the bytes of its scalars, the gap after it is the matrix's. */
    VIEWS(11, 48, 0, 48, WHOLE);
    VIEWS(11, 48, 32, 12, PATH(2));
    VIEWS(11, 48, 36, 4, PATH(2, 1)); /* P11 */
    VIEWS(12, 16, 8, 6, PATH(1));
    VIEWS(12, 16, 12, 2, PATH(1, 2));
    VIEWS(15, 32, 16, 16, PATH(1));
    VIEWS(15, 32, 20, 4, PATH(1, M(0), 1));
    VIEWS(16, 32, 16, 12, PATH(M(1)));
    VIEWS(16, 32, 28, 4, PATH(M(2)));
    /* A target has its type's size, whatever size a member gives. */
    VIEWS(19, 24, 0, 4, PATH(M(0)));
    VIEWS(19, 24, 20, 4, PATH(M(1)));
    /* What is open runs to the end of its last whole element. */
    VIEWS(17, 47, 0, 32, WHOLE);
    VIEWS(18, 32, 0, 32, WHOLE);
    VIEWS(18, 47, 0, 32, WHOLE);
    VIEWS(18, 48, 0, 48, WHOLE);
    VIEWS(18, 47, 16, 16, PATH(M(1)));
    VIEWS(18, 48, 16, 32, PATH(M(1)));
    VIEWS(18, 48, 44, 4, PATH(M(1), 1, 3));
    VIEWS(21, 33, 28, 2, PATH(1, M(2), 2));
    /* A bool can be viewed. */
    VIEWS(0, 4, 0, 4, WHOLE);
    VIEWS(7, 8, 4, 4, PATH(1));
    VIEWS(22, 8, 4, 4, PATH(M(1)));
    VIEWS(23, 24, 16, 8, PATH(2));
    VIEWS(6, 12, 0, 12, WHOLE);
    VIEWS(6, 12, 8, 4, PATH(2));
    VIEWS(26, 64, 48, 12, PATH(3));
    VIEWS(26, 64, 56, 4, PATH(3, 2));
    VIEWS(27, 47, 0, 32, WHOLE);
    VIEWS(27, 47, 16, 12, PATH(1));
    VIEWS(28, 16, 0, 12, PATH(M(0)));
    VIEWS(28, 16, 4, 4, PATH(M(0), 1));
    VIEWS(28, 16, 12, 4, PATH(M(1)));
    VIEWS(29, 63, 0, 48, WHOLE);
    VIEWS(29, 63, 28, 4, PATH(M(1), M(1)));
    VIEWS(29, 64, 48, 12, PATH(M(2), 1));
    VIEWS(30, 32, 0, 12, PATH(M(0)));
    VIEWS(30, 32, 24, 4, PATH(M(1)));
    /* A scalar of 64 bits is one part, of eight bytes. */
    VIEWS(31, 8, 0, 8, WHOLE);
    VIEWS(34, 16, 8, 8, PATH(1));
    VIEWS(36, 32, 24, 8, PATH(3));
    VIEWS(38, 24, 8, 2, PATH(M(1)));
    VIEWS(38, 24, 16, 8, PATH(M(2)));
    VIEWS(39, 48, 40, 8, PATH(1, M(2)));
    VIEWS(40, 23, 0, 16, WHOLE);
    VIEWS(40, 23, 8, 8, PATH(1));
    VIEWS(41, 31, 16, 8, PATH(M(2)));
    VIEWS(42, 64, 56, 8, PATH(M(1), 3));
}

static void view_refusals(void) {
    VIEW_REFUSED(NO_ENTRY, 64, LEPUGASO_REFUSED_ENTRY, 0, WHOLE);
    VIEW_REFUSED(UINT32_MAX, 64, LEPUGASO_REFUSED_ENTRY, 0, WHOLE);
    VIEW_REFUSED(5, 64, LEPUGASO_REFUSED_ABSENT, 0, WHOLE);
    VIEW_REFUSED(5, 64, LEPUGASO_REFUSED_ABSENT, 0, PATH(0));
    VIEW_REFUSED(2, 0, LEPUGASO_REFUSED_SHORT_BUFFER, 0, WHOLE);
    VIEW_REFUSED(2, 3, LEPUGASO_REFUSED_SHORT_BUFFER, 0, WHOLE);
    VIEW_REFUSED(11, 47, LEPUGASO_REFUSED_SHORT_BUFFER, 0, PATH(0, 0));
    VIEW_REFUSED(6, 11, LEPUGASO_REFUSED_SHORT_BUFFER, 0, PATH(0));
    VIEW_REFUSED(26, 63, LEPUGASO_REFUSED_SHORT_BUFFER, 0, PATH(0));
    VIEW_REFUSED(27, 15, LEPUGASO_REFUSED_SHORT_BUFFER, 0, PATH(0));
    VIEW_REFUSED(29, 47, LEPUGASO_REFUSED_SHORT_BUFFER, 0, PATH(M(0)));
    VIEW_REFUSED(18, 31, LEPUGASO_REFUSED_SHORT_BUFFER, 0, PATH(M(0))); /* P10 */
    /* The first bad step. */
    VIEW_REFUSED(2, 4, LEPUGASO_REFUSED_MEMBER_STEP, 0, PATH(M(0)));
    VIEW_REFUSED(2, 4, LEPUGASO_REFUSED_INDEX_STEP, 0, PATH(0));
    VIEW_REFUSED(13, 4, LEPUGASO_REFUSED_MEMBER_STEP, 0, PATH(M(0)));
    VIEW_REFUSED(13, 4, LEPUGASO_REFUSED_INDEX_STEP, 0, PATH(0));
    VIEW_REFUSED(8, 12, LEPUGASO_REFUSED_MEMBER_STEP, 0, PATH(M(0)));
    VIEW_REFUSED(8, 12, LEPUGASO_REFUSED_INDEX, 0, PATH(3));
    VIEW_REFUSED(8, 12, LEPUGASO_REFUSED_INDEX, 0, PATH(INT32_MAX));
    VIEW_REFUSED(8, 12, LEPUGASO_REFUSED_INDEX_STEP, 1, PATH(2, 0, M(0)));
    VIEW_REFUSED(11, 48, LEPUGASO_REFUSED_MEMBER_STEP, 0, PATH(M(0)));
    VIEW_REFUSED(11, 48, LEPUGASO_REFUSED_MEMBER_STEP, 1, PATH(0, M(0)));
    VIEW_REFUSED(11, 48, LEPUGASO_REFUSED_INDEX, 0, PATH(3, 3));
    VIEW_REFUSED(11, 48, LEPUGASO_REFUSED_INDEX, 1, PATH(2, 3));
    VIEW_REFUSED(11, 48, LEPUGASO_REFUSED_INDEX_STEP, 2, PATH(2, 2, 0));
    VIEW_REFUSED(15, 32, LEPUGASO_REFUSED_INDEX, 0, PATH(2, M(7)));
    VIEW_REFUSED(15, 32, LEPUGASO_REFUSED_MEMBER_STEP, 1, PATH(1, M(1), 9));
    VIEW_REFUSED(16, 32, LEPUGASO_REFUSED_MEMBER_STEP, 0, PATH(M(3)));
    VIEW_REFUSED(16, 32, LEPUGASO_REFUSED_MEMBER_STEP, 0, PATH(UINT32_MAX));
    VIEW_REFUSED(16, 32, LEPUGASO_REFUSED_INDEX_STEP, 0, PATH(0));
    VIEW_REFUSED(18, 47, LEPUGASO_REFUSED_INDEX, 1, PATH(M(1), 1));
    VIEW_REFUSED(18, 48, LEPUGASO_REFUSED_INDEX, 2, PATH(M(1), 1, 4));
    VIEW_REFUSED(18, 48, LEPUGASO_REFUSED_INDEX_STEP, 1, PATH(M(0), 0));
    VIEW_REFUSED(6, 12, LEPUGASO_REFUSED_INDEX, 0, PATH(3));
    VIEW_REFUSED(27, 47, LEPUGASO_REFUSED_INDEX, 0, PATH(2));
    VIEW_REFUSED(28, 16, LEPUGASO_REFUSED_MEMBER_STEP, 0, PATH(M(2)));
    VIEW_REFUSED(35, 24, LEPUGASO_REFUSED_ABSENT, 0, PATH(0));
    VIEW_REFUSED(37, 64, LEPUGASO_REFUSED_ABSENT, 0, PATH(0));
    VIEW_REFUSED(31, 7, LEPUGASO_REFUSED_SHORT_BUFFER, 0, WHOLE);
    VIEW_REFUSED(31, 8, LEPUGASO_REFUSED_MEMBER_STEP, 0, PATH(M(0)));
    VIEW_REFUSED(32, 8, LEPUGASO_REFUSED_INDEX_STEP, 0, PATH(0)); /* no path leads to one of its words */
    VIEW_REFUSED(36, 32, LEPUGASO_REFUSED_INDEX, 0, PATH(4));
    VIEW_REFUSED(36, 32, LEPUGASO_REFUSED_INDEX_STEP, 1, PATH(3, 1));
    VIEW_REFUSED(40, 23, LEPUGASO_REFUSED_INDEX, 0, PATH(2));
    /* Of two or more the first by document 01's order. */
    VIEW_REFUSED(5, 0, LEPUGASO_REFUSED_ABSENT, 0, PATH(M(0)));
    VIEW_REFUSED(0, 0, LEPUGASO_REFUSED_SHORT_BUFFER, 0, PATH(M(0)));
    VIEW_REFUSED(16, 31, LEPUGASO_REFUSED_SHORT_BUFFER, 0, PATH(0));
}

static void set_scalars(void) {
    SETS(1, 4, 0, WHOLE, WORDS((uint32_t)-1), BYTES(0xFF, 0xFF, 0xFF, 0xFF));
    SETS(2, 9, 0, WHOLE, WORDS(0x04030201), BYTES(1, 2, 3, 4));
    SETS(3, 4, 0, WHOLE, WORDS(0x7F800001), BYTES(1, 0, 0x80, 0x7F)); /* a NaN that signals */
    SETS(4, 4, 0, WHOLE, WORDS(65535), BYTES(0xFF, 0xFF));
    SETS(13, 4, 0, WHOLE, WORDS(0x80000001), BYTES(1, 0, 0, 0x80));
    SETS(8, 12, 8, PATH(2), WORDS(7), BYTES(LE32(7)));
    SETS(11, 48, 36, PATH(2, 1), WORDS(7), BYTES(LE32(7)));
    SETS(12, 16, 12, PATH(1, 2), WORDS(7), BYTES(LE16(7)));
    SETS(15, 40, 20, PATH(1, M(0), 1), WORDS(7), BYTES(LE32(7)));
    SETS(16, 32, 28, PATH(M(2)), WORDS(7), BYTES(LE32(7)));
    SETS(18, 47, 0, PATH(M(0)), WORDS(7), BYTES(LE32(7)));
    SETS(18, 48, 44, PATH(M(1), 1, 3), WORDS(7), BYTES(LE32(7)));
    SETS(19, 24, 0, PATH(M(0)), WORDS(7), BYTES(LE32(7)));
    SETS(21, 33, 28, PATH(1, M(2), 2), WORDS(65535), BYTES(0xFF, 0xFF));
    SETS(21, 33, 20, PATH(1, M(1)), WORDS(65536), BYTES(LE32(65536)));
    /* Both words of a scalar of 64 bits, the low one first (E6). */
    SETS(31, 8, 0, WHOLE, WORDS(0x04030201, 0x08070605), BYTES(1, 2, 3, 4, 5, 6, 7, 8));
    SETS(31, 9, 0, WHOLE, WORDS((uint32_t)-2, (uint32_t)-1), BYTES(0xFE, 0xFF, 0xFF, 0xFF, 0xFF, 0xFF, 0xFF, 0xFF));
    SETS(32, 8, 0, WHOLE, WORDS(UINT32_MAX, 0), BYTES(LE32(0xFFFFFFFF), LE32(0)));
    SETS(33, 8, 0, WHOLE, WORDS(1, 0x7FF00000), BYTES(1, 0, 0, 0, 0, 0, 0xF0, 0x7F)); /* a NaN that signals */
    SETS(34, 16, 8, PATH(1), WORDS(7, 8), BYTES(LE32(7), LE32(8)));
    SETS(36, 32, 24, PATH(3), WORDS(7, 8), BYTES(LE32(7), LE32(8)));
    SETS(38, 24, 0, PATH(M(0)), WORDS(7, 8), BYTES(LE32(7), LE32(8)));
    SETS(38, 24, 8, PATH(M(1)), WORDS(65535), BYTES(0xFF, 0xFF));
    SETS(38, 24, 16, PATH(M(2)), WORDS(65536, UINT32_MAX), BYTES(LE32(65536), LE32(0xFFFFFFFF)));
    SETS(39, 50, 40, PATH(1, M(2)), WORDS(7, 8), BYTES(LE32(7), LE32(8)));
    SETS(40, 31, 16, PATH(2), WORDS(7, 8), BYTES(LE32(7), LE32(8)));
    SETS(41, 31, 8, PATH(M(1)), WORDS(7, 8), BYTES(LE32(7), LE32(8)));
    SETS(41, 32, 24, PATH(M(2), 1), WORDS(7, 8), BYTES(LE32(7), LE32(8)));
    SETS(42, 64, 0, PATH(M(0)), WORDS(7), BYTES(LE32(7)));
    SETS(42, 64, 56, PATH(M(1), 3), WORDS(7, 8), BYTES(LE32(7), LE32(8)));
}

static void set_refusals(void) {
    SET_REFUSED(NO_ENTRY, 64, LEPUGASO_REFUSED_ENTRY, 0, WHOLE, WORDS(1));
    SET_REFUSED(5, 64, LEPUGASO_REFUSED_ABSENT, 0, WHOLE, WORDS(1));
    SET_REFUSED(0, 64, LEPUGASO_REFUSED_NOT_STORABLE, 0, WHOLE, WORDS(1));
    SET_REFUSED(22, 64, LEPUGASO_REFUSED_NOT_STORABLE, 0, PATH(M(0)), WORDS(1));
    SET_REFUSED(23, 64, LEPUGASO_REFUSED_NOT_STORABLE, 0, PATH(0, 0), WORDS(1));
    SET_REFUSED(6, 64, LEPUGASO_REFUSED_NOT_STORABLE, 0, PATH(0), WORDS(1));
    SET_REFUSED(26, 64, LEPUGASO_REFUSED_NOT_STORABLE, 0, PATH(3, 2), WORDS(1));
    SET_REFUSED(27, 64, LEPUGASO_REFUSED_NOT_STORABLE, 0, PATH(0, 0), WORDS(1));
    SET_REFUSED(28, 64, LEPUGASO_REFUSED_NOT_STORABLE, 0, PATH(M(0), 1), WORDS(1));
    SET_REFUSED(29, 64, LEPUGASO_REFUSED_NOT_STORABLE, 0, PATH(M(0)), WORDS(1));
    SET_REFUSED(2, 3, LEPUGASO_REFUSED_SHORT_BUFFER, 0, WHOLE, WORDS(1));
    SET_REFUSED(11, 47, LEPUGASO_REFUSED_SHORT_BUFFER, 0, PATH(0, 0), WORDS(1));
    SET_REFUSED(18, 31, LEPUGASO_REFUSED_SHORT_BUFFER, 0, PATH(M(0)), WORDS(1));
    SET_REFUSED(16, 32, LEPUGASO_REFUSED_MEMBER_STEP, 0, PATH(M(3)), WORDS(1));
    SET_REFUSED(18, 47, LEPUGASO_REFUSED_INDEX, 1, PATH(M(1), 1, 0), WORDS(1));
    SET_REFUSED(11, 48, LEPUGASO_REFUSED_INDEX, 1, PATH(2, 3), WORDS(1));
    SET_REFUSED(13, 4, LEPUGASO_REFUSED_INDEX_STEP, 0, PATH(0), WORDS(1));
    SET_REFUSED(8, 12, LEPUGASO_REFUSED_WORDS, 0, WHOLE, WORDS(1));
    SET_REFUSED(11, 48, LEPUGASO_REFUSED_WORDS, 0, PATH(1), WORDS(1)); /* a column */
    SET_REFUSED(16, 32, LEPUGASO_REFUSED_WORDS, 0, PATH(M(1)), WORDS(1));
    SET_REFUSED(18, 48, LEPUGASO_REFUSED_WORDS, 0, PATH(M(1)), WORDS(1));
    SET_REFUSED(4, 2, LEPUGASO_REFUSED_F16_WORD, 0, WHOLE, WORDS(65536));
    SET_REFUSED(21, 32, LEPUGASO_REFUSED_F16_WORD, 0, PATH(1, M(2), 2), WORDS(UINT32_MAX));
    /* Another number of words than the scalar has (E6): of 64 bits two, of any other one. */
    SET_REFUSED(31, 8, LEPUGASO_REFUSED_WORDS, 0, WHOLE, NO_WORDS);
    SET_REFUSED(31, 8, LEPUGASO_REFUSED_WORDS, 0, WHOLE, WORDS(1));
    SET_REFUSED(31, 8, LEPUGASO_REFUSED_WORDS, 0, WHOLE, WORDS(1, 2, 3));
    SET_REFUSED(32, 8, LEPUGASO_REFUSED_WORDS, 0, WHOLE, WORDS(1));
    SET_REFUSED(33, 8, LEPUGASO_REFUSED_WORDS, 0, WHOLE, WORDS(1, 2, 3, 4));
    SET_REFUSED(36, 32, LEPUGASO_REFUSED_WORDS, 0, PATH(3), WORDS(1));
    SET_REFUSED(38, 24, LEPUGASO_REFUSED_WORDS, 0, PATH(M(2)), WORDS(1));
    SET_REFUSED(38, 24, LEPUGASO_REFUSED_WORDS, 0, PATH(M(1)), WORDS(1, 2));
    SET_REFUSED(40, 16, LEPUGASO_REFUSED_WORDS, 0, PATH(1), WORDS(1));
    SET_REFUSED(1, 4, LEPUGASO_REFUSED_WORDS, 0, WHOLE, NO_WORDS);
    SET_REFUSED(1, 8, LEPUGASO_REFUSED_WORDS, 0, WHOLE, WORDS(1, 2));
    SET_REFUSED(3, 8, LEPUGASO_REFUSED_WORDS, 0, WHOLE, WORDS(1, 2));
    SET_REFUSED(13, 8, LEPUGASO_REFUSED_WORDS, 0, WHOLE, WORDS(1, 2));
    SET_REFUSED(4, 2, LEPUGASO_REFUSED_WORDS, 0, WHOLE, NO_WORDS);
    SET_REFUSED(4, 4, LEPUGASO_REFUSED_WORDS, 0, WHOLE, WORDS(1, 2));
    SET_REFUSED(16, 32, LEPUGASO_REFUSED_WORDS, 0, PATH(M(2)), WORDS(1, 2, 3, 4, 5));
    /* No single scalar, with as many words as there are. */
    SET_REFUSED(34, 16, LEPUGASO_REFUSED_WORDS, 0, WHOLE, WORDS(1, 2, 3, 4));
    SET_REFUSED(38, 24, LEPUGASO_REFUSED_WORDS, 0, WHOLE, WORDS(1, 2, 3, 4, 5));
    SET_REFUSED(40, 8, LEPUGASO_REFUSED_WORDS, 0, WHOLE, WORDS(1, 2));
    SET_REFUSED(14, 16, LEPUGASO_REFUSED_WORDS, 0, PATH(M(0)), WORDS(1, 2, 3));
    SET_REFUSED(35, 24, LEPUGASO_REFUSED_ABSENT, 0, PATH(0), WORDS(1, 2));
    SET_REFUSED(37, 64, LEPUGASO_REFUSED_ABSENT, 0, PATH(0, 0), WORDS(1, 2));
    SET_REFUSED(31, 7, LEPUGASO_REFUSED_SHORT_BUFFER, 0, WHOLE, WORDS(1, 2));
    SET_REFUSED(31, 8, LEPUGASO_REFUSED_INDEX_STEP, 0, PATH(0), WORDS(1));
    /* Of two or more the first by document 01's order. */
    SET_REFUSED(NO_ENTRY, 0, LEPUGASO_REFUSED_ENTRY, 0, PATH(0), NO_WORDS);
    SET_REFUSED(35, 0, LEPUGASO_REFUSED_ABSENT, 0, PATH(3), NO_WORDS);
    SET_REFUSED(0, 0, LEPUGASO_REFUSED_NOT_STORABLE, 0, PATH(M(0)), NO_WORDS);
    SET_REFUSED(31, 7, LEPUGASO_REFUSED_SHORT_BUFFER, 0, PATH(0), WORDS(1));
    SET_REFUSED(34, 16, LEPUGASO_REFUSED_INDEX, 0, PATH(2), WORDS(1, 2, 3));
    SET_REFUSED(38, 24, LEPUGASO_REFUSED_MEMBER_STEP, 0, PATH(M(3)), NO_WORDS);
    SET_REFUSED(4, 2, LEPUGASO_REFUSED_WORDS, 0, WHOLE, WORDS(65536, 65536));
    SET_REFUSED(4, 1, LEPUGASO_REFUSED_SHORT_BUFFER, 0, WHOLE, WORDS(65536, 65536));
    SET_REFUSED(5, 0, LEPUGASO_REFUSED_ABSENT, 0, PATH(M(0)), WORDS(65536));
    SET_REFUSED(0, 0, LEPUGASO_REFUSED_NOT_STORABLE, 0, PATH(M(0)), WORDS(65536));
    SET_REFUSED(16, 31, LEPUGASO_REFUSED_SHORT_BUFFER, 0, PATH(0), WORDS(1));
    SET_REFUSED(10, 6, LEPUGASO_REFUSED_INDEX, 0, PATH(3), WORDS(65536));
    SET_REFUSED(10, 6, LEPUGASO_REFUSED_WORDS, 0, WHOLE, WORDS(65536));
}

/* Lengths above 32 bits are not cut. Of these bytes and words only the first page can be touched. */
static void long_regions(const uint8_t *file, size_t length) {
    const uint64_t limit = 4294967295u;
    size_t room = (limit + 2) * sizeof(uint32_t);
    uint8_t *bytes = mmap(NULL, limit + 1, PROT_NONE, MAP_PRIVATE | MAP_ANONYMOUS | MAP_NORESERVE, -1, 0);
    uint8_t *words = mmap(NULL, room, PROT_NONE, MAP_PRIVATE | MAP_ANONYMOUS | MAP_NORESERVE, -1, 0);
    if (bytes == MAP_FAILED || words == MAP_FAILED) exit(2);
    if (mprotect(bytes, PAGE, PROT_READ | PROT_WRITE) || mprotect(words, PAGE, PROT_READ | PROT_WRITE)) exit(2);
    uint32_t *many = (uint32_t *)(void *)words;
    bytes[0] = 1;
    many[0] = 2;

    EXPECT(lepugaso_read(file, length, 2, bytes, limit, many, limit + 2), 0, 0, 1);
    HOLDS(many[0] == 1 && many[1] == 0);
    many[0] = 2;
    EXPECT(lepugaso_write(file, length, 2, many, 1, bytes, limit), 0, 0, 4);
    HOLDS(bytes[0] == 2 && bytes[4] == 0);
    EXPECT(lepugaso_write(file, length, 2, many, limit + 2, bytes, limit), LEPUGASO_REFUSED_WORDS, 0, 0);

    /* After 8, before everything else. */
    EXPECT(lepugaso_read(file, length, 2, bytes, limit + 1, many, 1), LEPUGASO_REFUSED_LONG_BUFFER, 0, 0);
    EXPECT(lepugaso_read(file, length, NO_ENTRY, bytes, limit + 1, many, 1), LEPUGASO_REFUSED_ENTRY, 0, 0);
    EXPECT(lepugaso_read(file, length, 5, bytes, limit + 1, many, 1), LEPUGASO_REFUSED_LONG_BUFFER, 0, 0);
    EXPECT(lepugaso_read(file, length, 0, bytes, limit + 1, NULL, 0), LEPUGASO_REFUSED_LONG_BUFFER, 0, 0);
    EXPECT(lepugaso_write(file, length, 2, many, 1, bytes, limit + 1), LEPUGASO_REFUSED_LONG_BUFFER, 0, 0);
    EXPECT(lepugaso_write(file, length, NO_ENTRY, many, 1, bytes, limit + 1), LEPUGASO_REFUSED_ENTRY, 0, 0);
    EXPECT(lepugaso_write(file, length, 5, many, 1, bytes, limit + 1), LEPUGASO_REFUSED_LONG_BUFFER, 0, 0);
    EXPECT(lepugaso_write(file, length, 0, NULL, 0, bytes, limit + 1), LEPUGASO_REFUSED_LONG_BUFFER, 0, 0);

    const uint8_t *part;
    size_t part_len;
    EXPECT(lepugaso_view(file, length, 17, PATH(0x0FFFFFFE, 3), bytes, limit, &part, &part_len), 0, 0, limit - 19);
    HOLDS(part == bytes + limit - 19 && part_len == 4);
    EXPECT(lepugaso_view(file, length, 17, WHOLE, bytes, limit, &part, &part_len), 0, 0, 0);
    HOLDS(part == bytes && part_len == limit - 15);
    EXPECT(lepugaso_view(file, length, 17, PATH(0x0FFFFFFF), bytes, limit, &part, &part_len), LEPUGASO_REFUSED_INDEX, 0, 0);
    EXPECT(lepugaso_view(file, length, 2, WHOLE, bytes, limit + 1, &part, &part_len), LEPUGASO_REFUSED_LONG_BUFFER, 0, 0);
    EXPECT(lepugaso_view(file, length, NO_ENTRY, WHOLE, bytes, limit + 1, &part, &part_len), LEPUGASO_REFUSED_ENTRY, 0, 0);
    EXPECT(lepugaso_view(file, length, 5, WHOLE, bytes, limit + 1, &part, &part_len), LEPUGASO_REFUSED_LONG_BUFFER, 0, 0);
    HOLDS(part == bytes && part_len == 0);
    EXPECT(lepugaso_set(file, length, 17, PATH(255, 3), WORDS(9), bytes, limit), 0, 0, PAGE - 4);
    HOLDS(bytes[PAGE - 4] == 9);
    EXPECT(lepugaso_set(file, length, 2, WHOLE, many, limit + 2, bytes, limit), LEPUGASO_REFUSED_WORDS, 0, 0);
    EXPECT(lepugaso_set(file, length, 2, WHOLE, WORDS(3), bytes, limit + 1), LEPUGASO_REFUSED_LONG_BUFFER, 0, 0);
    EXPECT(lepugaso_set(file, length, NO_ENTRY, WHOLE, WORDS(3), bytes, limit + 1), LEPUGASO_REFUSED_ENTRY, 0, 0);
    EXPECT(lepugaso_set(file, length, 0, PATH(0), WORDS(3), bytes, limit + 1), LEPUGASO_REFUSED_LONG_BUFFER, 0, 0);
    HOLDS(bytes[0] == 2 && many[0] == 2 && many[1] == 0);
    if (munmap(bytes, limit + 1) || munmap(words, room)) exit(2);
}

int main(void) {
    const uint8_t *file = lent(good, sizeof good);
    refused_files();
    questions(file, sizeof good);
    layouts(file, sizeof good);
    strides();
    uniform_buffers();
    conversions(file, sizeof good);
    vectors_of_bools();
    wide_layouts();
    stored_values();
    write_refusals();
    read_refusals();
    viewed_parts();
    view_refusals();
    set_scalars();
    set_refusals();
    long_regions(lent(stored, sizeof stored), sizeof stored);
    return failures != 0;
}
