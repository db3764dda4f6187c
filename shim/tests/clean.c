/* Cleaning the gaps (E9), beside maps that are written by hand and beside layouts that are worked out here by WGSL's rules. What is lent
 * stands at the end of a page after which nothing can be touched, and what is lent to be read cannot be written. Long buffers are in
 * large.c, bad files in calls.c. */
#include "pages.h"
#include "test.h"

#define COUNT(list) (sizeof(list) / sizeof(list)[0])

enum { MOST = 4096, SPARE = 19 };
#define UNTOUCHED UINT64_C(0xA5A5A5A5A5A5A5A5)

/* xorshift: a word that looks like any other */
static uint32_t next_word(void) {
    static uint32_t word = 2463534242u;
    word ^= word << 13;
    word ^= word >> 17;
    word ^= word << 5;
    return word;
}

/* ---- one cleaning, held to what it must do */

/* An entry of a file: how many bytes it has in a buffer, and of which of them a scalar is made. */
struct entry {
    const uint8_t *file;
    size_t length;
    uint32_t number;
    size_t extent;
    uint8_t covered[MOST];
};

/* A buffer, of which the last bytes are lent, and the place for the first changed one. */
static uint8_t *room;
static uint64_t *first;

/* Cleans a buffer that holds `bytes`. All words read as before, and written anew into any bytes they give the same ones; cleaned again,
 * nothing changes. */
static void cleans(int line, const struct entry *e, const uint8_t *bytes, size_t length) {
    static uint32_t before[MOST], after[MOST];
    static uint8_t expected[MOST], anew[MOST];
    uint8_t *buf = room + MOST - length;
    uint64_t changed = 0, at = e->extent;
    memcpy(buf, bytes, length);
    memcpy(expected, bytes, length);
    for (size_t k = e->extent; k-- > 0;) {
        if (e->covered[k] || bytes[k] == 0) continue;
        expected[k] = 0;
        changed++;
        at = k;
    }
    uint64_t count = lepugaso_read(e->file, e->length, e->number, buf, length, before, MOST).value;
    *first = UNTOUCHED;
    expect(__FILE__, line, "cleaning", lepugaso_clean(e->file, e->length, e->number, buf, length, first), 0, 0, changed);
    hold(__FILE__, line, "the first changed byte", *first == at);
    hold(__FILE__, line, "the buffer after cleaning", memcmp(buf, expected, length) == 0);

    expect(__FILE__, line, "reading", lepugaso_read(e->file, e->length, e->number, buf, length, after, MOST), 0, 0, count);
    hold(__FILE__, line, "the words after cleaning", count > 0 && memcmp(before, after, count * sizeof *after) == 0);
    memset(anew, 0xA5, sizeof anew);
    expect(__FILE__, line, "writing", lepugaso_write(e->file, e->length, e->number, before, count, anew, length), 0, 0, e->extent);
    hold(__FILE__, line, "the words written anew", memcmp(buf, anew, e->extent) == 0);

    *first = UNTOUCHED;
    expect(__FILE__, line, "cleaning again", lepugaso_clean(e->file, e->length, e->number, buf, length, first), 0, 0, 0);
    hold(__FILE__, line, "no changed byte", *first == e->extent);
    hold(__FILE__, line, "the buffer after cleaning again", memcmp(buf, expected, length) == 0);
}

/* Rubbish everywhere; in the gaps alone, and everywhere else; in some bytes, whichever they are. */
static void rubbish(int line, const struct entry *e, size_t length) {
    static uint8_t bytes[MOST];
    for (int turn = 0; turn < 6; turn++) {
        for (size_t k = 0; k < length; k++) {
            int gap = k < e->extent && !e->covered[k];
            uint32_t word = next_word();
            uint8_t some = (uint8_t)(word % 255 + 1);
            bytes[k] = turn == 0 || (turn == 1 && gap) || (turn == 2 && !gap) || (turn > 2 && word >> 24 < 256u >> (turn - 2)) ? some : 0;
        }
        cleans(line, e, bytes, length);
    }
}

/* One byte that is not 0, wherever it lies, and all but one. */
static void each_byte(int line, const struct entry *e, size_t length) {
    static uint8_t bytes[MOST];
    for (size_t k = 0; k < length; k++) {
        memset(bytes, 0, length);
        bytes[k] = k % 2 ? 1 : 0x80;
        cleans(line, e, bytes, length);
        memset(bytes, 0x5A, length);
        bytes[k] = 0;
        cleans(line, e, bytes, length);
    }
}

/* Refused, with nothing changed. */
static void refused(int line, const uint8_t *file, size_t file_len, uint32_t entry, size_t length, uint32_t refusal) {
    uint8_t *buf = room + MOST - length;
    memset(room, 0x5A, MOST);
    *first = UNTOUCHED;
    expect(__FILE__, line, "a refused cleaning", lepugaso_clean(file, file_len, entry, buf, length, first), refusal, 0, 0);
    hold(__FILE__, line, "what a refused cleaning leaves", room[0] == 0x5A && memcmp(room, room + 1, MOST - 1) == 0);
    hold(__FILE__, line, "the first byte of a refused cleaning", *first == UNTOUCHED);
}

/* ---- maps by hand: a letter for two bytes, x where a scalar lies and . where none does */

static const uint8_t types[] = {
    U32,               /* 0 */
    F32,               /* 1 */
    F16,               /* 2 */
    I64,               /* 3 */
    BOOL,              /* 4 */
    ABSTRACT_INT,      /* 5: no layout */
    ATOMIC(0),         /* 6 */
    VECTOR(3, 1),      /* 7: vec3<f32> */
    VECTOR(3, 2),      /* 8: vec3<f16> */
    VECTOR(2, 3),      /* 9: vec2<i64> */
    VECTOR(4, 2),      /* 10: vec4<f16> */
    MATRIX(3, 3, 1),   /* 11: mat3x3<f32> */
    MATRIX(2, 3, 2),   /* 12: mat2x3<f16> */
    MATRIX(4, 2, 1),   /* 13: mat4x2<f32> */
    ARRAY(7, 3),       /* 14: of vec3<f32> */
    ARRAY(8, 2),       /* 15: of vec3<f16> */
    ARRAY(0, 5),       /* 16: of u32 */
    STRUCT(0, 1),      /* 17: vec3<f32> */
    STRUCT(1, 3),      /* 18: u32, vec3<f32>, f32 (P6) */
    ARRAY(18, 2),      /* 19 */
    STRUCT(4, 2),      /* 20: vec3<f32>, u32: its fourth word */
    STRUCT(6, 2),      /* 21: u32 of size 20, u32 (P7) */
    STRUCT(8, 2),      /* 22: f16 of size 5, f16 */
    STRUCT(10, 2),     /* 23: u32, u32 of align 16 (P8) */
    STRUCT(12, 3),     /* 24: i64, f16, i64 */
    STRUCT(15, 2),     /* 25: 17 of size 28, f16 */
    STRUCT(17, 3),     /* 26: f16, 15, atomic<u32> */
    ARRAY(26, 2),      /* 27 */
    STRUCT(20, 4),     /* 28: mat3x3<f32>, vec2<i64>, f16, mat2x3<f16> */
    STRUCT(24, 3),     /* 29: f16, 27, 21 of size 24 and align 32 */
    ARRAY(29, 2),      /* 30 */
    ARRAY(15, 2),      /* 31: of arrays of vec3<f16> */
    STRUCT(27, 1),     /* 32: f16 of size 9 */
    ARRAY(32, 3),      /* 33 */
    RUNTIME_ARRAY(0),  /* 34: of u32 */
    RUNTIME_ARRAY(7),  /* 35: of vec3<f32> */
    RUNTIME_ARRAY(22), /* 36 */
    RUNTIME_ARRAY(18), /* 37 */
    RUNTIME_ARRAY(2),  /* 38: of f16 */
    RUNTIME_ARRAY(24), /* 39 */
    STRUCT(28, 2),     /* 40: f16, 35 */
    STRUCT(30, 2),     /* 41: u32 of size 20, 39 */
    STRUCT(32, 2),     /* 42: vec3<f32>, 38: elements in the fourth word */
    STRUCT(34, 3),     /* 43: u32, vec3<f16>, 35 of align 32 */
    STRUCT(37, 2),     /* 44: u32, bool */
    RUNTIME_ARRAY(4),  /* 45: of bool */
    STRUCT(39, 2),     /* 46: u32, 45 */
    ARRAY(5, 2),       /* 47: of abstract int, no layout */
    VECTOR(3, 3),      /* 48: vec3<i64>, no layout */
    MEMBER(7),                                                    /* 0 */
    MEMBER(0), MEMBER(7), MEMBER(1),                              /* 1 to 3 */
    MEMBER(7), MEMBER(0),                                         /* 4, 5 */
    MEMBER_SIZE(0, 20), MEMBER(0),                                /* 6, 7 */
    MEMBER_SIZE(2, 5), MEMBER(2),                                 /* 8, 9 */
    MEMBER(0), MEMBER_ALIGN(0, 16),                               /* 10, 11 */
    MEMBER(3), MEMBER(2), MEMBER(3),                              /* 12 to 14 */
    MEMBER_SIZE(17, 28), MEMBER(2),                               /* 15, 16 */
    MEMBER(2), MEMBER(15), MEMBER(6),                             /* 17 to 19 */
    MEMBER(11), MEMBER(9), MEMBER(2), MEMBER(12),                 /* 20 to 23 */
    MEMBER(2), MEMBER(27), LE16(21), LE16(3), LE32(24), LE32(32), /* 24 to 26 */
    MEMBER_SIZE(2, 9),                                            /* 27 */
    MEMBER(2), MEMBER(35),                                        /* 28, 29 */
    MEMBER_SIZE(0, 20), MEMBER(39),                               /* 30, 31 */
    MEMBER(7), MEMBER(38),                                        /* 32, 33 */
    MEMBER(0), MEMBER(8), MEMBER_ALIGN(35, 32),                   /* 34 to 36 */
    MEMBER(0), MEMBER(4),                                         /* 37, 38 */
    MEMBER(0), MEMBER(45),                                        /* 39, 40 */
    TRAILER(49, 41),
};
enum { NO_ENTRY = 49 };

#define MAP_26 "x...xxx.xxx.xx.."
#define MAP_29 "x..." MAP_26 MAP_26 "............xx........xx...."
static const struct {
    uint32_t entry;
    const char *fixed, *element; /* of an open type what stands before its array, and an element; of any other all of it */
} maps[] = {
    {0, "xx", ""},
    {2, "x", ""},
    {3, "xxxx", ""},
    {6, "xx", ""},
    /* A vec3 that is not within anything has no fourth word. */
    {7, "xxxxxx", ""},
    {8, "xxx", ""},
    {9, "xxxxxxxx", ""},
    {10, "xxxx", ""},
    {11, "xxxxxx..xxxxxx..xxxxxx..", ""},
    {12, "xxx.xxx.", ""},
    {13, "xxxxxxxxxxxxxxxx", ""},
    {14, "xxxxxx..xxxxxx..xxxxxx..", ""},
    {15, "xxx.xxx.", ""},
    {16, "xxxxxxxxxx", ""},
    {17, "xxxxxx..", ""},
    {18, "xx......xxxxxxxx", ""},
    {19, "xx......xxxxxxxxxx......xxxxxxxx", ""},
    {20, "xxxxxxxx", ""},
    {21, "xx........xx", ""},
    {22, "x..x", ""},
    {23, "xx......xx......", ""},
    {24, "xxxxx...xxxx", ""},
    {25, "xxxxxx........x.", ""},
    {26, MAP_26, ""},
    {27, MAP_26 MAP_26, ""},
    {28, "xxxxxx..xxxxxx..xxxxxx..xxxxxxxxx...xxx.xxx.....", ""},
    {29, MAP_29, ""},
    {30, MAP_29 MAP_29, ""},
    {31, "xxx.xxx.xxx.xxx.", ""},
    {32, "x....", ""},
    {33, "x....x....x....", ""},
    {34, "", "xx"},
    {35, "", "xxxxxx.."},
    {36, "", "x..x"},
    {37, "", "xx......xxxxxxxx"},
    {38, "", "x"},
    {39, "", "xxxxx...xxxx"},
    {40, "x.......", "xxxxxx.."},
    {41, "xx..........", "xxxxx...xxxx"},
    {42, "xxxxxx", "x"},
    {43, "xx..xxx.........", "xxxxxx.."},
};

/* The entry of a map with so many elements. */
static struct entry mapped(const uint8_t *file, size_t k, size_t elements) {
    struct entry e = {.file = file, .length = sizeof types, .number = maps[k].entry};
    const char *from = maps[k].fixed;
    for (size_t n = 0; n <= elements; n++, from = maps[k].element) {
        for (; *from; from++, e.extent += 2) e.covered[e.extent] = e.covered[e.extent + 1] = *from == 'x';
    }
    return e;
}

static void by_hand(void) {
    const uint8_t *file = lent(types, sizeof types);
    for (size_t k = 0; k < COUNT(maps); k++) {
        size_t fixed = 2 * strlen(maps[k].fixed), stride = 2 * strlen(maps[k].element);
        if (stride) {
            /* Every length around whole elements: below one it is refused, and what is left of the next stays. */
            for (size_t length = 0; length <= fixed + 3 * stride + 1; length++) {
                size_t elements = length < fixed ? 0 : (length - fixed) / stride;
                struct entry e = mapped(file, k, elements);
                if (elements == 0) {
                    refused(__LINE__, file, sizeof types, e.number, length, LEPUGASO_REFUSED_SHORT_BUFFER);
                } else {
                    rubbish(__LINE__, &e, length);
                }
            }
            struct entry e = mapped(file, k, 2);
            each_byte(__LINE__, &e, fixed + 3 * stride - 1);
            continue;
        }
        struct entry e = mapped(file, k, 0);
        EXPECT(lepugaso_size(file, sizeof types, e.number), 0, 0, fixed);
        for (size_t length = 0; length < fixed; length++) {
            refused(__LINE__, file, sizeof types, e.number, length, LEPUGASO_REFUSED_SHORT_BUFFER);
        }
        for (size_t length = fixed; length <= fixed + SPARE; length++) rubbish(__LINE__, &e, length);
        each_byte(__LINE__, &e, fixed);
        each_byte(__LINE__, &e, fixed + SPARE);
    }
}

/* ---- written out: no map and no model */

static void written_out(void) {
    const uint8_t *file = lent(types, sizeof types);
    /* {u32, vec3<f32>, f32}, and three bytes after it: the one gap, all of it, none of it, its last byte alone. */
    uint8_t *buf = fresh(35), expected[35];
    for (uint8_t k = 0; k < 35; k++) buf[k] = expected[k] = (uint8_t)(k + 1);
    memset(expected + 4, 0, 12);
    EXPECT(lepugaso_clean(file, sizeof types, 18, buf, 35, first), 0, 0, 12);
    HOLDS(*first == 4 && memcmp(buf, expected, 35) == 0);
    EXPECT(lepugaso_clean(file, sizeof types, 18, buf, 35, first), 0, 0, 0);
    HOLDS(*first == 32 && memcmp(buf, expected, 35) == 0);
    buf[15] = 9;
    EXPECT(lepugaso_clean(file, sizeof types, 18, buf, 35, first), 0, 0, 1);
    HOLDS(*first == 15 && memcmp(buf, expected, 35) == 0);
    /* The same bytes as a vec3<f32>, as an array of two, and of an open one that has room for two. */
    memset(buf, 255, 35);
    EXPECT(lepugaso_clean(file, sizeof types, 7, buf, 35, first), 0, 0, 0);
    HOLDS(*first == 12 && buf[12] == 255);
    EXPECT(lepugaso_clean(file, sizeof types, 17, buf, 35, first), 0, 0, 4);
    HOLDS(*first == 12 && memcmp(buf + 11, "\377\0\0\0\0\377", 6) == 0);
    EXPECT(lepugaso_clean(file, sizeof types, 35, buf, 35, first), 0, 0, 4);
    HOLDS(*first == 28 && memcmp(buf + 27, "\377\0\0\0\0\377\377\377", 8) == 0);
    EXPECT(lepugaso_clean(file, sizeof types, 35, buf, 35, first), 0, 0, 0);
    HOLDS(*first == 32);
}

/* ---- layouts by WGSL's rules, whichever they are */

enum { SCALARS = 5, TYPES = 20, MEMBERS = 5 * TYPES, LARGEST = 1000 };
enum { KIND_U32 = 2, KIND_F32 = 3, KIND_F16 = 4, KIND_VECTOR = 7, KIND_MATRIX, KIND_ARRAY, KIND_OPEN, KIND_ATOMIC, KIND_STRUCT, KIND_I64 };

/* A size of 0 is that of an open type. */
static struct type {
    uint32_t kind, columns, rows, reference, count, size, align;
} made[TYPES];
static struct member {
    uint32_t type, flags, size, align;
} parts[MEMBERS];
static uint32_t types_made, parts_made;

static uint32_t up(uint32_t align, uint32_t n) { return (n + align - 1) / align * align; }
static uint32_t stride_of(uint32_t type) { return up(made[type].align, made[type].size); }
static uint32_t size_in(const struct member *m) { return m->flags & 1 ? m->size : made[m->type].size; }
static uint32_t align_in(const struct member *m) { return m->flags & 2 ? m->align : made[m->type].align; }

/* Where the array of an open type begins, and its element. */
static uint32_t open_part(uint32_t type, uint32_t *element) {
    uint32_t end = 0, k = 0;
    const struct member *m = parts + made[type].reference;
    *element = made[type].reference;
    if (made[type].kind == KIND_OPEN) return 0;
    for (; k + 1 < made[type].count; k++, m++) end = up(align_in(m), end) + size_in(m);
    *element = made[m->type].reference;
    return up(align_in(m), end);
}

/* Marks the scalars of a type, and if it is open of so many elements. */
static void cover(uint8_t *covered, uint32_t type, uint32_t at, uint32_t elements) {
    const struct type *t = &made[type];
    uint32_t end = 0;
    switch (t->kind) {
    case KIND_VECTOR: memset(covered + at, 1, t->rows * made[t->reference].size); break;
    case KIND_MATRIX:
        for (uint32_t k = 0; k < t->columns; k++) memset(covered + at + k * t->align, 1, t->rows * made[t->reference].size);
        break;
    case KIND_ARRAY:
    case KIND_OPEN:
        if (t->kind == KIND_ARRAY) elements = t->count;
        for (uint32_t k = 0; k < elements; k++) cover(covered, t->reference, at + k * stride_of(t->reference), 0);
        break;
    case KIND_STRUCT:
        for (const struct member *m = parts + t->reference; m < parts + t->reference + t->count; m++) {
            end = up(align_in(m), end);
            cover(covered, m->type, at + end, elements);
            end += size_in(m);
        }
        break;
    default: memset(covered + at, 1, t->size);
    }
}

/* A type that is made already; an open one if that is asked for. */
static uint32_t any_type(int open) {
    for (;;) {
        uint32_t type = next_word() % types_made;
        if (open ? made[type].kind == KIND_OPEN : made[type].size > 0) return type;
    }
}

/* A struct of some members, each with a given size, a given align, both or neither; the last may be a runtime array. */
static struct type any_struct(int open) {
    struct type t = {.kind = KIND_STRUCT, .reference = parts_made, .count = 1 + (uint32_t)open + next_word() % (5 - (uint32_t)open)};
    uint32_t end = 0;
    t.align = 1;
    for (uint32_t k = 0; k < t.count; k++) {
        int last = open && k + 1 == t.count;
        struct member m = {.type = any_type(last)};
        uint32_t word = next_word();
        if (word % 3 == 0 && !last) m.flags = 1, m.size = made[m.type].size + word / 3 % 40;
        if (word / 256 % 4 == 0) m.flags |= 2, m.align = made[m.type].align << word / 1024 % 3;
        end = up(align_in(&m), end) + size_in(&m);
        if (align_in(&m) > t.align) t.align = align_in(&m);
        parts[parts_made + k] = m;
    }
    t.size = open ? 0 : up(t.align, end);
    return t;
}

static struct type any_composite(uint32_t kind) {
    struct type t = {.kind = kind};
    switch (kind) {
    case KIND_VECTOR:
        t.reference = next_word() % 4;
        t.rows = 2 + next_word() % (made[t.reference].kind == KIND_I64 ? 1 : 3);
        t.size = t.rows * made[t.reference].size;
        t.align = (t.rows == 2 ? 2 : 4) * made[t.reference].size;
        break;
    case KIND_MATRIX:
        t.reference = 1 + next_word() % 2;
        t.columns = 2 + next_word() % 3;
        t.rows = 2 + next_word() % 3;
        t.align = (t.rows == 2 ? 2 : 4) * made[t.reference].size;
        t.size = t.columns * t.align;
        break;
    case KIND_ARRAY:
        t.reference = any_type(0);
        t.count = 1 + next_word() % 4;
        t.align = made[t.reference].align;
        t.size = t.count * stride_of(t.reference);
        break;
    case KIND_OPEN:
        t.reference = any_type(0);
        t.align = made[t.reference].align;
        break;
    default: t = any_struct(kind != KIND_STRUCT);
    }
    return t;
}

/* Scalars, then whatever can be made of what is there, as a file. A struct is as likely as all else; the last ones are open. */
static size_t any_file(uint8_t *to) {
    static const uint32_t kinds[] = {KIND_VECTOR, KIND_MATRIX, KIND_ARRAY, KIND_STRUCT, KIND_STRUCT, KIND_STRUCT};
    static const struct type scalars[SCALARS] = {{KIND_U32, 0, 0, 0, 0, 4, 4},
                                                 {KIND_F32, 0, 0, 0, 0, 4, 4},
                                                 {KIND_F16, 0, 0, 0, 0, 2, 2},
                                                 {KIND_I64, 0, 0, 0, 0, 8, 8},
                                                 {KIND_ATOMIC, 0, 0, 0, 0, 4, 4}};
    const uint8_t *start = to;
    memcpy(made, scalars, sizeof scalars);
    types_made = SCALARS, parts_made = 0;
    while (types_made < TYPES) {
        uint32_t left = TYPES - types_made, kind = left > 6 ? kinds[next_word() % COUNT(kinds)] : left > 3 ? KIND_OPEN : UINT32_MAX;
        struct type t = any_composite(kind);
        if (t.size > LARGEST) continue;
        if (t.kind == KIND_STRUCT) parts_made += t.count;
        made[types_made++] = t;
    }
    for (const struct type *t = made; t < made + TYPES; t++, to += 12) {
        const uint8_t bytes[] = {TYPE((uint8_t)t->kind, (uint8_t)t->columns, (uint8_t)t->rows, t->reference, t->count)};
        memcpy(to, bytes, sizeof bytes);
    }
    for (const struct member *m = parts; m < parts + parts_made; m++, to += 12) {
        const uint8_t bytes[] = {LE16(m->type), LE16(m->flags), LE32(m->size), LE32(m->align)};
        memcpy(to, bytes, sizeof bytes);
    }
    memcpy(to, (const uint8_t[]){TRAILER(TYPES, parts_made)}, 10);
    return (size_t)(to - start) + 10;
}

static void any_layout(void) {
    static uint8_t bytes[12 * (TYPES + MEMBERS) + 10];
    size_t length = any_file(bytes);
    const uint8_t *file = lent(bytes, length);
    for (uint32_t number = SCALARS; number < TYPES; number++) {
        struct entry e = {.file = file, .length = length, .number = number, .extent = made[number].size};
        if (e.extent) {
            EXPECT(lepugaso_size(file, length, number), 0, 0, e.extent);
            cover(e.covered, number, 0, 0);
            rubbish(__LINE__, &e, e.extent + next_word() % 2 * SPARE);
            refused(__LINE__, file, length, number, e.extent - 1, LEPUGASO_REFUSED_SHORT_BUFFER);
            continue;
        }
        uint32_t element, at = open_part(number, &element), stride = stride_of(element), elements = 1 + next_word() % 2;
        if (at + 3 * stride >= MOST) continue;
        e.extent = at + elements * stride;
        cover(e.covered, number, 0, elements);
        rubbish(__LINE__, &e, e.extent);
        rubbish(__LINE__, &e, e.extent + 1);
        rubbish(__LINE__, &e, e.extent + stride - 1);
        refused(__LINE__, file, length, number, at + stride - 1, LEPUGASO_REFUSED_SHORT_BUFFER);
    }
}

/* ---- refusals; 1 to 7 are in calls.c, 24 in strays.c, 17 in large.c, 15 above */

static void refusals(void) {
    static const uint32_t absent[] = {5, 47, 48}, bools[] = {4, 44, 45, 46};
    const uint8_t *file = lent(types, sizeof types), *bad = lent((const uint8_t[]){VECTOR(5, 0), TRAILER(1, 0)}, 22);
    /* Each with room for it and without: 15 comes last, and an entry that is none before all but the file. */
    for (size_t length = 0; length <= 256; length += 64) {
        refused(__LINE__, file, sizeof types, NO_ENTRY, length, LEPUGASO_REFUSED_ENTRY);
        refused(__LINE__, file, sizeof types, UINT32_MAX, length, LEPUGASO_REFUSED_ENTRY);
        for (size_t k = 0; k < COUNT(absent); k++) refused(__LINE__, file, sizeof types, absent[k], length, LEPUGASO_REFUSED_ABSENT);
        for (size_t k = 0; k < COUNT(bools); k++) refused(__LINE__, file, sizeof types, bools[k], length, LEPUGASO_REFUSED_NOT_STORABLE);
        refused(__LINE__, bad, 22, 0, length, LEPUGASO_REFUSED_RULE);
        refused(__LINE__, bad, 22, 1, length, LEPUGASO_REFUSED_RULE);
        refused(__LINE__, bad, 21, 1, length, LEPUGASO_REFUSED_FORM);
        refused(__LINE__, bad, 9, 1, length, LEPUGASO_REFUSED_SHORT_FILE);
    }
    /* No buffer at all. */
    *first = UNTOUCHED;
    EXPECT(lepugaso_clean(file, sizeof types, 0, NULL, 0, first), LEPUGASO_REFUSED_SHORT_BUFFER, 0, 0);
    EXPECT(lepugaso_clean(file, sizeof types, 4, NULL, 0, first), LEPUGASO_REFUSED_NOT_STORABLE, 0, 0);
    HOLDS(*first == UNTOUCHED);
}

int main(void) {
    room = fresh(MOST);
    first = (void *)fresh(sizeof *first);
    written_out();
    by_hand();
    for (int turn = 0; turn < 200; turn++) any_layout();
    refusals();
    return failures != 0;
}
