/* The two forms of a layout file, and the moves between them. What is lent stands at the end of a page after which nothing can be touched,
 * and what is lent to be read cannot be written. */
#include "pages.h"
#include "test.h"

#define M LEPUGASO_MEMBER

/* A bool, i32, u32, f32, f16, abstract int and i64; a vec3<f32>; 8 is a struct of members 0 to 4, which stand at 0, 32, 48, 68 and 72 of 96
 * bytes; 9 a runtime array of it; 10 an open struct of members 5 and 6; 11 an array of f32; 12 a struct of two f32; 13 one of f32 and that,
 * which may not stand at 4 in a uniform buffer; 14 a struct of f16 and bool; 15 an atomic. */
enum { ENTRIES = 16, MEMBERS = 13 };
#define TYPES                                                                                                                           \
    BOOL, I32, U32, F32, F16, ABSTRACT_INT, I64, VECTOR(3, 3), STRUCT(0, 5), RUNTIME_ARRAY(8), STRUCT(5, 2), ARRAY(3, 4), STRUCT(7, 2), \
        STRUCT(9, 2), STRUCT(11, 2), ATOMIC(2)

#define MEMBER_ENTRIES(NAME)                                                                                               \
    NAME(1, MEMBER(2)), NAME(2, MEMBER_ALIGN(7, 32)), NAME(2, LE16(3), LE16(3), LE32(20), LE32(16)), NAME(0, MEMBER(4)),   \
        NAME(UINT32_MAX, MEMBER(1)), NAME(7, MEMBER(6)), NAME(8, MEMBER(9)), NAME(1 << 24, MEMBER(3)), NAME(9, MEMBER(3)), \
        NAME(256, MEMBER(3)), NAME(0x30201, MEMBER_SIZE(12, 8)), NAME(0, MEMBER(4)), NAME(65536, MEMBER(0))

/* One table as a form 1 file, as a form 2 file with names, and as one without. */
#define NO_NAME(name, ...) __VA_ARGS__
#define NAME_0(name, ...) NAMED(0, __VA_ARGS__)
static const uint8_t form_1[] = {TYPES, MEMBER_ENTRIES(NO_NAME), TRAILER(ENTRIES, MEMBERS)};
static const uint8_t named[] = {TYPES, MEMBER_ENTRIES(NAMED), TRAILER_2(ENTRIES, MEMBERS)};
static const uint8_t form_2[] = {TYPES, MEMBER_ENTRIES(NAME_0), TRAILER_2(ENTRIES, MEMBERS)};

struct file {
    const uint8_t *bytes;
    size_t length;
};
#define FILE_OF(bytes) ((struct file){lent(bytes, sizeof bytes), sizeof bytes})

/* What a call can write to; of a buffer, and of words, it is lent the last ones. */
enum { ROOM = 256, MOST = 16 };
static uint8_t *buf;
static uint32_t *words;
static lepugaso_layout *out;
static const uint8_t **part;
static size_t *part_len;
static uint64_t *mask, *first;

/* What it holds. */
struct held {
    uint8_t buf[ROOM];
    uint32_t words[MOST];
    lepugaso_layout out;
    const uint8_t *part;
    size_t part_len;
    uint64_t mask, first;
};
static struct held old;

static void prepare(void) {
    buf = fresh(ROOM);
    words = (void *)fresh(MOST * sizeof *words);
    out = (void *)fresh(sizeof *out);
    part = (void *)fresh(sizeof *part);
    part_len = (void *)fresh(sizeof *part_len);
    mask = (void *)fresh(sizeof *mask);
    first = (void *)fresh(sizeof *first);
    for (size_t k = 0; k < ROOM; k++) old.buf[k] = (uint8_t)(37 * k + 11);
    memset(old.words, 0xA5, sizeof old.words);
    old.out = (lepugaso_layout){1, 2, 3, 4};
    old.part_len = 5;
    old.first = 6;
}

static void renew(void) {
    memcpy(buf, old.buf, sizeof old.buf);
    memcpy(words, old.words, sizeof old.words);
    *out = old.out;
    *part = old.part;
    *part_len = old.part_len;
    *mask = old.mask;
    *first = old.first;
}

static struct held hold_all(void) {
    struct held now = {.out = *out, .part = *part, .part_len = *part_len, .mask = *mask, .first = *first};
    memcpy(now.buf, buf, sizeof now.buf);
    memcpy(now.words, words, sizeof now.words);
    return now;
}

/* The numbers with which questions were refused, a bit for each; bit 0 where they were not. */
static uint32_t seen;

/* Puts a question to `one` and to `other`: the same answer, and all that can be written to left the same. */
#define ASK(call, ...)                                                                                                \
    do {                                                                                                              \
        renew();                                                                                                      \
        lepugaso_answer a = call(one.bytes, one.length, __VA_ARGS__);                                                 \
        struct held left = hold_all();                                                                                \
        renew();                                                                                                      \
        expect(__FILE__, __LINE__, #call, call(other.bytes, other.length, __VA_ARGS__), a.refusal, a.place, a.value); \
        struct held now = hold_all();                                                                                 \
        hold(__FILE__, __LINE__, #call ", what it wrote", memcmp(&left, &now, sizeof now) == 0);                      \
        seen |= UINT32_C(1) << a.refusal % 32;                                                                        \
    } while (0)

static const uint32_t paths[][5] = {
    /* how many steps, and the steps */
    {0},          {1, M(0)},    {1, M(2)},    {1, M(3)},    {1, M(4)},    {1, M(5)},       {1, 0},    {1, 3},
    {2, M(1), 2}, {2, M(1), 3}, {2, M(1), 1}, {2, M(3), 0}, {2, 1, M(3)}, {2, 1, M(4)},    {2, 0, 0}, {2, 2, M(4)},
    {3, 1, M(1), 1},            {4, M(1), 1, M(1), 2},      {4, M(1), 1, M(1), M(1)},
};
enum { PATHS = sizeof paths / sizeof paths[0] };

/* How many positions, and the positions: the planned order of 8 and one of as many bytes, of 10 none but that in which it stands. */
static const uint32_t orders[][6] = {
    {0}, {1, 0}, {2, 0, 1}, {2, 1, 0}, {5, 1, 2, 0, 4, 3}, {5, 3, 0, 4, 2, 1}, {5, 0, 1, 2, 3, 4}, {5, 1, 2, 0, 4, 4},
};
enum { ORDERS = sizeof orders / sizeof orders[0] };

/* The questions about a block, put to any entry: most are none, and a mask may have bits beyond the members. */
static void same_blocks(struct file one, struct file other, uint32_t entry, const uint32_t *const steps[], const uint32_t *given) {
    static const uint64_t masks[] = {0, 10, UINT64_C(1) << 40};
    static const uint32_t members[] = {0, 1, 3, 5};
    for (size_t m = 0; m < sizeof masks / sizeof masks[0]; m++) {
        old.mask = masks[m];
        ASK(lepugaso_site_inheriting, entry, mask);
        for (uint32_t which = 0; which < 4; which++) {
            size_t factory_len = which % 2 ? 124 : 24, site_len = which / 2 ? 124 : 24;
            uint8_t *factory = buf + ROOM - factory_len, *site = factory - site_len;
            ASK(lepugaso_site_fresh, entry, factory, factory_len, site, site_len, mask);
        }
        for (size_t k = 0; k < sizeof members / sizeof members[0]; k++) {
            uint32_t member = members[k];
            ASK(lepugaso_site_clear, entry, member, mask);
            for (size_t length = 24; length <= 124; length += 100) {
                const uint8_t *factory = buf + ROOM - length;
                uint8_t *site = buf + ROOM - 2 * length;
                ASK(lepugaso_site_member, entry, member, masks[m], factory, length, site, length, part, part_len);
                for (size_t p = 0; p < PATHS; p++) {
                    uint32_t count = paths[p][0];
                    ASK(lepugaso_site_set, entry, member, steps[p], count, given, 1, factory, length, site, length, mask);
                }
                ASK(lepugaso_site_set, entry, member, NULL, 0, given, 2, factory, length, site, length, mask);
            }
        }
    }
}

/* Every question about every entry, and about a number that is none's. */
static void same_answers(struct file one, struct file other) {
    static const size_t lengths[] = {3, 8, 95, 96, 128, 223, 224}, counts[] = {0, 1, 2, 7, 9, MOST};
    static const uint32_t small[MOST] = {1, 2, 3, 4, 5, 6, 7, 8, 9, 10, 11, 12, 13, 14, 15, 65535};
    static const uint32_t wide[MOST] = {65536, 2, 3, 4, 5, 65536, 7, 8, UINT32_MAX, 10, 11, 12, 13, 14, 15, 65536};
    const uint32_t *values[2] = {(const void *)lent(small, sizeof small), (const void *)lent(wide, sizeof wide)};
    uint32_t *list = (void *)fresh(2 * sizeof *list);
    const uint32_t *steps[PATHS], *order[ORDERS];
    for (size_t k = 0; k < PATHS; k++) steps[k] = (const void *)lent(&paths[k][1], paths[k][0] * sizeof paths[k][0]);
    for (size_t k = 0; k < ORDERS; k++) order[k] = (const void *)lent(&orders[k][1], orders[k][0] * sizeof orders[k][0]);

    EXPECT(lepugaso_check(one.bytes, one.length), 0, 0, ENTRIES);
    EXPECT(lepugaso_check(other.bytes, other.length), 0, 0, ENTRIES);
    for (uint32_t entry = 0; entry <= ENTRIES; entry++) {
        ASK(lepugaso_size, entry);
        ASK(lepugaso_align, entry);
        ASK(lepugaso_min_size, entry);
        ASK(lepugaso_layout_of, entry, out);
        ASK(lepugaso_uniform, entry);
        for (uint32_t to = 0; to <= ENTRIES; to++) {
            list[0] = entry;
            list[1] = to;
            ASK(lepugaso_rank, entry, to);
            ASK(lepugaso_common, list, 2);
        }
        for (size_t l = 0; l < sizeof lengths / sizeof lengths[0]; l++) {
            size_t length = lengths[l];
            uint8_t *bytes = buf + ROOM - length;
            for (size_t k = 0; k < sizeof counts / sizeof counts[0]; k++) {
                ASK(lepugaso_write, entry, values[0], counts[k], bytes, length);
                ASK(lepugaso_write, entry, values[1], counts[k], bytes, length);
                ASK(lepugaso_read, entry, bytes, length, words + MOST - counts[k], counts[k]);
            }
            ASK(lepugaso_clean, entry, bytes, length, first);
        }
        for (size_t length = 24; length <= 224; length += 100) {
            uint8_t *bytes = buf + ROOM - length;
            for (size_t k = 0; k < PATHS; k++) {
                uint32_t count = paths[k][0];
                ASK(lepugaso_view, entry, steps[k], count, bytes, length, part, part_len);
                ASK(lepugaso_set, entry, steps[k], count, values[1], 1, bytes, length);
                ASK(lepugaso_set, entry, steps[k], count, values[1], 2, bytes, length);
                ASK(lepugaso_extract_bits, entry, steps[k], count, bytes, length, 3, 12);
                ASK(lepugaso_insert_bits, entry, steps[k], count, 0x5A5, 3, 12, bytes, length);
            }
        }
        for (size_t k = 0; k < ORDERS; k++) {
            ASK(lepugaso_plan_order, entry, words + MOST - k, k);
            ASK(lepugaso_check_order, entry, order[k], orders[k][0]);
        }
        same_blocks(one, other, entry, steps, values[1]);
    }
}

/* A form 2 file with names and the form 1 file of the same table. */
static void same_table(void) {
    struct file file = FILE_OF(named);
    same_answers(FILE_OF(form_1), file);
    /* 0, 8 to 16, 18, 19, 21 and 23: each of them was met, and none but them. */
    HOLDS(seen == (1u | 0x1FF00 | 3u << 18 | 5u << 21));

    uint8_t *bytes = fresh(96);
    const uint8_t *at;
    size_t count;
    EXPECT(lepugaso_size(file.bytes, file.length, 8), 0, 0, 96);
    EXPECT(lepugaso_align(file.bytes, file.length, 8), 0, 0, 32);
    EXPECT(lepugaso_view(file.bytes, file.length, 8, (const uint32_t[]){M(4)}, 1, bytes, 96, &at, &count), 0, 0, 72);
    HOLDS(at == bytes + 72 && count == 4);
    EXPECT(lepugaso_write(file.bytes, file.length, 8, (const uint32_t[]){1, 2, 3, 4, 5, 65536, 7}, 7, bytes, 96), LEPUGASO_REFUSED_F16_WORD,
           5, 0);
    EXPECT(lepugaso_uniform(file.bytes, file.length, 13), LEPUGASO_REFUSED_UNIFORM, 13, 0);

    /* A vec3<f32> at 32. */
    uint8_t *site = fresh(96);
    for (uint8_t k = 0; k < 96; k++) bytes[k] = (uint8_t)(k + 1);
    EXPECT(lepugaso_site_inheriting(file.bytes, file.length, 8, mask), 0, 0, 0);
    EXPECT(lepugaso_site_set(file.bytes, file.length, 8, 1, (const uint32_t[]){1}, 1, (const uint32_t[]){7}, 1, bytes, 96, site, 96, mask),
           0, 0, 36);
    HOLDS(*mask == 2 && memcmp(site + 31, "\0\41\42\43\44\7\0\0\0\51\52\53\54\0", 14) == 0);
    EXPECT(lepugaso_site_member(file.bytes, file.length, 8, 1, *mask, bytes, 96, site, 96, &at, &count), 0, 0, 32);
    HOLDS(at == site + 32 && count == 12);
    EXPECT(lepugaso_site_clear(file.bytes, file.length, 8, 1, mask), 0, 0, 0);
    HOLDS(*mask == 0);
    EXPECT(lepugaso_site_fresh(file.bytes, file.length, 8, bytes, 96, site, 95, mask), LEPUGASO_REFUSED_SHORT_BUFFER, 0, 0);
    HOLDS(*mask == 0 && site[31] == 0);
    EXPECT(lepugaso_site_fresh(file.bytes, file.length, 8, bytes, 96, site, 96, mask), 0, 0, 0);
    HOLDS(*mask == 31 && memcmp(site, bytes, 96) == 0);
    EXPECT(lepugaso_site_inheriting(file.bytes, file.length, 10, mask), LEPUGASO_REFUSED_NO_SITE, 0, 0);
    EXPECT(lepugaso_site_fresh(file.bytes, file.length, 10, bytes, 96, site, 96, mask), LEPUGASO_REFUSED_NO_SITE, 0, 0);
    HOLDS(*mask == 31);

    /* 26 of the 96 bytes are a scalar's, and the first that is none's lies at 4. */
    EXPECT(lepugaso_clean(file.bytes, file.length, 8, bytes, 96, first), 0, 0, 70);
    HOLDS(*first == 4 && bytes[3] == 4 && bytes[4] == 0 && memcmp(bytes + 31, "\0\41\42\43\44\45\46\47\50\51\52\53\54\0", 14) == 0);
    EXPECT(lepugaso_clean(file.bytes, file.length, 8, bytes, 96, first), 0, 0, 0);
    HOLDS(*first == 96);

    /* By falling alignment they stand at 0, 16, 36, 40 and 44 of 64 bytes. */
    uint32_t *order = (void *)fresh(5 * sizeof *order);
    EXPECT(lepugaso_plan_order(file.bytes, file.length, 8, order, 5), 0, 0, 5);
    HOLDS(memcmp(order, (const uint32_t[]){1, 2, 0, 4, 3}, 5 * sizeof *order) == 0);
    EXPECT(lepugaso_check_order(file.bytes, file.length, 8, order, 5), 0, 0, 64);
}

typedef lepugaso_answer move(const uint8_t *, size_t, uint8_t *, size_t);
enum { OLD_BYTE = 0xA5 };

/* Whether all bytes are still old. */
static int all_old(const uint8_t *bytes, size_t length) {
    for (size_t k = 0; k < length; k++) {
        if (bytes[k] != OLD_BYTE) return 0;
    }
    return 1;
}

/* A move into `room` bytes that is refused, and leaves them as they were. */
#define MOVE_REFUSED(to, file, room, refusal, place) move_refused(__LINE__, to, file, room, refusal, place)
static void move_refused(int line, move *to, struct file file, size_t room, uint32_t refusal, uint32_t place) {
    uint8_t *moved = fresh(room);
    memset(moved, OLD_BYTE, room);
    expect(__FILE__, line, "a refused move", to(file.bytes, file.length, moved, room), refusal, place, 0);
    hold(__FILE__, line, "what a refused move leaves", all_old(moved, room));
}

/* A move, with room for the new file alone and with more: later bytes stay. With less it is refused. Gives the moved file. */
#define MOVES(to, file, expected) moves(__LINE__, to, file, expected)
static struct file moves(int line, move *to, struct file file, struct file expected) {
    uint8_t *moved = NULL;
    const size_t more[] = {4096, 5, 1, 0};
    for (size_t k = 0; k < sizeof more / sizeof more[0]; k++) {
        moved = fresh(expected.length + more[k]);
        memset(moved, OLD_BYTE, expected.length + more[k]);
        expect(__FILE__, line, "a move", to(file.bytes, file.length, moved, expected.length + more[k]), 0, 0, expected.length);
        hold(__FILE__, line, "the moved file", memcmp(moved, expected.bytes, expected.length) == 0);
        hold(__FILE__, line, "what a move leaves", all_old(moved + expected.length, more[k]));
    }
    move_refused(line, to, file, expected.length - 1, LEPUGASO_REFUSED_SHORT_BUFFER, 0);
    move_refused(line, to, file, 10, LEPUGASO_REFUSED_SHORT_BUFFER, 0);
    move_refused(line, to, file, 0, LEPUGASO_REFUSED_SHORT_BUFFER, 0);
    return (struct file){sealed(moved, expected.length), expected.length};
}

/* There and back, what was moved moved again; and refused from the form that a file has not. */
static void there_and_back(struct file one, struct file two) {
    MOVES(lepugaso_to_form_1, MOVES(lepugaso_to_form_2, one, two), one);
    MOVES(lepugaso_to_form_2, MOVES(lepugaso_to_form_1, two, one), two);
    MOVE_REFUSED(lepugaso_to_form_1, one, two.length, LEPUGASO_REFUSED_FORM, 0);
    MOVE_REFUSED(lepugaso_to_form_2, two, 2 * two.length, LEPUGASO_REFUSED_FORM, 0);
    MOVE_REFUSED(lepugaso_to_form_1, one, 0, LEPUGASO_REFUSED_FORM, 0);
    MOVE_REFUSED(lepugaso_to_form_2, two, 0, LEPUGASO_REFUSED_FORM, 0);
}

static const uint8_t no_members_1[] = {U32, VECTOR(2, 0), TRAILER(2, 0)};
static const uint8_t no_members_2[] = {U32, VECTOR(2, 0), TRAILER_2(2, 0)};

/* Bytes before the types, which are moved as they are, be they a file; and two structs, of which the later has the first member. */
static const uint8_t later_1[] = {
    U32, TRAILER(1, 0), 255, 1, 2,
    U32, STRUCT(1, 1), STRUCT(0, 1), MEMBER_SIZE(1, 20), MEMBER_ALIGN(0, 16),
    LE16(3), LE16(2), LE32(25), LE16(1),
};
static const uint8_t later_2[] = {
    U32, TRAILER(1, 0), 255, 1, 2,
    U32, STRUCT(1, 1), STRUCT(0, 1), NAMED(0, MEMBER_SIZE(1, 20)), NAMED(0, MEMBER_ALIGN(0, 16)),
    LE16(3), LE16(2), LE32(25), LE16(2),
};

static void moved_files(void) {
    struct file one = FILE_OF(form_1), two = FILE_OF(form_2);
    there_and_back(one, two);
    there_and_back(FILE_OF(no_members_1), FILE_OF(no_members_2));
    there_and_back(FILE_OF(later_1), FILE_OF(later_2));
    same_answers(one, MOVES(lepugaso_to_form_2, one, two));
    same_answers(two, MOVES(lepugaso_to_form_1, two, one));
}

/* As many members as there can be: a u32, and a struct that has all of them. */
static void most_members(void) {
    enum { MANY = 1024, BEFORE = 2 * 12, LONG_1 = BEFORE + 12 * MANY + 10, LONG_2 = BEFORE + 16 * MANY + 10 };
    uint8_t *one = fresh(LONG_1), *two = fresh(LONG_2), *last = two + LONG_2 - 10 - 4;
    memcpy(one, (const uint8_t[]){U32, STRUCT(0, MANY)}, BEFORE);
    memcpy(two, one, BEFORE);
    for (size_t k = 0; k < MANY; k++) {
        const uint8_t member[] = {NAMED(0, LE16(0), LE16(2), LE32(0), LE32(4u << k % 4))};
        memcpy(one + BEFORE + 12 * k, member, 12);
        memcpy(two + BEFORE + 16 * k, member, 16);
    }
    memcpy(one + LONG_1 - 10, (const uint8_t[]){TRAILER(2, MANY)}, 10);
    memcpy(two + LONG_2 - 10, (const uint8_t[]){TRAILER_2(2, MANY)}, 10);
    there_and_back((struct file){sealed(one, LONG_1), LONG_1}, (struct file){lent(two, LONG_2), LONG_2});
    last[3] = 128;
    struct file last_named = {sealed(two, LONG_2), LONG_2};
    MOVE_REFUSED(lepugaso_to_form_1, last_named, LONG_1, LEPUGASO_REFUSED_NAMED, 0);
    MOVE_REFUSED(lepugaso_to_form_1, last_named, 0, LEPUGASO_REFUSED_NAMED, 0);
}

/* One name, of each member in turn: refused, before the room is looked at. */
static void one_name(void) {
    static const uint32_t names[] = {1, 1 << 8, 1 << 16, 1 << 24, UINT32_C(1) << 31, UINT32_MAX};
    for (size_t member = 0; member < MEMBERS; member++) {
        for (size_t k = 0; k < sizeof names / sizeof names[0]; k++) {
            uint8_t *bytes = fresh(sizeof form_2);
            memcpy(bytes, form_2, sizeof form_2);
            memcpy(bytes + 12 * ENTRIES + 16 * member + 12, (const uint8_t[]){LE32(names[k])}, 4);
            struct file file = {sealed(bytes, sizeof form_2), sizeof form_2};
            EXPECT(lepugaso_check(file.bytes, file.length), 0, 0, ENTRIES);
            MOVE_REFUSED(lepugaso_to_form_1, file, sizeof form_2, LEPUGASO_REFUSED_NAMED, 0);
            MOVE_REFUSED(lepugaso_to_form_1, file, sizeof form_1, LEPUGASO_REFUSED_NAMED, 0);
            MOVE_REFUSED(lepugaso_to_form_1, file, sizeof form_1 - 1, LEPUGASO_REFUSED_NAMED, 0);
            MOVE_REFUSED(lepugaso_to_form_1, file, 0, LEPUGASO_REFUSED_NAMED, 0);
            MOVE_REFUSED(lepugaso_to_form_2, file, 2 * sizeof form_2, LEPUGASO_REFUSED_FORM, 0);
        }
    }
    MOVE_REFUSED(lepugaso_to_form_1, FILE_OF(named), sizeof form_1, LEPUGASO_REFUSED_NAMED, 0);
}

/* Files that are refused: with this number by the move that starts from their form, for their form by the other, unless they are short. */
#define BAD(form, refusal, place, ...) {form, refusal, place, sizeof((const uint8_t[]){__VA_ARGS__}), (const uint8_t[]){__VA_ARGS__}}
static const struct {
    uint32_t form, refusal, place;
    size_t length;
    const uint8_t *bytes;
} bad_files[] = {
    BAD(1, LEPUGASO_REFUSED_SHORT_FILE, 0, 0, 0, 0, 0, 0, 0, 0, 1, 0),
    BAD(2, LEPUGASO_REFUSED_SHORT_FILE, 0, 0, 0, 0, 0, 0, 0, 0, 2, 0),
    BAD(1, LEPUGASO_REFUSED_COUNTS, 0, TRAILER(0, 0)),
    BAD(2, LEPUGASO_REFUSED_COUNTS, 0, TRAILER_2(0, 0)),
    BAD(2, LEPUGASO_REFUSED_COUNTS, 0, TRAILER_2(257, 0)),
    BAD(2, LEPUGASO_REFUSED_COUNTS, 0, U32, TRAILER_2(1, 1025)),
    BAD(2, LEPUGASO_REFUSED_LENGTH, 0, U32, TRAILER_2(2, 0)),
    BAD(2, LEPUGASO_REFUSED_LENGTH, 0, 9, U32, TRAILER_2(1, 0)),
    /* Members as long as the other form's. */
    BAD(1, LEPUGASO_REFUSED_LENGTH, 0, U32, STRUCT(0, 1), NAMED(0, MEMBER(0)), TRAILER(2, 1)),
    BAD(2, LEPUGASO_REFUSED_LENGTH, 0, U32, STRUCT(0, 1), MEMBER(0), TRAILER_2(2, 1)),
    BAD(2, LEPUGASO_REFUSED_LENGTH, 0, U32, STRUCT(0, 1), NAMED(0, MEMBER(0)), 0, TRAILER_2(2, 1)),
    /* Four members of form 1 are as long as three of form 2. */
    BAD(2, LEPUGASO_REFUSED_LENGTH, 0, U32, STRUCT(0, 1), MEMBER(0), MEMBER(0), MEMBER(0), MEMBER(0), TRAILER_2(2, 4)),
    BAD(1, LEPUGASO_REFUSED_LENGTH, 0, U32, STRUCT(0, 1), MEMBER(0), MEMBER(0), MEMBER(0), MEMBER(0), TRAILER(2, 3)),
    /* A bad entry, named too; of two of these files a member is no struct's. */
    BAD(2, LEPUGASO_REFUSED_RULE, 1, U32, VECTOR(5, 0), TRAILER_2(2, 0)),
    BAD(2, LEPUGASO_REFUSED_RULE, 2, U32, STRUCT(0, 1), VECTOR(5, 0), NAMED(1, MEMBER(0)), TRAILER_2(3, 1)),
    BAD(2, LEPUGASO_REFUSED_RULE, 1, U32, STRUCT(0, 2), NAMED(1, MEMBER(0)), NAMED(0, MEMBER(1)), TRAILER_2(2, 2)),
    BAD(2, LEPUGASO_REFUSED_RULE, 1, U32, STRUCT(1, 1), NAMED(1, MEMBER(0)), NAMED(1, LE16(0), LE16(4), LE32(0), LE32(0)), TRAILER_2(2, 2)),
    BAD(2, LEPUGASO_REFUSED_RULE, 1, U32, STRUCT(0, 3), NAMED(1, MEMBER(0)), NAMED(1, MEMBER(0)), TRAILER_2(2, 2)),
    BAD(2, LEPUGASO_REFUSED_GIVEN, 1, U32, STRUCT(0, 2), NAMED(1, MEMBER(0)), NAMED(2, MEMBER_SIZE(0, 3)), TRAILER_2(2, 2)),
    BAD(2, LEPUGASO_REFUSED_TOO_LARGE, 2, U32, F32, ARRAY(0, 1073741824u), NAMED(1, MEMBER(0)), TRAILER_2(3, 1)),
    BAD(2, LEPUGASO_REFUSED_TOO_LARGE, 1, U32, STRUCT(0, 2), NAMED(1, MEMBER_SIZE(0, 4294967292u)), NAMED(0, MEMBER(0)), TRAILER_2(2, 2)),
    /* A member of no struct, before a name, which is its own or another's (E12). */
    BAD(1, LEPUGASO_REFUSED_STRAY_MEMBER, 0, U32, STRUCT(1, 1), MEMBER(0), MEMBER(0), TRAILER(2, 2)),
    BAD(2, LEPUGASO_REFUSED_STRAY_MEMBER, 0, U32, STRUCT(1, 1), NAMED(0, MEMBER(0)), NAMED(0, MEMBER(0)), TRAILER_2(2, 2)),
    BAD(2, LEPUGASO_REFUSED_STRAY_MEMBER, 0, U32, STRUCT(1, 1), NAMED(1, MEMBER(0)), NAMED(0, MEMBER(0)), TRAILER_2(2, 2)),
    BAD(2, LEPUGASO_REFUSED_STRAY_MEMBER, 1, U32, STRUCT(0, 1), NAMED(1, MEMBER(0)), NAMED(0, MEMBER(0)), TRAILER_2(2, 2)),
};

static void bad_forms(void) {
    for (size_t k = 0; k < sizeof bad_files / sizeof bad_files[0]; k++) {
        uint32_t refusal = bad_files[k].refusal, place = bad_files[k].place;
        struct file file = {lent(bad_files[k].bytes, bad_files[k].length), bad_files[k].length};
        move *its_own = bad_files[k].form == 1 ? lepugaso_to_form_2 : lepugaso_to_form_1;
        move *the_other = bad_files[k].form == 1 ? lepugaso_to_form_1 : lepugaso_to_form_2;
        EXPECT(lepugaso_check(file.bytes, file.length), refusal, place, 0);
        for (size_t room = 0; room <= 200; room += 100) {
            MOVE_REFUSED(its_own, file, room, refusal, place);
            MOVE_REFUSED(the_other, file, room, file.length < 10 ? LEPUGASO_REFUSED_SHORT_FILE : LEPUGASO_REFUSED_FORM, 0);
        }
    }
}

int main(void) {
    prepare();
    same_table();
    moved_files();
    most_members();
    one_name();
    bad_forms();
    return failures != 0;
}
