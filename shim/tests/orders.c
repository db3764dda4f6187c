/* A better member order (E10), beside orders that are written by hand and beside a model: a sort that keeps ties, and layouts that are
 * worked out here by WGSL's rules. What is lent stands at the end of a page after which nothing can be touched; a file cannot be written,
 * and an order that was checked is compared with what it was. Bad files are in calls.c, long lists in large.c. */
#include "pages.h"
#include "test.h"

#define COUNT(list) (sizeof(list) / sizeof(list)[0])

enum { MOST = 1024, SPARE = 3 };
#define UNTOUCHED UINT32_C(0xA5A5A5A5)

/* xorshift: a word that looks like any other */
static uint32_t next_word(void) {
    static uint32_t word = 2463534242u;
    word ^= word << 13;
    word ^= word >> 17;
    word ^= word << 5;
    return word;
}

/* Room for an order, of which the last places are lent: to the planner to be written, to the checker to be read. */
static uint32_t *room;

static uint32_t *clear_room(size_t places) {
    memset(room, 0xA5, (MOST + SPARE) * sizeof *room);
    return room + MOST + SPARE - places;
}

/* Whether every place before the last `places` is as it was, and of these all after the first `filled`. */
static int untouched(size_t places, size_t filled) {
    for (size_t k = 0; k < MOST + SPARE; k++) {
        size_t lent_at = MOST + SPARE - places;
        if ((k < lent_at || k >= lent_at + filled) && room[k] != UNTOUCHED) return 0;
    }
    return 1;
}

/* ---- one plan, and one check */

/* Into the places that there must be, and into more; with fewer it is refused, and leaves the list. */
static void plans(int line, const uint8_t *file, size_t length, uint32_t entry, const uint32_t *order, size_t count) {
    for (size_t places = count; places <= count + SPARE; places++) {
        uint32_t *list = clear_room(places);
        expect(__FILE__, line, "planning", lepugaso_plan_order(file, length, entry, list, places), 0, 0, count);
        hold(__FILE__, line, "the planned order", memcmp(list, order, count * sizeof *order) == 0);
        hold(__FILE__, line, "the places around it", untouched(places, count));
    }
    for (size_t places = count; places-- > 0;) {
        if (places > 7 && places < count - 1) continue;
        uint32_t *list = clear_room(places);
        expect(__FILE__, line, "planning into less", lepugaso_plan_order(file, length, entry, list, places), LEPUGASO_REFUSED_WORDS, 0, 0);
        hold(__FILE__, line, "what a refused planning leaves", untouched(places, 0));
    }
}

/* The new end, or NO where the order is refused. It is left as it was. */
#define NO UINT64_MAX
static void checks(int line, const uint8_t *file, size_t length, uint32_t entry, const uint32_t *order, size_t count, uint64_t end) {
    uint32_t *list = room + MOST + SPARE - count;
    if (count) memcpy(list, order, count * sizeof *order);
    lepugaso_answer a = lepugaso_check_order(file, length, entry, list, count);
    expect(__FILE__, line, "checking", a, end == NO ? LEPUGASO_REFUSED_ORDER : 0, 0, end == NO ? 0 : end);
    hold(__FILE__, line, "a checked order", !count || memcmp(list, order, count * sizeof *order) == 0);
}

/* ---- written out: the cases of crates/wgsl/specs/OrderCase.antt, and others */

static const uint8_t shuffled[] = {
    U32,              /* 0 */
    F32,              /* 1 */
    VECTOR(3, 1),     /* 2: vec3<f32> */
    VECTOR(4, 0),     /* 3: vec4<u32> */
    VECTOR(2, 0),     /* 4: vec2<u32> */
    RUNTIME_ARRAY(0), /* 5: of u32 */
    BOOL,             /* 6 */
    STRUCT(0, 4),     /* 7: vec3<f32>, f32, vec3<f32>, f32: 32 bytes */
    STRUCT(4, 3),     /* 8: u32, vec4<u32>, u32: 48 bytes */
    STRUCT(7, 4),     /* 9: u32, vec2<u32>, u32, 5, which starts at 20 */
    STRUCT(11, 4),    /* 10: the same, the array with align 64 */
    STRUCT(15, 3),    /* 11: bool, vec2<u32>, bool: 24 bytes */
    STRUCT(18, 2),    /* 12: u32 of size 4,294,967,280, f32 */
    STRUCT(20, 1),    /* 13: u32 */
    STRUCT(10, 1),    /* 14: 5 alone */
    STRUCT(21, 3),    /* 15: u32, u32 of align 32, vec4<u32> of size 20: at 0, 32, 48; 96 bytes */
    STRUCT(24, 3),    /* 16: u32, vec4<u32> of size 4,294,967,248, u32: 4,294,967,280 bytes */
    STRUCT(27, 3),    /* 17: u32, u32, vec4<u32> of size 4,294,967,264: as many */
    STRUCT(30, 2),    /* 18: u32 of align 2,147,483,648, u32: 2,147,483,648 bytes */
    STRUCT(32, 4),    /* 19: u32 of size 2,147,483,636, u32, vec2<u32>, 5 of align 2,147,483,648: it starts there */
    ARRAY(8, 2),      /* 20 */
    RUNTIME_ARRAY(8), /* 21 */
    MATRIX(3, 3, 1),  /* 22 */
    ATOMIC(0),        /* 23 */
    ABSTRACT_INT,     /* 24: no layout */
    I64,              /* 25 */
    VECTOR(3, 25),    /* 26: vec3<i64>, no layout */
    MEMBER(2), MEMBER(1), MEMBER(2), MEMBER(1),                                      /* 0 to 3 */
    MEMBER(0), MEMBER(3), MEMBER(0),                                                 /* 4 to 6 */
    MEMBER(0), MEMBER(4), MEMBER(0), MEMBER(5),                                      /* 7 to 10 */
    MEMBER(0), MEMBER(4), MEMBER(0), MEMBER_ALIGN(5, 64),                            /* 11 to 14 */
    MEMBER(6), MEMBER(4), MEMBER(6),                                                 /* 15 to 17 */
    MEMBER_SIZE(0, 4294967280u), MEMBER(1),                                          /* 18, 19 */
    MEMBER(0),                                                                       /* 20 */
    MEMBER(0), MEMBER_ALIGN(0, 32), MEMBER_SIZE(3, 20),                              /* 21 to 23 */
    MEMBER(0), MEMBER_SIZE(3, 4294967248u), MEMBER(0),                               /* 24 to 26 */
    MEMBER(0), MEMBER(0), MEMBER_SIZE(3, 4294967264u),                               /* 27 to 29 */
    MEMBER_ALIGN(0, 2147483648u), MEMBER(0),                                         /* 30, 31 */
    MEMBER_SIZE(0, 2147483636u), MEMBER(0), MEMBER(4), MEMBER_ALIGN(5, 2147483648u), /* 32 to 35 */
    TRAILER(27, 36),
};
enum { NO_ENTRY = 27 };

/* An order, and the new end. */
#define ORDER(...) sizeof((const uint32_t[]){__VA_ARGS__}) / sizeof(uint32_t), (const uint32_t[]){__VA_ARGS__}
struct order_case {
    uint32_t entry;
    uint64_t end;
    size_t count;
    const uint32_t *order;
};
static const struct order_case planned[] = {
    /* An order, and no gain: 48 bytes for 32. */
    {7, NO, ORDER(0, 2, 1, 3)},
    {8, 32, ORDER(1, 0, 2)},
    {9, 16, ORDER(1, 0, 2, 3)},
    {10, NO, ORDER(1, 0, 2, 3)},
    {11, 16, ORDER(1, 0, 2)},
    {12, NO, ORDER(0, 1)},
    {13, NO, ORDER(0)},
    {14, NO, ORDER(0)},
    /* By given aligns, and with the given size. */
    {15, 64, ORDER(1, 2, 0)},
    {16, 4294967264u, ORDER(1, 0, 2)},
    {17, NO, ORDER(2, 0, 1)},
    {18, NO, ORDER(0, 1)},
    {19, NO, ORDER(2, 0, 1, 3)},
};
static const struct order_case offered[] = {
    {8, 32, ORDER(0, 2, 1)},
    {8, 32, ORDER(2, 0, 1)},
    {8, 32, ORDER(1, 2, 0)},
    /* As it stands, and as large. */
    {8, NO, ORDER(0, 1, 2)},
    {8, NO, ORDER(2, 1, 0)},
    /* Not every position once. */
    {8, NO, ORDER(1, 1, 0)},
    {8, NO, ORDER(1, 0, 3)},
    {8, NO, ORDER(1, 0, UINT32_MAX)},
    {8, NO, ORDER(1, 0)},
    {8, NO, ORDER(1)},
    {8, NO, 0, NULL},
    {8, NO, ORDER(1, 0, 2, 2)},
    {8, NO, ORDER(1, 0, 2, 3)},
    {8, NO, ORDER(1, 0, 2, 1, 0, 2)},
    /* A runtime array still last: the struct's third word fits at 8. */
    {9, 16, ORDER(0, 2, 1, 3)},
    {9, NO, ORDER(3, 0, 1, 2)},
    {9, NO, ORDER(1, 0, 3, 2)},
    {9, NO, ORDER(1, 3, 0, 2)},
    {9, NO, ORDER(1, 0, 2)},
    {11, 16, ORDER(0, 2, 1)},
    {11, NO, ORDER(2, 1, 0)},
    /* 4 and 4,294,967,280 bytes in either order. */
    {12, NO, ORDER(1, 0)},
    {13, NO, ORDER(1)},
    {13, NO, 0, NULL},
    {13, NO, ORDER(0, 0)},
    /* At 0, 16 and 64; at 0, 20 and 32. */
    {15, NO, ORDER(0, 2, 1)},
    {15, 64, ORDER(2, 0, 1)},
    {16, 4294967264u, ORDER(1, 2, 0)},
    {16, 4294967264u, ORDER(0, 2, 1)},
    {16, NO, ORDER(2, 1, 0)},
    /* The vector at 16 and a u32 after it: 2^32 bytes, 0 in 32 bits. */
    {17, NO, ORDER(0, 2, 1)},
    {17, NO, ORDER(1, 2, 0)},
    {17, NO, ORDER(2, 1, 0)},
    /* An offset that is within the limit, and a size of 2^32. */
    {18, NO, ORDER(1, 0)},
    /* The array would start at 2^32. */
    {19, NO, ORDER(1, 2, 0, 3)},
    {19, NO, ORDER(1, 0, 2, 3)},
};

static void by_hand(void) {
    const uint8_t *file = lent(shuffled, sizeof shuffled);
    EXPECT(lepugaso_check(file, sizeof shuffled), 0, 0, NO_ENTRY);
    for (size_t k = 0; k < COUNT(planned); k++) {
        plans(__LINE__, file, sizeof shuffled, planned[k].entry, planned[k].order, planned[k].count);
        checks(__LINE__, file, sizeof shuffled, planned[k].entry, planned[k].order, planned[k].count, planned[k].end);
    }
    for (size_t k = 0; k < COUNT(offered); k++) {
        checks(__LINE__, file, sizeof shuffled, offered[k].entry, offered[k].order, offered[k].count, offered[k].end);
    }
}

/* ---- structs of any members, laid out by WGSL's rules */

/* Types, with their sizes and alignments; a size of 0 is that of a runtime array. Members 0 to 3 are those of two structs among them. */
enum { FIXED = 19, TYPES = 23, ASKED = TYPES, INNER = 4 };
static const struct {
    uint8_t entry[12];
    uint32_t size, align;
} types[TYPES] = {
    {{U32}, 4, 4},               /* 0 */
    {{F16}, 2, 2},               /* 1 */
    {{F32}, 4, 4},               /* 2 */
    {{I64}, 8, 8},               /* 3 */
    {{BOOL}, 4, 4},              /* 4 */
    {{ATOMIC(0)}, 4, 4},         /* 5 */
    {{VECTOR(2, 2)}, 8, 8},      /* 6 */
    {{VECTOR(3, 2)}, 12, 16},    /* 7 */
    {{VECTOR(4, 2)}, 16, 16},    /* 8 */
    {{VECTOR(3, 1)}, 6, 8},      /* 9: vec3<f16> */
    {{VECTOR(2, 1)}, 4, 4},      /* 10: vec2<f16> */
    {{MATRIX(3, 3, 2)}, 48, 16}, /* 11 */
    {{MATRIX(2, 2, 1)}, 8, 4},   /* 12: mat2x2<f16> */
    {{ARRAY(7, 3)}, 48, 16},     /* 13: of vec3<f32> */
    {{ARRAY(1, 5)}, 10, 2},      /* 14: of f16 */
    {{STRUCT(0, 2)}, 8, 4},      /* 15: f16, u32 */
    {{STRUCT(2, 2)}, 64, 32},    /* 16: f16 of size 9, f16 of align 32 */
    {{ARRAY(15, 3)}, 24, 4},     /* 17 */
    {{VECTOR(3, 4)}, 12, 16},    /* 18: vec3<bool> */
    {{RUNTIME_ARRAY(0)}, 0, 4},  /* 19 */
    {{RUNTIME_ARRAY(7)}, 0, 16}, /* 20 */
    {{RUNTIME_ARRAY(1)}, 0, 2},  /* 21 */
    {{RUNTIME_ARRAY(15)}, 0, 4}, /* 22 */
};

static struct member {
    uint32_t type, flags, size, align;
} parts[MOST];
static uint32_t parts_made;

static uint64_t up(uint64_t align, uint64_t n) { return (n + align - 1) / align * align; }
static uint32_t size_in(const struct member *m) { return m->flags & 1 ? m->size : types[m->type].size; }
static uint32_t align_in(const struct member *m) { return m->flags & 2 ? m->align : types[m->type].align; }
static int is_open(const struct member *m) { return types[m->type].size == 0; }

/* Where the struct ends with its members in this order, all of them; NO where a runtime array is not last or a number is above 32 bits. */
static uint64_t end_in(const uint32_t *order) {
    uint64_t end = 0, align = 1;
    for (uint32_t k = 0; k < parts_made; k++) {
        const struct member *m = parts + order[k];
        end = up(align_in(m), end);
        if (end > UINT32_MAX) return NO;
        if (is_open(m)) return k + 1 == parts_made ? end : NO;
        end += size_in(m);
        if (align_in(m) > align) align = align_in(m);
    }
    end = up(align, end);
    return end > UINT32_MAX ? NO : end;
}

/* The new end if the order is accepted, else NO. */
static uint64_t accepted_end(const uint32_t *order, size_t count) {
    static uint8_t seen[MOST];
    static uint32_t as_it_stands[MOST];
    if (count != parts_made) return NO;
    memset(seen, 0, parts_made);
    for (uint32_t k = 0; k < parts_made; k++) {
        as_it_stands[k] = k;
        if (order[k] >= parts_made || seen[order[k]]++) return NO;
    }
    uint64_t end = end_in(order);
    return end < end_in(as_it_stands) ? end : NO;
}

/* The planned order: each member goes behind those that are aligned as it is or to more; a runtime array stays where it is, the last. */
static void sort(uint32_t *order) {
    for (uint32_t k = 0; k < parts_made; k++) {
        uint32_t at = k;
        while (!is_open(parts + k) && at > 0 && align_in(parts + order[at - 1]) < align_in(parts + k)) order[at] = order[at - 1], at--;
        order[at] = k;
    }
}

/* A member of any type, with a given size, a given align, both or neither. Some are of nearly 4 GiB, or aligned to as much as there is. */
static struct member any_member(int last, uint32_t large) {
    uint32_t word = next_word();
    struct member m = {.type = last ? FIXED + word % (TYPES - FIXED) : word % FIXED};
    word = next_word();
    if (word % 3 == 0 && !last) m.flags = 1, m.size = types[m.type].size + word / 4 % 40;
    if (word / 256 % 4 == 0) m.flags |= 2, m.align = types[m.type].align << word / 1024 % 4;
    if (large == 1) m.flags |= 2, m.align = UINT32_C(0x80000000) >> word / 4096 % 27;
    if (large == 2 && !last) m.flags |= 1, m.size = UINT32_MAX - word / 4096 % 128;
    if (large == 3 && !last) m.flags |= 1, m.size = INT32_MAX - word / 4096 % 128;
    return m;
}

/* A struct of so many members in a file of either form, with bytes before all, and with members behind its own, which are u32 and those of
 * another struct. */
static const uint8_t *any_file(uint32_t count, size_t *length) {
    static uint8_t bytes[16 + 12 * (TYPES + 2) + 16 * (INNER + MOST + 2) + 10];
    uint32_t word = next_word(), form = 1 + word % 2, start = word / 2 % 16, behind = word / 32 % 3, large = word / 128 % 8;
    int open = count > 1 && word / 1024 % 3 == 0;
    static const struct member inner[INNER] = {{1, 0, 0, 0}, {0, 0, 0, 0}, {1, 1, 9, 0}, {1, 2, 0, 32}}, scalar = {0, 0, 0, 0};
    uint8_t *to = bytes;
    parts_made = count;
    if (INNER + count + behind > MOST) behind = 0;
    for (uint32_t k = 0; k < count; k++) parts[k] = any_member(open && k + 1 == count, word / 4096 % count == k ? large : 0);
    for (uint32_t k = 0; k < start; k++) *to++ = (uint8_t)next_word();
    for (uint32_t k = 0; k < TYPES; k++, to += 12) memcpy(to, types[k].entry, 12);
    memcpy(to, (const uint8_t[]){STRUCT(INNER, count), STRUCT(INNER + count, behind)}, behind ? 24 : 12);
    to += behind ? 24 : 12;
    for (uint32_t k = 0; k < INNER + count + behind; k++) {
        const struct member *m = k < INNER ? inner + k : k < INNER + count ? parts + k - INNER : &scalar;
        const uint8_t entry[] = {LE16(m->type), LE16(m->flags), LE32(m->size), LE32(m->align)};
        memcpy(to, entry, sizeof entry);
        to += sizeof entry;
        for (uint32_t byte = 0; form == 2 && byte < 4; byte++) *to++ = (uint8_t)next_word();
    }
    memcpy(to, (const uint8_t[]){LE16(TYPES + (behind ? 2 : 1)), LE16(INNER + count + behind), LE32(start), LE16(form)}, 10);
    *length = (size_t)(to - bytes) + 10;
    return lent(bytes, *length);
}

/* How often an order was accepted, refused, and refused though it was planned. */
static uint32_t accepted, refused, planned_worse;

static void check_by_model(const uint8_t *file, size_t length, const uint32_t *order, size_t count) {
    uint64_t end = accepted_end(order, count);
    checks(__LINE__, file, length, ASKED, order, count, end);
    end == NO ? refused++ : accepted++;
}

/* The order with one position wrong, whichever; with one more, and with one less. */
static void nearly(const uint8_t *file, size_t length, const uint32_t *order) {
    static uint32_t other[MOST + 1];
    uint32_t at = next_word() % parts_made;
    memcpy(other, order, parts_made * sizeof *order);
    for (uint32_t bit = 0; bit < 32; bit++) {
        other[at] = order[at] ^ UINT32_C(1) << bit;
        check_by_model(file, length, other, parts_made);
    }
    other[at] = UINT32_MAX;
    check_by_model(file, length, other, parts_made);
    other[at] = parts_made;
    check_by_model(file, length, other, parts_made);
    other[at] = order[at];
    for (uint32_t more = 0; more < 3; more++) {
        other[parts_made] = more == 2 ? UINT32_MAX : parts_made * more;
        check_by_model(file, length, other, parts_made + 1);
    }
    check_by_model(file, length, order + 1, parts_made - 1);
    check_by_model(file, length, order, parts_made - 1);
    check_by_model(file, length, order, 0);
}

/* All permutations, by exchanges. */
static void permutations(const uint8_t *file, size_t length, uint32_t *order, uint32_t from) {
    if (from == parts_made) check_by_model(file, length, order, parts_made);
    for (uint32_t k = from; k < parts_made; k++) {
        uint32_t first = order[from];
        order[from] = order[k], order[k] = first;
        permutations(file, length, order, from + 1);
        order[k] = order[from], order[from] = first;
    }
}

/* All lists of as many numbers up to the count of members, most of which are no order. */
static void all_lists(const uint8_t *file, size_t length) {
    uint32_t all = 1, list[4];
    for (uint32_t k = 0; k < parts_made; k++) all *= parts_made + 1;
    for (uint32_t which = 0; which < all; which++) {
        uint32_t rest = which;
        for (uint32_t k = 0; k < parts_made; k++, rest /= parts_made + 1) list[k] = rest % (parts_made + 1);
        check_by_model(file, length, list, parts_made);
    }
}

static void any_struct(uint32_t count) {
    static uint32_t order[MOST];
    size_t length;
    const uint8_t *file = any_file(count, &length);
    for (uint32_t k = 0; k < count; k++) order[k] = k;
    uint64_t end = end_in(order);
    if (end == NO) {
        EXPECT(lepugaso_check(file, length), LEPUGASO_REFUSED_TOO_LARGE, ASKED, 0);
        EXPECT(lepugaso_plan_order(file, length, ASKED, order, count), LEPUGASO_REFUSED_TOO_LARGE, ASKED, 0);
        EXPECT(lepugaso_check_order(file, length, ASKED, order, count), LEPUGASO_REFUSED_TOO_LARGE, ASKED, 0);
        return;
    }
    if (!is_open(parts + count - 1)) EXPECT(lepugaso_size(file, length, ASKED), 0, 0, end);
    if (count <= 6) permutations(file, length, order, 0);
    if (count <= 4) all_lists(file, length);
    for (int turn = 0; turn < 4; turn++) {
        nearly(file, length, order);
        for (uint32_t k = count; k-- > 1;) {
            uint32_t other = next_word() % (k + 1), there = order[other];
            order[other] = order[k], order[k] = there;
        }
        check_by_model(file, length, order, count);
    }
    sort(order);
    plans(__LINE__, file, length, ASKED, order, count);
    if (end_in(order) == NO || end_in(order) > end) planned_worse++;
    check_by_model(file, length, order, count);
    nearly(file, length, order);
}

/* ---- as many members as there can be */

/* All u32, the first of `size` bytes; the last with align 16, or a vec2<u32>, whose place changes no end. It is planned to be the first. */
static void many_members(uint32_t size, int aligned) {
    static uint8_t bytes[12 * 3 + 12 * MOST + 10];
    static uint32_t order[MOST + 1];
    uint8_t *to = bytes;
    const uint8_t head[] = {U32, VECTOR(2, 0), STRUCT(0, MOST), MEMBER_SIZE(0, size)}, rest[] = {MEMBER(0)};
    const uint8_t vector[] = {MEMBER(1)}, align[] = {MEMBER_ALIGN(0, 16)}, trailer[] = {TRAILER(3, MOST)};
    memcpy(to, head, sizeof head);
    to += sizeof head;
    for (uint32_t k = 1; k + 1 < MOST; k++, to += 12) memcpy(to, rest, sizeof rest);
    memcpy(to, aligned ? align : vector, 12);
    memcpy(to + 12, trailer, sizeof trailer);
    const uint8_t *file = lent(bytes, sizeof bytes);
    uint64_t step = aligned ? 16 : 8, own = aligned ? 4 : 8, before = size + 4 * (MOST - 2);
    uint64_t old_end = up(step, up(step, before) + own), new_end = up(step, before + own), end = new_end < old_end ? new_end : NO;
    EXPECT(lepugaso_size(file, sizeof bytes, 2), 0, 0, old_end);
    order[0] = MOST - 1;
    for (uint32_t k = 1; k < MOST; k++) order[k] = k - 1;
    plans(__LINE__, file, sizeof bytes, 2, order, MOST);
    checks(__LINE__, file, sizeof bytes, 2, order, MOST, end);
    /* A position twice, or of no member, wherever it stands; and as the members stand. */
    for (uint32_t k = 0; k < MOST; k += k < 4 || k > MOST - 4 ? 1 : 85) {
        uint32_t held = order[k], wrong[] = {order[(k + 1) % MOST], order[(k + MOST / 2) % MOST], MOST, held | 1u << 31, UINT32_MAX};
        for (size_t w = 0; w < COUNT(wrong); w++) {
            order[k] = wrong[w];
            checks(__LINE__, file, sizeof bytes, 2, order, MOST, NO);
        }
        order[k] = held;
    }
    order[MOST] = MOST;
    checks(__LINE__, file, sizeof bytes, 2, order, MOST + 1, NO);
    checks(__LINE__, file, sizeof bytes, 2, order, MOST - 1, NO);
    checks(__LINE__, file, sizeof bytes, 2, order + 1, MOST - 1, NO);
    for (uint32_t k = 0; k < MOST; k++) order[k] = k;
    checks(__LINE__, file, sizeof bytes, 2, order, MOST, NO);
    for (uint32_t k = 0; k < MOST; k++) order[k] = MOST - 1 - k;
    checks(__LINE__, file, sizeof bytes, 2, order, MOST, end);
}

/* ---- refusals, of two or more the first by their order; 1 to 7 are in calls.c, 24 in strays.c */

static void both_refused(int line, const uint8_t *file, size_t length, uint32_t entry, size_t places, uint32_t refusal) {
    uint32_t *list = clear_room(places);
    expect(__FILE__, line, "a refused planning", lepugaso_plan_order(file, length, entry, list, places), refusal, 0, 0);
    hold(__FILE__, line, "what a refused planning leaves", untouched(places, 0));
    expect(__FILE__, line, "a refused check", lepugaso_check_order(file, length, entry, list, places), refusal, 0, 0);
    hold(__FILE__, line, "what a refused check leaves", untouched(places, 0));
}

static void refusals(void) {
    static const uint32_t no_struct[] = {0, 1, 2, 3, 4, 5, 6, 20, 21, 22, 23, 24, 25, 26};
    const uint8_t *file = lent(shuffled, sizeof shuffled), *bad = lent((const uint8_t[]){VECTOR(5, 0), TRAILER(1, 0)}, 22);
    /* With places for an order and without, which is wrong in any case. */
    for (size_t places = 0; places < 6; places++) {
        both_refused(__LINE__, file, sizeof shuffled, NO_ENTRY, places, LEPUGASO_REFUSED_ENTRY);
        both_refused(__LINE__, file, sizeof shuffled, UINT32_MAX, places, LEPUGASO_REFUSED_ENTRY);
        for (size_t k = 0; k < COUNT(no_struct); k++) {
            both_refused(__LINE__, file, sizeof shuffled, no_struct[k], places, LEPUGASO_REFUSED_ABSENT);
        }
        both_refused(__LINE__, bad, 22, 0, places, LEPUGASO_REFUSED_RULE);
        both_refused(__LINE__, bad, 22, 1, places, LEPUGASO_REFUSED_RULE);
        both_refused(__LINE__, bad, 21, 1, places, LEPUGASO_REFUSED_FORM);
        both_refused(__LINE__, bad, 9, 1, places, LEPUGASO_REFUSED_SHORT_FILE);
    }
    /* No list at all. */
    EXPECT(lepugaso_plan_order(file, sizeof shuffled, 8, NULL, 0), LEPUGASO_REFUSED_WORDS, 0, 0);
    EXPECT(lepugaso_check_order(file, sizeof shuffled, 8, NULL, 0), LEPUGASO_REFUSED_ORDER, 0, 0);
    EXPECT(lepugaso_plan_order(file, sizeof shuffled, 0, NULL, 0), LEPUGASO_REFUSED_ABSENT, 0, 0);
    EXPECT(lepugaso_check_order(file, sizeof shuffled, 0, NULL, 0), LEPUGASO_REFUSED_ABSENT, 0, 0);
}

int main(void) {
    room = (void *)fresh((MOST + SPARE) * sizeof *room);
    by_hand();
    for (uint32_t turn = 0; turn < 1200; turn++) any_struct(1 + turn % 6);
    for (uint32_t turn = 0; turn < 30; turn++) any_struct(7 + turn * turn);
    any_struct(MOST - 4);
    HOLDS(accepted > 10000 && refused > 10000 && planned_worse > 20);
    for (uint32_t size = 4; size <= 32; size += 4) many_members(size, 0), many_members(size, 1);
    refusals();
    return failures != 0;
}
