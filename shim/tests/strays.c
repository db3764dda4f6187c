/* Members that no struct names (E12): every call that takes a file refuses one that has any with 24, and the lowest of them is its place;
 * after 1 to 7, and before all else. Tables by hand, tables of as many types and members as there can be, and any tables beside a model
 * that marks the members one by one. Each stands in both forms. What is lent stands at the end of a page after which nothing can be
 * touched, and a file that is put to every call cannot be written. */
#include "pages.h"
#include "refused.h"
#include "test.h"

#define COUNT(list) (sizeof(list) / sizeof(list)[0])
#define STRAY LEPUGASO_REFUSED_STRAY_MEMBER

enum { MOST_TYPES = 256, MOST = 1024, SPARE = 16, LONGEST = SPARE + 12 * MOST_TYPES + 16 * MOST + 10 };

/* xorshift: a word that looks like any other */
static uint32_t next_word(void) {
    static uint32_t word = 2463534242u;
    word ^= word << 13;
    word ^= word >> 17;
    word ^= word << 5;
    return word;
}

/* ---- one table, in all that it can stand in */

/* The types of a table, then its members, as a form 1 file has them. */
struct table {
    uint32_t types, members;
    const uint8_t *bytes;
};

struct file {
    const uint8_t *bytes;
    size_t length;
};

/* Room for a file in each form, and for a moved one; and what a refused move leaves in that. */
static uint8_t *room_1, *room_2, *moved, old[LONGEST];
enum { OLD_BYTE = 0xA5 };

/* A table as a file of either form, at the end of `room`, with bytes before its types; in form 2 every member has this name. */
static struct file put(uint8_t *room, const struct table *t, uint32_t start, uint32_t form, uint32_t name) {
    size_t member = form == 1 ? 12 : 16, length = start + 12 * (size_t)t->types + member * t->members + 10;
    uint8_t *bytes = room + LONGEST - length, *to = bytes + start;
    /* Were it looked at, it would be a struct of the first member. */
    static const uint8_t before[SPARE] = {0, 0, 0, 0, STRUCT(0, 1)};
    memcpy(bytes, before + SPARE - start, start);
    memcpy(to, t->bytes, 12 * (size_t)t->types);
    to += 12 * (size_t)t->types;
    for (uint32_t m = 0; m < t->members; m++, to += member) {
        memcpy(to, t->bytes + 12 * ((size_t)t->types + m), 12);
        if (form == 2) memcpy(to + 12, (const uint8_t[]){LE32(name)}, 4);
    }
    memcpy(to, (const uint8_t[]){LE16(t->types), LE16(t->members), LE32(start), LE16(form)}, 10);
    return (struct file){bytes, length};
}

typedef lepugaso_answer move(const uint8_t *, size_t, uint8_t *, size_t);

/* A move into so many bytes: into the file `to`, or refused, and then they stay. */
static void moves(int line, move *call, struct file from, size_t length, uint32_t refusal, uint32_t place, struct file to) {
    uint8_t *out = moved + LONGEST - length;
    memset(out, OLD_BYTE, length);
    expect(__FILE__, line, "a move", call(from.bytes, from.length, out, length), refusal, place, refusal ? 0 : to.length);
    hold(__FILE__, line, "what a move writes", memcmp(out, refusal ? old : to.bytes, refusal ? length : to.length) == 0);
}

/* What a check says of the table in either form, and what the moves say, with room and without, and with names and without. It is accepted
 * if `refusal` is 0. */
static void tables(int line, const struct table *t, uint32_t start, uint32_t refusal, uint32_t place) {
    struct file one = put(room_1, t, start, 1, 0), two = put(room_2, t, start, 2, 0);
    uint32_t no_room = refusal ? refusal : LEPUGASO_REFUSED_SHORT_BUFFER, answer = refusal ? 0 : t->types;
    expect(__FILE__, line, "form 1", lepugaso_check(one.bytes, one.length), refusal, place, answer);
    expect(__FILE__, line, "form 2", lepugaso_check(two.bytes, two.length), refusal, place, answer);
    moves(line, lepugaso_to_form_2, one, two.length, refusal, place, two);
    moves(line, lepugaso_to_form_2, one, two.length - 1, no_room, place, two);
    moves(line, lepugaso_to_form_1, two, one.length, refusal, place, one);
    moves(line, lepugaso_to_form_1, two, one.length - 1, no_room, place, one);
    /* The form comes before, a name after. */
    moves(line, lepugaso_to_form_1, one, two.length, LEPUGASO_REFUSED_FORM, 0, one);
    moves(line, lepugaso_to_form_2, two, two.length, LEPUGASO_REFUSED_FORM, 0, two);
    if (t->members == 0) return;
    two = put(room_2, t, start, 2, 7);
    uint32_t named = refusal ? refusal : LEPUGASO_REFUSED_NAMED;
    expect(__FILE__, line, "form 2, named", lepugaso_check(two.bytes, two.length), refusal, place, answer);
    moves(line, lepugaso_to_form_1, two, one.length, named, place, one);
    moves(line, lepugaso_to_form_1, two, 0, named, place, one);
}

/* Every call, asked for the first entry, for the last, and for one that there is not: of an accepted table that is 8. */
static void all_calls(int line, const struct table *t, uint32_t start, uint32_t refusal, uint32_t place) {
    const uint32_t entries[] = {0, t->types - 1, t->types, UINT32_MAX};
    struct file one = put(room_1, t, start, 1, 0), two = put(room_2, t, start, 2, 7);
    one.bytes = lent(one.bytes, one.length);
    two.bytes = lent(two.bytes, two.length);
    for (size_t k = 0; k < COUNT(entries); k++) {
        if (refusal) {
            refused_by_all(__FILE__, line, one.bytes, one.length, entries[k], refusal, place);
            refused_by_all(__FILE__, line, two.bytes, two.length, entries[k], refusal, place);
        } else if (k >= 2) {
            expect(__FILE__, line, "form 1", lepugaso_size(one.bytes, one.length, entries[k]), LEPUGASO_REFUSED_ENTRY, 0, 0);
            expect(__FILE__, line, "form 2", lepugaso_size(two.bytes, two.length, entries[k]), LEPUGASO_REFUSED_ENTRY, 0, 0);
        }
    }
}

/* ---- by hand */

#define TABLE(types, members, refusal, place, ...) \
    {__LINE__, types, members, refusal, place, sizeof((const uint8_t[]){__VA_ARGS__}), (const uint8_t[]){__VA_ARGS__}}
#define ONE MEMBER(0)
#define TWO MEMBER(0), MEMBER(0)
#define THREE TWO, ONE
#define RUBBISH LE32(UINT32_MAX), LE32(0xFEDCBA98), LE32(0x76543210)
static const struct {
    int line;
    uint32_t types, members, refusal, place;
    size_t length;
    const uint8_t *bytes;
} by_hand[] = {
    /* No members; a struct of all; twice the same; overlapping, in either order; one within the other, in either order. */
    TABLE(1, 0, 0, 0, U32),
    TABLE(2, 1, 0, 0, U32, STRUCT(0, 1), ONE),
    TABLE(2, 3, 0, 0, U32, STRUCT(0, 3), THREE),
    TABLE(3, 2, 0, 0, U32, STRUCT(0, 2), STRUCT(0, 2), TWO),
    TABLE(3, 3, 0, 0, U32, STRUCT(0, 2), STRUCT(1, 2), THREE),
    TABLE(3, 3, 0, 0, U32, STRUCT(1, 2), STRUCT(0, 2), THREE),
    TABLE(3, 3, 0, 0, U32, STRUCT(0, 3), STRUCT(1, 1), THREE),
    TABLE(3, 3, 0, 0, U32, STRUCT(1, 1), STRUCT(0, 3), THREE),
    /* One after the other, rising, falling and neither; and falling, each struct within the next. */
    TABLE(4, 3, 0, 0, U32, STRUCT(0, 1), STRUCT(1, 1), STRUCT(2, 1), THREE),
    TABLE(4, 3, 0, 0, U32, STRUCT(2, 1), STRUCT(1, 1), STRUCT(0, 1), THREE),
    TABLE(4, 3, 0, 0, U32, STRUCT(2, 1), STRUCT(0, 1), STRUCT(1, 1), THREE),
    TABLE(4, 4, 0, 0, U32, STRUCT(3, 1), STRUCT(1, 2), STRUCT(0, 1), MEMBER(2), MEMBER(0), MEMBER(1), MEMBER(0)),
    /* With other entries between; an open struct; structs of a bool, beside types without a layout. */
    TABLE(6, 3, 0, 0, U32, STRUCT(2, 1), ARRAY(1, 4), VECTOR(3, 0), STRUCT(0, 2), F16, MEMBER(2), MEMBER(3), MEMBER(0)),
    TABLE(4, 3, 0, 0, U32, RUNTIME_ARRAY(0), STRUCT(1, 2), STRUCT(0, 1), MEMBER_ALIGN(0, 16), MEMBER_SIZE(0, 8), MEMBER(1)),
    TABLE(5, 2, 0, 0, BOOL, ABSTRACT_INT, STRUCT(1, 1), STRUCT(0, 1), ARRAY(1, 2), TWO),

    /* No struct at all; entries of other kinds, whose references and counts are those of a struct of all. */
    TABLE(1, 1, STRAY, 0, U32, ONE),
    TABLE(1, 3, STRAY, 0, U32, THREE),
    TABLE(6, 2, STRAY, 0, U32, ARRAY(0, 2), RUNTIME_ARRAY(0), VECTOR(2, 0), ATOMIC(0), ARRAY(0, 1), TWO),
    TABLE(3, 3, STRAY, 1, U32, STRUCT(0, 1), ARRAY(1, 2), THREE),
    /* The first, the last, one between, two between, whichever struct comes first. */
    TABLE(2, 2, STRAY, 0, U32, STRUCT(1, 1), TWO),
    TABLE(2, 2, STRAY, 1, U32, STRUCT(0, 1), TWO),
    TABLE(2, 3, STRAY, 0, U32, STRUCT(1, 2), THREE),
    TABLE(2, 3, STRAY, 2, U32, STRUCT(0, 2), THREE),
    TABLE(3, 3, STRAY, 1, U32, STRUCT(0, 1), STRUCT(2, 1), THREE),
    TABLE(3, 3, STRAY, 1, U32, STRUCT(2, 1), STRUCT(0, 1), THREE),
    TABLE(3, 4, STRAY, 1, U32, STRUCT(0, 1), STRUCT(3, 1), TWO, TWO),
    TABLE(3, 4, STRAY, 1, U32, STRUCT(3, 1), STRUCT(0, 1), TWO, TWO),
    /* The lowest of several. */
    TABLE(2, 3, STRAY, 0, U32, STRUCT(1, 1), THREE),
    TABLE(2, 3, STRAY, 1, U32, STRUCT(0, 1), THREE),
    TABLE(3, 5, STRAY, 0, U32, STRUCT(1, 1), STRUCT(3, 1), THREE, TWO),
    TABLE(3, 5, STRAY, 1, U32, STRUCT(0, 1), STRUCT(2, 1), THREE, TWO),
    TABLE(3, 5, STRAY, 1, U32, STRUCT(4, 1), STRUCT(0, 1), THREE, TWO),
    TABLE(4, 6, STRAY, 2, U32, STRUCT(3, 2), STRUCT(0, 2), STRUCT(1, 1), THREE, THREE),
    /* As many names as members, and more, but one member without. */
    TABLE(3, 2, STRAY, 1, U32, STRUCT(0, 1), STRUCT(0, 1), TWO),
    TABLE(3, 2, STRAY, 0, U32, STRUCT(1, 1), STRUCT(1, 1), TWO),
    TABLE(3, 4, STRAY, 3, U32, STRUCT(0, 2), STRUCT(1, 2), TWO, TWO),
    TABLE(3, 4, STRAY, 0, U32, STRUCT(2, 2), STRUCT(1, 2), TWO, TWO),
    TABLE(5, 3, STRAY, 1, U32, STRUCT(2, 1), STRUCT(0, 1), STRUCT(2, 1), STRUCT(0, 1), THREE),
    /* Its fields are not looked at: of no type, with flags that there are not; of a size that would be 6, and of one that would be 7. */
    TABLE(2, 2, STRAY, 0, U32, STRUCT(1, 1), RUBBISH, ONE),
    TABLE(2, 2, STRAY, 1, U32, STRUCT(0, 1), ONE, RUBBISH),
    TABLE(2, 2, STRAY, 1, U32, STRUCT(0, 1), ONE, MEMBER_SIZE(0, 3)),
    TABLE(2, 3, STRAY, 1, U32, STRUCT(0, 1), ONE, MEMBER_SIZE(0, UINT32_MAX), MEMBER_SIZE(0, UINT32_MAX)),

    /* A bad entry comes first, the lowest of them, wherever it stands. */
    TABLE(1, 1, LEPUGASO_REFUSED_RULE, 0, TYPE(16, 0, 0, 0, 0), ONE),
    TABLE(3, 2, LEPUGASO_REFUSED_RULE, 2, U32, STRUCT(1, 1), VECTOR(5, 0), TWO),
    TABLE(3, 2, LEPUGASO_REFUSED_RULE, 1, U32, VECTOR(5, 0), STRUCT(0, 1), TWO),
    TABLE(4, 2, LEPUGASO_REFUSED_RULE, 1, U32, VECTOR(5, 0), STRUCT(1, 1), VECTOR(6, 0), TWO),
    TABLE(2, 2, LEPUGASO_REFUSED_RULE, 1, U32, STRUCT(1, 2), TWO),
    TABLE(2, 2, LEPUGASO_REFUSED_RULE, 1, U32, STRUCT(2, 1), TWO),
    TABLE(2, 2, LEPUGASO_REFUSED_RULE, 1, U32, STRUCT(0, 0), TWO),
    TABLE(2, 2, LEPUGASO_REFUSED_RULE, 1, U32, STRUCT(1, 1025), TWO),
    TABLE(2, 2, LEPUGASO_REFUSED_RULE, 1, U32, STRUCT(1, UINT32_MAX), TWO),
    TABLE(2, 2, LEPUGASO_REFUSED_RULE, 1, U32, STRUCT(1, 1), ONE, MEMBER(1)),
    TABLE(2, 2, LEPUGASO_REFUSED_RULE, 1, U32, STRUCT(1, 1), ONE, RUBBISH),
    TABLE(3, 2, LEPUGASO_REFUSED_RULE, 2, U32, STRUCT(0, 1), STRUCT(0, 3), TWO),
    TABLE(2, 2, LEPUGASO_REFUSED_GIVEN, 1, U32, STRUCT(1, 1), ONE, MEMBER_SIZE(0, 3)),
    TABLE(3, 3, LEPUGASO_REFUSED_GIVEN, 2, U32, STRUCT(1, 1), STRUCT(2, 1), TWO, MEMBER_ALIGN(0, 12)),
    TABLE(2, 1, LEPUGASO_REFUSED_TOO_LARGE, 1, U32, ARRAY(0, 1073741824u), ONE),
    TABLE(4, 2, LEPUGASO_REFUSED_TOO_LARGE, 3, U32, STRUCT(1, 1), F32, ARRAY(1, 1073741824u), TWO),
    TABLE(2, 3, LEPUGASO_REFUSED_TOO_LARGE, 1, U32, STRUCT(1, 2), ONE, MEMBER_SIZE(0, 4294967292u), ONE),
};

static void written_out(void) {
    for (size_t k = 0; k < COUNT(by_hand); k++) {
        struct table t = {by_hand[k].types, by_hand[k].members, by_hand[k].bytes};
        hold(__FILE__, by_hand[k].line, "the length of a table", by_hand[k].length == 12 * ((size_t)t.types + t.members));
        for (uint32_t start = 0; start <= SPARE; start += SPARE) {
            tables(by_hand[k].line, &t, start, by_hand[k].refusal, by_hand[k].place);
            all_calls(by_hand[k].line, &t, start, by_hand[k].refusal, by_hand[k].place);
        }
    }
}

/* What is wrong with the trailer comes first. */
static void trailers(void) {
    static const uint8_t bytes[] = {U32, STRUCT(1, 1), TWO};
    const struct table t = {2, 2, bytes};
    /* Two bytes of the trailer, where they lie and what is put there. */
    static const struct {
        uint32_t at, number, refusal;
    } wrong[] = {{8, 0, LEPUGASO_REFUSED_FORM},      {8, 3, LEPUGASO_REFUSED_FORM},     {8, 513, LEPUGASO_REFUSED_FORM},
                 {0, 0, LEPUGASO_REFUSED_COUNTS},    {0, 257, LEPUGASO_REFUSED_COUNTS}, {2, 1025, LEPUGASO_REFUSED_COUNTS},
                 {2, 1024, LEPUGASO_REFUSED_LENGTH}, {2, 1, LEPUGASO_REFUSED_LENGTH},   {0, 1, LEPUGASO_REFUSED_LENGTH},
                 {4, 1, LEPUGASO_REFUSED_LENGTH},    {6, 1, LEPUGASO_REFUSED_LENGTH}};
    for (uint32_t form = 1; form <= 2; form++) {
        struct file file = put(room_1, &t, 0, form, 7);
        uint8_t *trailer = room_1 + LONGEST - 10;
        refused_by_all(__FILE__, __LINE__, file.bytes, file.length, 0, STRAY, 0);
        for (size_t length = 0; length < 10; length++) {
            refused_by_all(__FILE__, __LINE__, room_1 + LONGEST - length, length, 0, LEPUGASO_REFUSED_SHORT_FILE, 0);
        }
        refused_by_all(__FILE__, __LINE__, file.bytes + 1, file.length - 1, 0, LEPUGASO_REFUSED_LENGTH, 0);
        refused_by_all(__FILE__, __LINE__, file.bytes - 1, file.length + 1, 0, LEPUGASO_REFUSED_LENGTH, 0);
        for (size_t k = 0; k < COUNT(wrong); k++) {
            uint8_t right[] = {trailer[wrong[k].at], trailer[wrong[k].at + 1]};
            memcpy(trailer + wrong[k].at, (const uint8_t[]){LE16(wrong[k].number)}, 2);
            refused_by_all(__FILE__, __LINE__, file.bytes, file.length, 0, wrong[k].refusal, 0);
            memcpy(trailer + wrong[k].at, right, 2);
        }
        refused_by_all(__FILE__, __LINE__, file.bytes, file.length, 0, STRAY, 0);
    }
}

/* ---- as many types and members as there can be */

struct range {
    uint32_t first, count;
};
enum { STRUCTS = MOST_TYPES - 1 };

/* A u32, structs of these ranges of members, in this order, and the members, each a u32. */
static struct table of_ranges(const struct range *ranges, uint32_t structs, uint32_t members) {
    static uint8_t bytes[12 * (MOST_TYPES + MOST)];
    uint8_t *to = bytes + 12;
    memcpy(bytes, (const uint8_t[]){U32}, 12);
    for (uint32_t k = 0; k < structs; k++, to += 12) memcpy(to, (const uint8_t[]){STRUCT(ranges[k].first, ranges[k].count)}, 12);
    for (uint32_t m = 0; m < members; m++, to += 12) memcpy(to, (const uint8_t[]){MEMBER(0)}, 12);
    return (struct table){1 + structs, members, bytes};
}

/* Four members for each struct, for the last but one the rest, and for the last one any. None has member `out`, if there is such a one. */
static void all_but(struct range *ranges, uint32_t out) {
    for (uint32_t k = 0; k < STRUCTS; k++) ranges[k] = (struct range){4 * k, 4};
    ranges[STRUCTS - 2].count = MOST - ranges[STRUCTS - 2].first;
    ranges[STRUCTS - 1] = (struct range){(out + 1) % MOST, 1};
    if (out >= MOST) return;
    uint32_t at = out / 4 < STRUCTS - 2 ? out / 4 : STRUCTS - 2;
    struct range *cut = ranges + at, before = {cut->first, out - cut->first}, behind = {out + 1, cut->first + cut->count - out - 1};
    *cut = before.count ? before : behind;
    if (before.count && behind.count) ranges[STRUCTS - 1] = behind;
}

/* In the order in which they stand, the other way round, and in any. */
static void reorder(struct range *ranges, uint32_t way) {
    for (uint32_t k = 0; k < STRUCTS; k++) {
        uint32_t other = way == 1 ? STRUCTS - 1 - k : way == 2 ? k + next_word() % (STRUCTS - k) : k;
        struct range held = ranges[k];
        if (other > k) ranges[k] = ranges[other], ranges[other] = held;
    }
}

static void at_the_limit(void) {
    static struct range ranges[STRUCTS];
    for (uint32_t way = 0; way < 3; way++) {
        for (uint32_t out = 0; out <= MOST; out++) {
            uint32_t refusal = out < MOST ? STRAY : 0, place = out < MOST ? out : 0;
            all_but(ranges, out);
            reorder(ranges, way);
            struct table t = of_ranges(ranges, STRUCTS, MOST);
            tables(__LINE__, &t, out % (SPARE + 1), refusal, place);
            if (out < 2 || out % 512 == 0 || out >= MOST - 2) all_calls(__LINE__, &t, 0, refusal, place);
        }
    }
    /* Each struct has all members; all but the last; all but the first. */
    for (uint32_t k = 0; k < STRUCTS; k++) ranges[k] = (struct range){0, MOST};
    struct table t = of_ranges(ranges, STRUCTS, MOST);
    tables(__LINE__, &t, 0, 0, 0);
    for (uint32_t k = 0; k < STRUCTS; k++) ranges[k] = (struct range){0, MOST - 1};
    t = of_ranges(ranges, STRUCTS, MOST);
    tables(__LINE__, &t, 0, STRAY, MOST - 1);
    for (uint32_t k = 0; k < STRUCTS; k++) ranges[k] = (struct range){1, MOST - 1};
    t = of_ranges(ranges, STRUCTS, MOST);
    tables(__LINE__, &t, 0, STRAY, 0);
    /* Each has the last member alone, but the last struct has all others, or is not there; and there is no struct at all. */
    for (uint32_t k = 0; k + 1 < STRUCTS; k++) ranges[k] = (struct range){MOST - 1, 1};
    ranges[STRUCTS - 1] = (struct range){0, MOST - 1};
    t = of_ranges(ranges, STRUCTS, MOST);
    tables(__LINE__, &t, 0, 0, 0);
    t = of_ranges(ranges, STRUCTS - 1, MOST);
    tables(__LINE__, &t, 0, STRAY, 0);
    t = of_ranges(ranges, 0, MOST);
    tables(__LINE__, &t, 0, STRAY, 0);
    /* A bad entry behind all others. */
    static uint8_t last[12 * (MOST_TYPES + MOST)];
    t = of_ranges(ranges, STRUCTS, MOST);
    memcpy(last, t.bytes, sizeof last);
    memcpy(last + 12 * (MOST_TYPES - 1), (const uint8_t[]){VECTOR(5, 0)}, 12);
    tables(__LINE__, &(struct table){MOST_TYPES, MOST, last}, 0, LEPUGASO_REFUSED_RULE, MOST_TYPES - 1);
}

/* ---- any tables, beside the model */

/* How often a table was accepted, had a member of no struct, and had a bad entry. */
static uint32_t accepted, strays, bad;

/* Up to `most` members: any; or from the lowest without a mark on; or up to the highest without one. */
static struct range any_range(const uint8_t *marked, uint32_t members, uint32_t most, uint32_t way) {
    uint32_t low = 0, high = members - 1;
    while (low + 1 < members && marked[low]) low++;
    while (high > 0 && marked[high]) high--;
    if (way == 0) low = next_word() % members;
    uint32_t room = way == 2 ? high + 1 : members - low, count = 1 + next_word() % (room < most ? room : most);
    return (struct range){way == 2 ? high + 1 - count : low, count};
}

/* Entries that refer to the first one, which is a u32, and structs, whose members are marked one by one; one entry may be bad. A member of
 * no struct has any fields. */
static void any_table(uint32_t types, uint32_t members) {
    static uint8_t bytes[12 * (MOST_TYPES + MOST)], marked[MOST];
    uint32_t way = next_word() % 3, most = 1 + next_word() % 16, wrong = next_word() % 8 ? types : next_word() % types, stray = members;
    uint8_t *to = bytes;
    memset(marked, 0, sizeof marked);
    for (uint32_t e = 0; e < types; e++, to += 12) {
        uint32_t word = next_word();
        struct range r = members ? any_range(marked, members, most, way) : (struct range){0, 1};
        const uint8_t scalar[] = {U32}, array[] = {ARRAY(0, r.count)}, of_members[] = {STRUCT(r.first, r.count)}, none[] = {VECTOR(5, 0)};
        int is_struct = e != wrong && e > 0 && word % 8 < 6 && members > 0;
        memcpy(to, e == wrong ? none : is_struct ? of_members : e > 0 && word % 8 == 6 ? array : scalar, 12);
        for (uint32_t k = 0; is_struct && k < r.count; k++) marked[r.first + k] = 1;
    }
    for (uint32_t m = members; m-- > 0;) {
        uint32_t word = next_word();
        const uint8_t plain[] = {MEMBER(0)}, sized[] = {MEMBER_SIZE(0, 4 + word / 8 % 64)};
        const uint8_t aligned[] = {MEMBER_ALIGN(0, 4u << word / 8 % 5)};
        memcpy(to + 12 * (size_t)m, word % 4 == 1 ? sized : word % 4 == 2 ? aligned : plain, 12);
        if (marked[m]) continue;
        stray = m;
        for (uint32_t k = 0; word % 4 == 3 && k < 12; k++) to[12 * (size_t)m + k] = (uint8_t)next_word();
    }
    const struct table t = {types, members, bytes};
    uint32_t refusal = wrong < types ? LEPUGASO_REFUSED_RULE : stray < members ? STRAY : 0;
    uint32_t place = wrong < types ? wrong : stray < members ? stray : 0;
    refusal == STRAY ? strays++ : refusal ? bad++ : accepted++;
    tables(__LINE__, &t, next_word() % (SPARE + 1), refusal, place);
    if (next_word() % 8 == 0) all_calls(__LINE__, &t, next_word() % (SPARE + 1), refusal, place);
}

int main(void) {
    room_1 = fresh(LONGEST);
    room_2 = fresh(LONGEST);
    moved = fresh(LONGEST);
    memset(old, OLD_BYTE, sizeof old);
    written_out();
    trailers();
    at_the_limit();
    for (uint32_t turn = 0; turn < 4000; turn++) any_table(1 + next_word() % 12, next_word() % 20);
    for (uint32_t turn = 0; turn < 200; turn++) any_table(1 + next_word() % MOST_TYPES, next_word() % (MOST + 1));
    HOLDS(accepted > 500 && strays > 500 && bad > 300);
    return failures != 0;
}
