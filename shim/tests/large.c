/* Large numbers in every argument of every call that takes a file: were one cut, to fewer bits or to some limit, an answer here would be
 * another (tools/wrong-shims). The numbers that say which bits of a word are in fields.c. One file has as many types and members as there
 * can be, and its last type more than 65,536 words. */
#include "pages.h"
#include "test.h"

#define M LEPUGASO_MEMBER

/* 0 is f32 and 1 is mat2x2<f32>. Each from 2 to 254 is struct {f32, f32, f32, the one before}: 16 bytes more than that, and 3 words more.
 * 255 is a struct of all members: those of all structs before it, then 11 f32, the first of them with align 16, and 254. So 254 steps lead
 * from 255 to the matrix, the last scalar of all is two more away, and no path to anything has more steps than these 256. */
enum { TYPES = 256, MEMBERS = 1024, LENGTH = 12 * (TYPES + MEMBERS) + 10, LENGTH_2 = LENGTH + 4 * MEMBERS, LAST = TYPES - 1 };
enum { ROWS = 254 * 255 / 2 - 1 + 3 + 254, SIZE = 16 * ROWS, WORDS = 98179, STEPS = 256 };

/* The last type has too many members for a block, so 254 is the deepest: 254 steps lead from its member 3 to the last scalar. */
enum { BLOCK = LAST - 1, BLOCK_SIZE = 16 * BLOCK, BLOCK_STEPS = STEPS - 2 };

/* `length` bytes, all 0, of which only those of the first and the last pages can be touched. */
static uint8_t *far(size_t length) {
    size_t room = (length / PAGE + 1) * PAGE, outer = room < 8 * PAGE ? room : 8 * PAGE;
    uint8_t *pages = mmap(NULL, room + PAGE, PROT_NONE, MAP_PRIVATE | MAP_ANONYMOUS | MAP_NORESERVE, -1, 0);
    if (pages == MAP_FAILED) exit(2);
    if (mprotect(pages, outer, PROT_READ | PROT_WRITE) || mprotect(pages + room - outer, outer, PROT_READ | PROT_WRITE)) exit(2);
    return pages + room - length;
}

/* The file from its types on, in form 1, or in form 2 without names; `start` bytes stand before them. */
static void put_large(uint8_t *to, uint32_t start, uint32_t form) {
#define PUT(...)                               \
    do {                                       \
        const uint8_t bytes[] = {__VA_ARGS__}; \
        memcpy(to, bytes, sizeof bytes);       \
        to += sizeof bytes;                    \
    } while (0)
#define PUT_MEMBER(...)                 \
    do {                                \
        PUT(__VA_ARGS__);               \
        if (form == 2) PUT(0, 0, 0, 0); \
    } while (0)
    PUT(F32);
    PUT(MATRIX(2, 2, 0));
    for (uint32_t k = 2; k < LAST; k++) PUT(STRUCT(4 * (k - 2), 4));
    PUT(STRUCT(0, MEMBERS));
    for (uint32_t k = 2; k < LAST; k++) {
        for (int scalar = 0; scalar < 3; scalar++) PUT_MEMBER(MEMBER(0));
        PUT_MEMBER(MEMBER(k - 1));
    }
    PUT_MEMBER(MEMBER_ALIGN(0, 16));
    for (int scalar = 1; scalar < 11; scalar++) PUT_MEMBER(MEMBER(0));
    PUT_MEMBER(MEMBER(LAST - 1));
    PUT(LE16(TYPES), LE16(MEMBERS), LE32(start), LE16(form));
#undef PUT_MEMBER
#undef PUT
}

/* The same in form 1, with the bytes before it, most of which cannot be touched where there are many. */
static const uint8_t *large_file(uint32_t start) {
    uint8_t *types = far((size_t)start + LENGTH) + start;
    put_large(types, start, 1);
    return sealed(types, LENGTH) - start;
}

/* The words of 255, and what they are written as: rows of 16 bytes, each of three words and a gap, or of four words where a matrix lies. */
static uint32_t words[WORDS], rows[4 * ROWS];
static size_t next_word, next_row;

static void put_words(size_t count) {
    memcpy(rows + 4 * next_row, words + next_word, count * sizeof *words);
    next_word += count;
    next_row += (count + 3) / 4;
}

static void put_entry(size_t entry) {
    for (; entry > 1; entry--) put_words(3);
    put_words(4);
}

static void fill_rows(void) {
    for (size_t k = 0; k < WORDS; k++) words[k] = (uint32_t)k * 2654435761u + 1;
    for (size_t k = 2; k < LAST; k++) put_entry(k);
    put_words(11);
    put_entry(LAST - 1);
    HOLDS(next_word == WORDS && next_row == ROWS);
}

/* The longest path, and a step more. */
static uint32_t path[STEPS + 1];

static void fill_path(void) {
    path[0] = M(MEMBERS - 1);
    for (size_t k = 1; k < STEPS - 2; k++) path[k] = M(3);
    path[STEPS - 2] = path[STEPS - 1] = 1;
    path[STEPS] = 0;
}

/* What is asked of the last type, the answer no other type's; and of the deepest block, with its two starts. */
static void questions(const uint8_t *file, size_t length) {
    lepugaso_layout *out = (void *)fresh(sizeof *out);
    uint64_t *mask = (void *)fresh(sizeof *mask);
    const uint8_t *factory = lent((const uint8_t *)rows + SIZE - BLOCK_SIZE, BLOCK_SIZE);
    uint8_t *site = fresh(BLOCK_SIZE);
    EXPECT(lepugaso_check(file, length), 0, 0, TYPES);
    EXPECT(lepugaso_size(file, length, LAST), 0, 0, SIZE);
    EXPECT(lepugaso_align(file, length, LAST), 0, 0, 16);
    EXPECT(lepugaso_min_size(file, length, LAST), 0, 0, SIZE);
    EXPECT(lepugaso_layout_of(file, length, LAST, out), 0, 0, 0);
    HOLDS(out->size == SIZE && out->align == 16 && out->min_size == SIZE && out->stride == SIZE);
    EXPECT(lepugaso_rank(file, length, LAST, LAST), 0, 0, 0);
    EXPECT(lepugaso_common(file, length, (const uint32_t[]){LAST}, 1), 0, 0, LAST);
    EXPECT(lepugaso_uniform(file, length, LAST), 0, 0, 0);
    *mask = 9;
    EXPECT(lepugaso_site_inheriting(file, length, LAST, mask), LEPUGASO_REFUSED_NO_SITE, 0, 0);
    EXPECT(lepugaso_site_fresh(file, length, LAST, factory, BLOCK_SIZE, site, BLOCK_SIZE, mask), LEPUGASO_REFUSED_NO_SITE, 0, 0);
    EXPECT(lepugaso_site_fresh(file, length, BLOCK, factory, BLOCK_SIZE - 1, site, BLOCK_SIZE, mask), LEPUGASO_REFUSED_SHORT_BUFFER, 0, 0);
    EXPECT(lepugaso_site_fresh(file, length, BLOCK, factory, BLOCK_SIZE, site, BLOCK_SIZE - 1, mask), LEPUGASO_REFUSED_SHORT_BUFFER, 0, 0);
    HOLDS(*mask == 9 && site[0] == 0 && memcmp(site, site + 1, BLOCK_SIZE - 1) == 0);
    EXPECT(lepugaso_site_clear(file, length, BLOCK, 3, mask), 0, 0, 0);
    HOLDS(*mask == 1);
    EXPECT(lepugaso_site_inheriting(file, length, BLOCK, mask), 0, 0, 0);
    HOLDS(*mask == 0 && site[0] == 0 && memcmp(site, site + 1, BLOCK_SIZE - 1) == 0);
    EXPECT(lepugaso_site_fresh(file, length, BLOCK, factory, BLOCK_SIZE, site, BLOCK_SIZE, mask), 0, 0, 0);
    HOLDS(*mask == 15 && memcmp(site, factory, BLOCK_SIZE) == 0);
}

static void many_words(const uint8_t *file, size_t length) {
    const void *given = lent(words, sizeof words);
    uint8_t *buf = fresh(SIZE);
    memset(buf, 0xA5, SIZE);
    EXPECT(lepugaso_write(file, length, LAST, given, WORDS - 1, buf, SIZE), LEPUGASO_REFUSED_WORDS, 0, 0);
    EXPECT(lepugaso_write(file, length, LAST, given, WORDS, buf, SIZE - 1), LEPUGASO_REFUSED_SHORT_BUFFER, 0, 0);
    HOLDS(buf[0] == 0xA5 && memcmp(buf, buf + 1, SIZE - 1) == 0);
    EXPECT(lepugaso_write(file, length, LAST, given, WORDS, buf, SIZE), 0, 0, SIZE);
    HOLDS(memcmp(buf, rows, SIZE) == 0);

    uint32_t *read = (void *)fresh(WORDS * sizeof *read);
    EXPECT(lepugaso_read(file, length, LAST, buf, SIZE, read, WORDS - 1), LEPUGASO_REFUSED_WORDS, 0, 0);
    EXPECT(lepugaso_read(file, length, LAST, buf, SIZE - 1, read, WORDS), LEPUGASO_REFUSED_SHORT_BUFFER, 0, 0);
    HOLDS(read[0] == 0 && memcmp(read, read + 1, (WORDS - 1) * sizeof *read) == 0);
    EXPECT(lepugaso_read(file, length, LAST, buf, SIZE, read, WORDS), 0, 0, WORDS);
    HOLDS(memcmp(read, words, sizeof words) == 0);
}

/* The gaps of the last type, full of rubbish; then the last byte of the last of them alone. */
static void many_gaps(const uint8_t *file, size_t length) {
    enum { GAPS = 4 * (4 * ROWS - WORDS), LAST_GAP = SIZE - 16 - 4 };
    uint8_t *buf = fresh(SIZE), *rubbish = fresh(SIZE);
    uint64_t *first = (void *)fresh(sizeof *first);
    size_t count = 0;
    memcpy(rubbish, rows, SIZE);
    for (size_t k = 0; k < 4 * ROWS; k++) {
        if (rows[k] == 0) memset(rubbish + 4 * k, 0xA5, 4), count += 4;
    }
    HOLDS(count == GAPS);
    memcpy(buf, rubbish, SIZE);
    *first = 5;
    EXPECT(lepugaso_clean(file, length, LAST, buf, SIZE - 1, first), LEPUGASO_REFUSED_SHORT_BUFFER, 0, 0);
    HOLDS(*first == 5 && memcmp(buf, rubbish, SIZE) == 0);
    EXPECT(lepugaso_clean(file, length, LAST, buf, SIZE, first), 0, 0, GAPS);
    HOLDS(*first == 12 && memcmp(buf, rows, SIZE) == 0);
    EXPECT(lepugaso_clean(file, length, LAST, buf, SIZE, first), 0, 0, 0);
    HOLDS(*first == SIZE && memcmp(buf, rows, SIZE) == 0);
    buf[LAST_GAP + 3] = 1;
    EXPECT(lepugaso_clean(file, length, LAST, buf, SIZE, first), 0, 0, 1);
    HOLDS(*first == LAST_GAP + 3 && memcmp(buf, rows, SIZE) == 0);
}

/* A better order of the last type's members: the f32 with align 16, then all that is aligned to 8, then the other f32. */
enum { WIDE = 254, NEW_END = (8 + 16 * (WIDE * (WIDE + 1) / 2) + 4 * (MEMBERS - WIDE - 1) + 15) / 16 * 16 };
static uint32_t order[MEMBERS + 1];

static void fill_order(void) {
    uint32_t wide = 1, other = 1 + WIDE;
    order[0] = 4 * (LAST - 2);
    for (uint32_t k = 0; k < MEMBERS; k++) {
        if (k != order[0]) order[k + 1 == MEMBERS || (k < order[0] && k % 4 == 3) ? wide++ : other++] = k;
    }
    HOLDS(wide == 1 + WIDE && other == MEMBERS);
}

static void many_members(const uint8_t *file, size_t length) {
    uint32_t *planned = (void *)fresh(sizeof order - sizeof *order);
    EXPECT(lepugaso_plan_order(file, length, LAST, planned, MEMBERS - 1), LEPUGASO_REFUSED_WORDS, 0, 0);
    HOLDS(planned[0] == 0 && memcmp(planned, planned + 1, (MEMBERS - 1) * sizeof *planned) == 0);
    EXPECT(lepugaso_plan_order(file, length, LAST, planned, MEMBERS), 0, 0, MEMBERS);
    HOLDS(memcmp(planned, order, MEMBERS * sizeof *planned) == 0);
    const void *offered = sealed((uint8_t *)planned, MEMBERS * sizeof *planned), *too_many = lent(order, sizeof order);
    EXPECT(lepugaso_check_order(file, length, LAST, offered, MEMBERS), 0, 0, NEW_END);
    EXPECT(lepugaso_check_order(file, length, LAST, offered, MEMBERS - 1), LEPUGASO_REFUSED_ORDER, 0, 0);
    EXPECT(lepugaso_check_order(file, length, LAST, too_many, MEMBERS + 1), LEPUGASO_REFUSED_ORDER, 0, 0);
}

/* Positions that are those of members only in their low bits. */
static void no_positions(const uint8_t *file, size_t length) {
    uint32_t *wrong = (void *)fresh(MEMBERS * sizeof *wrong);
    memcpy(wrong, order, MEMBERS * sizeof *wrong);
    for (uint32_t bit = 10; bit < 32; bit++) {
        for (uint32_t at = 0; at < MEMBERS; at += MEMBERS - 1) {
            wrong[at] += UINT32_C(1) << bit;
            EXPECT(lepugaso_check_order(file, length, LAST, wrong, MEMBERS), LEPUGASO_REFUSED_ORDER, 0, 0);
            wrong[at] = order[at];
        }
    }
    EXPECT(lepugaso_check_order(file, length, LAST, wrong, MEMBERS), 0, 0, NEW_END);
}

static void many_steps(const uint8_t *file, size_t length) {
    const void *steps = lent(path, STEPS * sizeof *path), *too_many = lent(path, sizeof path);
    const void *word = lent((const uint32_t[]){0x89ABCDEF}, sizeof(uint32_t));
    uint8_t *buf = fresh(SIZE);
    const uint8_t *part;
    size_t part_len;
    memcpy(buf, rows, SIZE);
    EXPECT(lepugaso_view(file, length, LAST, NULL, 0, buf, SIZE, &part, &part_len), 0, 0, 0);
    HOLDS(part == buf && part_len == SIZE);
    EXPECT(lepugaso_view(file, length, LAST, steps, STEPS, buf, SIZE, &part, &part_len), 0, 0, SIZE - 4);
    HOLDS(part == buf + SIZE - 4 && part_len == 4);
    EXPECT(lepugaso_view(file, length, LAST, too_many, STEPS + 1, buf, SIZE, &part, &part_len), LEPUGASO_REFUSED_INDEX_STEP, STEPS, 0);
    HOLDS(part == buf && part_len == 0);
    EXPECT(lepugaso_set(file, length, LAST, too_many, STEPS + 1, word, 1, buf, SIZE), LEPUGASO_REFUSED_INDEX_STEP, STEPS, 0);
    /* Where there are so many steps there is an f32 at the end of them, so no field. */
    EXPECT(lepugaso_extract_bits(file, length, LAST, steps, STEPS, buf, SIZE, 0, 12), LEPUGASO_REFUSED_WORDS, 0, 0);
    EXPECT(lepugaso_insert_bits(file, length, LAST, steps, STEPS, 7, 0, 12, buf, SIZE), LEPUGASO_REFUSED_WORDS, 0, 0);
    EXPECT(lepugaso_extract_bits(file, length, LAST, too_many, STEPS + 1, buf, SIZE, 0, 12), LEPUGASO_REFUSED_INDEX_STEP, STEPS, 0);
    EXPECT(lepugaso_insert_bits(file, length, LAST, too_many, STEPS + 1, 7, 0, 12, buf, SIZE), LEPUGASO_REFUSED_INDEX_STEP, STEPS, 0);
    HOLDS(memcmp(buf, rows, SIZE) == 0);
    EXPECT(lepugaso_set(file, length, LAST, steps, STEPS, word, 1, buf, SIZE), 0, 0, SIZE - 4);
    HOLDS(memcmp(buf, rows, SIZE - 4) == 0 && memcmp(buf + SIZE - 4, (const uint8_t[]){0xEF, 0xCD, 0xAB, 0x89}, 4) == 0);
}

/* A member of the deepest block, and all the way into it. */
static void deep_member(const uint8_t *file, size_t length) {
    const void *steps = lent(path + 2, BLOCK_STEPS * sizeof *path), *too_many = lent(path + 2, (BLOCK_STEPS + 1) * sizeof *path);
    const void *word = lent((const uint32_t[]){0x89ABCDEF}, sizeof(uint32_t));
    const uint8_t *factory = lent((const uint8_t *)rows + SIZE - BLOCK_SIZE, BLOCK_SIZE), *part;
    uint8_t *site = fresh(BLOCK_SIZE);
    uint64_t mask = 4;
    size_t part_len;
    EXPECT(lepugaso_site_member(file, length, BLOCK, 3, mask, factory, BLOCK_SIZE, site, BLOCK_SIZE, &part, &part_len), 0, 0, 16);
    HOLDS(part == factory + 16 && part_len == BLOCK_SIZE - 16);
    EXPECT(lepugaso_site_set(file, length, BLOCK, 3, too_many, BLOCK_STEPS + 1, word, 1, factory, BLOCK_SIZE, site, BLOCK_SIZE, &mask),
           LEPUGASO_REFUSED_INDEX_STEP, BLOCK_STEPS, 0);
    HOLDS(mask == 4 && site[0] == 0 && memcmp(site, site + 1, BLOCK_SIZE - 1) == 0);
    EXPECT(lepugaso_site_set(file, length, BLOCK, 3, steps, BLOCK_STEPS, word, 1, factory, BLOCK_SIZE, site, BLOCK_SIZE, &mask), 0, 0,
           BLOCK_SIZE - 4);
    HOLDS(mask == 12 && site[0] == 0 && memcmp(site, site + 1, 15) == 0 && memcmp(site + 16, factory + 16, BLOCK_SIZE - 20) == 0);
    HOLDS(memcmp(site + BLOCK_SIZE - 4, (const uint8_t[]){0xEF, 0xCD, 0xAB, 0x89}, 4) == 0);
}

/* Numbers that are those of no entry, and of one only in their low bits. */
static void no_entries(const uint8_t *file, size_t length) {
    lepugaso_layout *out = (void *)fresh(sizeof *out);
    uint32_t *word = (void *)fresh(sizeof *word);
    uint64_t *mask = (void *)fresh(sizeof *mask), *first = (void *)fresh(sizeof *first);
    uint8_t *buf = fresh(4), *factory = fresh(4);
    *out = (lepugaso_layout){1, 2, 3, 4};
    *word = 5;
    *mask = 6;
    *first = 7;
    memcpy(buf, "abcd", 4);
    for (uint32_t bit = 8; bit < 32; bit++) {
        for (uint32_t low = 0; low <= LAST; low += LAST) {
            uint32_t entry = low + (UINT32_C(1) << bit);
            const void *list = lent((const uint32_t[]){low, low, entry}, 3 * sizeof entry);
            const uint8_t *part = NULL;
            size_t part_len = 5;
#define NO_ENTRY(call) EXPECT(call, LEPUGASO_REFUSED_ENTRY, 0, 0)
            NO_ENTRY(lepugaso_size(file, length, entry));
            NO_ENTRY(lepugaso_align(file, length, entry));
            NO_ENTRY(lepugaso_min_size(file, length, entry));
            NO_ENTRY(lepugaso_layout_of(file, length, entry, out));
            NO_ENTRY(lepugaso_rank(file, length, entry, low));
            NO_ENTRY(lepugaso_rank(file, length, low, entry));
            NO_ENTRY(lepugaso_common(file, length, list, 3));
            NO_ENTRY(lepugaso_write(file, length, entry, word, 1, buf, 4));
            NO_ENTRY(lepugaso_read(file, length, entry, buf, 4, word, 1));
            NO_ENTRY(lepugaso_view(file, length, entry, NULL, 0, buf, 4, &part, &part_len));
            NO_ENTRY(lepugaso_set(file, length, entry, NULL, 0, word, 1, buf, 4));
            NO_ENTRY(lepugaso_extract_bits(file, length, entry, NULL, 0, buf, 4, 0, 12));
            NO_ENTRY(lepugaso_insert_bits(file, length, entry, NULL, 0, 7, 0, 12, buf, 4));
            NO_ENTRY(lepugaso_uniform(file, length, entry));
            HOLDS(part == buf && part_len == 0);
            NO_ENTRY(lepugaso_site_fresh(file, length, entry, factory, 4, buf, 4, mask));
            NO_ENTRY(lepugaso_site_inheriting(file, length, entry, mask));
            NO_ENTRY(lepugaso_site_member(file, length, entry, 0, *mask, factory, 4, buf, 4, &part, &part_len));
            NO_ENTRY(lepugaso_site_set(file, length, entry, 0, NULL, 0, word, 1, factory, 4, buf, 4, mask));
            NO_ENTRY(lepugaso_site_clear(file, length, entry, 0, mask));
            NO_ENTRY(lepugaso_clean(file, length, entry, buf, 4, first));
            NO_ENTRY(lepugaso_plan_order(file, length, entry, word, 1));
            NO_ENTRY(lepugaso_check_order(file, length, entry, word, 1));
#undef NO_ENTRY
            HOLDS(part == factory && part_len == 0);
        }
    }
    HOLDS(out->size == 1 && out->align == 2 && out->min_size == 3 && out->stride == 4);
    HOLDS(*word == 5 && *mask == 6 && *first == 7 && memcmp(buf, "abcd", 4) == 0);
}

/* Members that are none, and masks of members that are none, but for their low bits. A start writes all bits of a mask. */
static void no_members(const uint8_t *file, size_t length) {
    const void *word = lent((const uint32_t[]){7}, sizeof(uint32_t));
    const uint8_t *factory = lent(rows, BLOCK_SIZE), *part;
    uint8_t *site = fresh(BLOCK_SIZE);
    for (uint32_t bit = 2; bit < 64; bit++) {
        uint32_t member = bit < 32 ? 2 + (UINT32_C(1) << bit) : 2;
        uint32_t refusal = bit < 32 ? LEPUGASO_REFUSED_MEMBER_STEP : LEPUGASO_REFUSED_NO_SITE;
        uint64_t bits = bit < 32 ? 5 : 5 + (UINT64_C(1) << bit), mask = bits;
        size_t part_len;
        EXPECT(lepugaso_site_member(file, length, BLOCK, member, bits, factory, BLOCK_SIZE, site, BLOCK_SIZE, &part, &part_len), refusal, 0,
               0);
        HOLDS(part == factory && part_len == 0);
        EXPECT(lepugaso_site_set(file, length, BLOCK, member, NULL, 0, word, 1, factory, BLOCK_SIZE, site, BLOCK_SIZE, &mask), refusal, 0,
               0);
        EXPECT(lepugaso_site_clear(file, length, BLOCK, member, &mask), refusal, 0, 0);
        HOLDS(mask == bits && site[0] == 0 && memcmp(site, site + 1, BLOCK_SIZE - 1) == 0);
        EXPECT(lepugaso_site_inheriting(file, length, BLOCK, &mask), 0, 0, 0);
        HOLDS(mask == 0);
        mask = bits;
        EXPECT(lepugaso_site_fresh(file, length, BLOCK, factory, BLOCK_SIZE, site, BLOCK_SIZE, &mask), 0, 0, 0);
        HOLDS(mask == 15 && memcmp(site, factory, BLOCK_SIZE) == 0);
        memset(site, 0, BLOCK_SIZE);
    }
}

static const uint8_t few[] = {
    ABSTRACT_INT,    /* 0 */
    I32,             /* 1 */
    ARRAY(1, 70000), /* 2 */
    I64,             /* 3 */
    TRAILER(4, 0),
};

static const uint8_t blocks[] = {
    ABSTRACT_INT,          /* 0: no layout */
    BOOL,                  /* 1 */
    U32,                   /* 2 */
    I64,                   /* 3 */
    STRUCT(0, 2),          /* 4: i64, u32: at 0, 8; 16 bytes */
    ARRAY(2, 70000),       /* 5 */
    STRUCT(2, 3),          /* 6: u32, 5, u32: at 0, 4, 280,004; 280,008 bytes */
    ARRAY(2, 1073741820u), /* 7 */
    STRUCT(5, 2),          /* 8: 7, u32: at 0, 4,294,967,280; 4,294,967,284 bytes */
    MEMBER(3), MEMBER(2), MEMBER(2), MEMBER(5), MEMBER(2), MEMBER(7), MEMBER(2),
    TRAILER(9, 7),
};

static const uint8_t gapped[] = {
    ABSTRACT_INT,          /* 0: no layout */
    BOOL,                  /* 1 */
    U32,                   /* 2 */
    F16,                   /* 3 */
    STRUCT(0, 2),          /* 4: f16, u32: at 0, 4; 8 bytes */
    ARRAY(2, 1073741819u), /* 5 */
    STRUCT(2, 3),          /* 6: f16, 5, f16: at 0, 4, 4,294,967,280; 4,294,967,284 bytes */
    RUNTIME_ARRAY(2),      /* 7 */
    STRUCT(5, 2),          /* 8: f16, 7: at 0, 4 */
    MEMBER(3), MEMBER(2), MEMBER(3), MEMBER(5), MEMBER(3), MEMBER(3), MEMBER(7),
    TRAILER(9, 7),
};

/* Lists whose last number decides. */
static void long_lists(const uint8_t *file) {
    static const size_t counts[] = {300, 65536 + 2};
    for (size_t k = 0; k < 2; k++) {
        size_t count = counts[k];
        uint32_t *list = (void *)fresh(count * sizeof *list);
        EXPECT(lepugaso_common(file, sizeof few, list, count), 0, 0, 0);
        list[count - 1] = 1;
        EXPECT(lepugaso_common(file, sizeof few, list, count), 0, 0, 1);
        list[count - 1] = 2;
        EXPECT(lepugaso_common(file, sizeof few, list, count), LEPUGASO_REFUSED_NO_RANK, 0, 0);
        list[count - 1] = 4;
        EXPECT(lepugaso_common(file, sizeof few, list, count), LEPUGASO_REFUSED_ENTRY, 0, 0);
    }
}

/* Steps whose numbers are good only in their low bits, and one whose number has more than 16. */
static void large_steps(const uint8_t *file, const uint8_t *large) {
    uint32_t *step = (void *)fresh(sizeof *step);
    const void *word = lent((const uint32_t[]){7}, sizeof(uint32_t));
    uint8_t *buf = fresh(SIZE);
    const uint8_t *part;
    size_t part_len;
    for (uint32_t bit = 17; bit < 31; bit++) {
        *step = 3 + (UINT32_C(1) << bit);
        EXPECT(lepugaso_view(file, sizeof few, 2, step, 1, buf, SIZE, &part, &part_len), LEPUGASO_REFUSED_INDEX, 0, 0);
        EXPECT(lepugaso_set(file, sizeof few, 2, step, 1, word, 1, buf, SIZE), LEPUGASO_REFUSED_INDEX, 0, 0);
        EXPECT(lepugaso_extract_bits(file, sizeof few, 2, step, 1, buf, SIZE, 0, 12), LEPUGASO_REFUSED_INDEX, 0, 0);
        EXPECT(lepugaso_insert_bits(file, sizeof few, 2, step, 1, 7, 0, 12, buf, SIZE), LEPUGASO_REFUSED_INDEX, 0, 0);
    }
    for (uint32_t bit = 10; bit < 31; bit++) {
        *step = M(3 + (UINT32_C(1) << bit));
        EXPECT(lepugaso_view(large, LENGTH, LAST, step, 1, buf, SIZE, &part, &part_len), LEPUGASO_REFUSED_MEMBER_STEP, 0, 0);
        EXPECT(lepugaso_set(large, LENGTH, LAST, step, 1, word, 1, buf, SIZE), LEPUGASO_REFUSED_MEMBER_STEP, 0, 0);
        EXPECT(lepugaso_extract_bits(large, LENGTH, LAST, step, 1, buf, SIZE, 0, 12), LEPUGASO_REFUSED_MEMBER_STEP, 0, 0);
        EXPECT(lepugaso_insert_bits(large, LENGTH, LAST, step, 1, 7, 0, 12, buf, SIZE), LEPUGASO_REFUSED_MEMBER_STEP, 0, 0);
    }
    *step = 65536 + 3;
    EXPECT(lepugaso_view(file, sizeof few, 2, step, 1, buf, SIZE, &part, &part_len), 0, 0, 4 * (65536 + 3));
    HOLDS(part == buf + 4 * (65536 + 3) && part_len == 4);
    EXPECT(lepugaso_set(file, sizeof few, 2, step, 1, word, 1, buf, SIZE), 0, 0, 4 * (65536 + 3));
    HOLDS(buf[4 * 3] == 0 && buf[4 * (65536 + 3)] == 7);
    EXPECT(lepugaso_insert_bits(file, sizeof few, 2, step, 1, 4095, 8, 12, buf, SIZE), 0, 0, 4 * (65536 + 3));
    HOLDS(buf[4 * 3 + 1] == 0 && buf[4 * (65536 + 3)] == 7 && buf[4 * (65536 + 3) + 1] == 255);
    EXPECT(lepugaso_extract_bits(file, sizeof few, 2, step, 1, buf, SIZE, 8, 12), 0, 0, UINT32_MAX);
}

/* A block of more than 65,535 bytes, as has one of its members. */
static void large_block(void) {
    enum { LONG = 280008, AT = 4 + 4 * (65536 + 3) };
    const uint8_t *file = lent(blocks, sizeof blocks), *part;
    const void *word = lent((const uint32_t[]){0x89ABCDEF}, sizeof(uint32_t));
    uint32_t *step = (void *)fresh(sizeof *step);
    uint8_t *bytes = fresh(LONG), *site = fresh(LONG);
    uint64_t mask = 0;
    size_t part_len;
    for (size_t k = 0; k < LONG; k++) bytes[k] = (uint8_t)(k * 2654435761u >> 24 | 1);
    const uint8_t *factory = sealed(bytes, LONG);
    for (uint32_t bit = 17; bit < 31; bit++) {
        *step = 3 + (UINT32_C(1) << bit);
        EXPECT(lepugaso_site_set(file, sizeof blocks, 6, 1, step, 1, word, 1, factory, LONG, site, LONG, &mask), LEPUGASO_REFUSED_INDEX, 0,
               0);
    }
    *step = 65536 + 3;
    EXPECT(lepugaso_site_set(file, sizeof blocks, 6, 1, step, 1, word, 1, factory, LONG - 1, site, LONG, &mask),
           LEPUGASO_REFUSED_SHORT_BUFFER, 0, 0);
    EXPECT(lepugaso_site_set(file, sizeof blocks, 6, 1, step, 1, word, 1, factory, LONG, site, LONG - 1, &mask),
           LEPUGASO_REFUSED_SHORT_BUFFER, 0, 0);
    EXPECT(lepugaso_site_fresh(file, sizeof blocks, 6, factory, LONG - 1, site, LONG, &mask), LEPUGASO_REFUSED_SHORT_BUFFER, 0, 0);
    EXPECT(lepugaso_site_fresh(file, sizeof blocks, 6, factory, LONG, site, LONG - 1, &mask), LEPUGASO_REFUSED_SHORT_BUFFER, 0, 0);
    HOLDS(mask == 0 && site[0] == 0 && memcmp(site, site + 1, LONG - 1) == 0);
    EXPECT(lepugaso_site_set(file, sizeof blocks, 6, 1, step, 1, word, 1, factory, LONG, site, LONG, &mask), 0, 0, AT);
    HOLDS(mask == 2 && site[3] == 0 && memcmp(site + 4, factory + 4, AT - 4) == 0 && site[LONG - 4] == 0);
    HOLDS(memcmp(site + AT, (const uint8_t[]){0xEF, 0xCD, 0xAB, 0x89}, 4) == 0);
    HOLDS(memcmp(site + AT + 4, factory + AT + 4, LONG - AT - 8) == 0);
    for (uint32_t k = 1; k <= 2; k++) {
        EXPECT(lepugaso_site_member(file, sizeof blocks, 6, k, mask, factory, LONG, site, LONG, &part, &part_len), 0, 0,
               k == 1 ? 4 : LONG - 4);
        HOLDS(k == 1 ? part == site + 4 && part_len == LONG - 8 : part == factory + LONG - 4 && part_len == 4);
        EXPECT(lepugaso_site_member(file, sizeof blocks, 6, k, mask, factory, LONG - 1, site, LONG, &part, &part_len),
               LEPUGASO_REFUSED_SHORT_BUFFER, 0, 0);
        EXPECT(lepugaso_site_member(file, sizeof blocks, 6, k, mask, factory, LONG, site, LONG - 1, &part, &part_len),
               LEPUGASO_REFUSED_SHORT_BUFFER, 0, 0);
        HOLDS(part == factory && part_len == 0);
    }
    EXPECT(lepugaso_site_fresh(file, sizeof blocks, 6, factory, LONG, site, LONG, &mask), 0, 0, 0);
    HOLDS(mask == 7 && memcmp(site, factory, LONG) == 0);
}

/* Member 1 of a block of 16 bytes, asked for and set; and the block started as a copy. */
static void long_block(uint32_t refusal, uint32_t entry, const uint8_t *factory, size_t factory_len, uint8_t *site, size_t site_len) {
    const uint8_t *file = lent(blocks, sizeof blocks), *part;
    const void *word = lent((const uint32_t[]){7}, sizeof(uint32_t));
    uint64_t mask = 0;
    size_t part_len, at = refusal ? 0 : 8;
    memset(site, 0, 16);
    EXPECT(lepugaso_site_member(file, sizeof blocks, entry, 1, mask, factory, factory_len, site, site_len, &part, &part_len), refusal, 0,
           at);
    HOLDS(part == factory + at && part_len == (refusal ? 0 : 4));
    EXPECT(lepugaso_site_set(file, sizeof blocks, entry, 1, NULL, 0, word, 1, factory, factory_len, site, site_len, &mask), refusal, 0, at);
    HOLDS(mask == (refusal ? 0 : 2) && site[8] == (refusal ? 0 : 7));
    memset(site, 0, 20);
    mask = 77;
    EXPECT(lepugaso_site_fresh(file, sizeof blocks, entry, factory, factory_len, site, site_len, &mask), refusal, 0, 0);
    HOLDS(mask == (refusal ? 77 : 3) && memcmp(site + 16, "\0\0\0\0", 4) == 0);
    HOLDS(memcmp(site, refusal ? site + 1 : factory, 16) == 0);
}

/* A block in buffers of 4,294,967,295 bytes, and in longer ones: 17 for either, after 8, before everything else. */
static void long_blocks(void) {
    const size_t limit = UINT32_MAX;
    uint8_t *factory = far(limit + 5), *site = far(limit + 5);
    memcpy(factory, "the factory's sheet.", 20);
    for (uint32_t bit = 4; bit < 32; bit++) {
        long_block(0, 4, factory, (size_t)1 << bit, site, 16);
        long_block(0, 4, factory, 16, site, (size_t)1 << bit);
    }
    long_block(0, 4, factory, limit, site, limit);
    for (size_t length = limit + 1; length <= limit + 5; length += 4) {
        for (uint32_t entry = 0; entry <= 4; entry++) {
            long_block(LEPUGASO_REFUSED_LONG_BUFFER, entry, factory, length, site, 16);
            long_block(LEPUGASO_REFUSED_LONG_BUFFER, entry, factory, 16, site, length);
            long_block(LEPUGASO_REFUSED_LONG_BUFFER, entry, factory, length, site, 0);
            long_block(LEPUGASO_REFUSED_LONG_BUFFER, entry, factory, 0, site, length);
        }
        long_block(LEPUGASO_REFUSED_LONG_BUFFER, 4, factory, length, site, length);
        long_block(LEPUGASO_REFUSED_ENTRY, 9, factory, length, site, 16);
        long_block(LEPUGASO_REFUSED_ENTRY, 9, factory, 16, site, length);
    }
}

/* A block that fills such buffers, and its members. A fresh one that is not refused is not run, nor one that a wrong shim might not refuse:
 * it copies 4 GiB. */
static void largest_block(void) {
    const size_t size = 4294967284u, at = size - 4;
    const uint8_t *file = lent(blocks, sizeof blocks), *part;
    const void *word = lent((const uint32_t[]){7}, sizeof(uint32_t));
    uint8_t *factory = far(size), *site = far(size);
    uint64_t mask = 0;
    size_t part_len;
    memcpy(factory + at, "abcd", 4);
    EXPECT(lepugaso_site_member(file, sizeof blocks, 8, 0, mask, factory, size, site, size, &part, &part_len), 0, 0, 0);
    HOLDS(part == factory && part_len == at);
    EXPECT(lepugaso_site_member(file, sizeof blocks, 8, 0, 1, factory, size, site, size, &part, &part_len), 0, 0, 0);
    HOLDS(part == site && part_len == at);
    EXPECT(lepugaso_site_member(file, sizeof blocks, 8, 1, mask, factory, size, site, size, &part, &part_len), 0, 0, at);
    HOLDS(part == factory + at && part_len == 4);
    EXPECT(lepugaso_site_member(file, sizeof blocks, 8, 1, 2, factory, size, site, size, &part, &part_len), 0, 0, at);
    HOLDS(part == site + at && part_len == 4);
    EXPECT(lepugaso_site_set(file, sizeof blocks, 8, 1, NULL, 0, word, 1, factory, size - 1, site, size, &mask),
           LEPUGASO_REFUSED_SHORT_BUFFER, 0, 0);
    EXPECT(lepugaso_site_set(file, sizeof blocks, 8, 1, NULL, 0, word, 1, factory, size, site, size - 1, &mask),
           LEPUGASO_REFUSED_SHORT_BUFFER, 0, 0);
    EXPECT(lepugaso_site_fresh(file, sizeof blocks, 8, factory, size - 1, site, size - 1, &mask), LEPUGASO_REFUSED_SHORT_BUFFER, 0, 0);
    HOLDS(mask == 0 && memcmp(site + at, "\0\0\0\0", 4) == 0);
    mask = 3;
    EXPECT(lepugaso_site_inheriting(file, sizeof blocks, 8, &mask), 0, 0, 0);
    HOLDS(mask == 0);
    EXPECT(lepugaso_site_set(file, sizeof blocks, 8, 1, NULL, 0, word, 1, factory, size, site, size, &mask), 0, 0, at);
    HOLDS(mask == 2 && memcmp(site + at, "\7\0\0\0", 4) == 0 && memcmp(factory + at, "abcd", 4) == 0);
}

/* Buffers of up to 4,294,967,295 bytes, and longer ones: 17, after 8, before everything else. Most of these bytes cannot be touched: what
 * has no gap is not looked at. */
static void far_gaps(void) {
    const size_t limit = UINT32_MAX, size = 4294967284u, whole = 4294967292u;
    const uint8_t *file = lent(gapped, sizeof gapped);
    uint64_t *first = (void *)fresh(sizeof *first);
    uint8_t *buf = far(limit + 5);
    for (uint32_t bit = 3; bit < 32; bit++) {
        buf[3] = 1;
        EXPECT(lepugaso_clean(file, sizeof gapped, 4, buf, (size_t)1 << bit, first), 0, 0, 1);
        HOLDS(*first == 3 && buf[3] == 0);
    }
    memset(buf, 1, 8);
    memset(buf + size - 4, 1, 8);
    *first = 5;
    EXPECT(lepugaso_clean(file, sizeof gapped, 6, buf, size - 1, first), LEPUGASO_REFUSED_SHORT_BUFFER, 0, 0);
    for (size_t length = limit + 1; length <= limit + 5; length += 4) {
        for (uint32_t entry = 0; entry < 9; entry++) {
            EXPECT(lepugaso_clean(file, sizeof gapped, entry, buf, length, first), LEPUGASO_REFUSED_LONG_BUFFER, 0, 0);
        }
        EXPECT(lepugaso_clean(file, sizeof gapped, 9, buf, length, first), LEPUGASO_REFUSED_ENTRY, 0, 0);
    }
    EXPECT(lepugaso_clean(file, sizeof gapped, 0, buf, limit, first), LEPUGASO_REFUSED_ABSENT, 0, 0);
    EXPECT(lepugaso_clean(file, sizeof gapped, 1, buf, limit, first), LEPUGASO_REFUSED_NOT_STORABLE, 0, 0);
    HOLDS(*first == 5 && memcmp(buf, "\1\1\1\1\1\1\1\1", 8) == 0 && memcmp(buf + size - 4, buf, 8) == 0);

    EXPECT(lepugaso_clean(file, sizeof gapped, 6, buf, limit, first), 0, 0, 4);
    HOLDS(*first == 2 && memcmp(buf, "\1\1\0\0\1\1\1\1", 8) == 0 && memcmp(buf + size - 4, buf, 8) == 0);
    buf[size - 1] = 1;
    EXPECT(lepugaso_clean(file, sizeof gapped, 6, buf, size, first), 0, 0, 1);
    HOLDS(*first == size - 1 && buf[size - 1] == 0);
    EXPECT(lepugaso_clean(file, sizeof gapped, 6, buf, size, first), 0, 0, 0);
    HOLDS(*first == size);
    buf[3] = 1;
    EXPECT(lepugaso_clean(file, sizeof gapped, 7, buf, limit, first), 0, 0, 0);
    HOLDS(*first == whole && buf[3] == 1);
    EXPECT(lepugaso_clean(file, sizeof gapped, 8, buf, limit, first), 0, 0, 1);
    HOLDS(*first == 3 && buf[3] == 0);
    EXPECT(lepugaso_clean(file, sizeof gapped, 8, buf, limit, first), 0, 0, 0);
    HOLDS(*first == whole);
}

/* Lengths of which the low bits alone, up to the 32nd, would give another answer. */
static void long_lengths(const uint8_t *file, const uint8_t *large) {
    const size_t most = ((size_t)1 << 32) + STEPS;
    uint32_t word = 7, *many = (void *)far(most * sizeof *many);
    uint8_t *buf = fresh(SIZE), *bytes = (uint8_t *)many;
    const uint8_t *block = lent(blocks, sizeof blocks), *factory = lent(rows, BLOCK_SIZE), *part;
    uint64_t mask = 0;
    size_t part_len;
    for (uint32_t bit = 2; bit < 32; bit++) {
        size_t length = (size_t)1 << bit;
        EXPECT(lepugaso_write(file, sizeof few, 1, &word, 1, bytes, length), 0, 0, 4);
        EXPECT(lepugaso_read(file, sizeof few, 1, bytes, length, &word, 1), 0, 0, 1);
        EXPECT(lepugaso_view(file, sizeof few, 1, NULL, 0, bytes, length, &part, &part_len), 0, 0, 0);
        HOLDS(part == bytes && part_len == 4);
        EXPECT(lepugaso_set(file, sizeof few, 1, NULL, 0, &word, 1, bytes, length), 0, 0, 0);
        EXPECT(lepugaso_insert_bits(file, sizeof few, 1, NULL, 0, 5, 2, 3, bytes, length), 0, 0, 0);
        EXPECT(lepugaso_extract_bits(file, sizeof few, 1, NULL, 0, bytes, length, 0, 8), 0, 0, 0x17);
    }
    /* The room for a moved file has no greatest length. */
    uint8_t *few_2 = fresh(sizeof few);
    memcpy(few_2, few, sizeof few);
    few_2[sizeof few - 2] = 2;
    for (uint32_t bit = 6; bit <= 33; bit++) {
        size_t room = (size_t)1 << bit;
        EXPECT(lepugaso_to_form_2(file, sizeof few, bytes, room), 0, 0, sizeof few);
        HOLDS(memcmp(bytes, few_2, sizeof few) == 0);
        EXPECT(lepugaso_to_form_1(few_2, sizeof few, bytes, room + 9), 0, 0, sizeof few);
        HOLDS(memcmp(bytes, few, sizeof few) == 0);
    }
    size_t length = ((size_t)1 << 32) + 4;
    EXPECT(lepugaso_write(file, sizeof few, 1, &word, 1, bytes, length), LEPUGASO_REFUSED_LONG_BUFFER, 0, 0);
    EXPECT(lepugaso_read(file, sizeof few, 1, bytes, length, &word, 1), LEPUGASO_REFUSED_LONG_BUFFER, 0, 0);
    EXPECT(lepugaso_view(file, sizeof few, 1, NULL, 0, bytes, length, &part, &part_len), LEPUGASO_REFUSED_LONG_BUFFER, 0, 0);
    EXPECT(lepugaso_set(file, sizeof few, 1, NULL, 0, &word, 1, bytes, length), LEPUGASO_REFUSED_LONG_BUFFER, 0, 0);
    EXPECT(lepugaso_insert_bits(file, sizeof few, 1, NULL, 0, 5, 2, 3, bytes, length), LEPUGASO_REFUSED_LONG_BUFFER, 0, 0);
    EXPECT(lepugaso_extract_bits(file, sizeof few, 1, NULL, 0, bytes, length, 0, 8), LEPUGASO_REFUSED_LONG_BUFFER, 0, 0);

    memcpy(buf, "abcd", 4);
    for (uint32_t bit = 0; bit <= 32; bit++) {
        size_t count = (size_t)1 << bit;
        EXPECT(lepugaso_write(file, sizeof few, 1, many, 1 + count, buf, 4), LEPUGASO_REFUSED_WORDS, 0, 0);
        EXPECT(lepugaso_set(file, sizeof few, 1, NULL, 0, many, 1 + count, buf, 4), LEPUGASO_REFUSED_WORDS, 0, 0);
        EXPECT(lepugaso_set(file, sizeof few, 3, NULL, 0, many, 2 + count, buf, 8), LEPUGASO_REFUSED_WORDS, 0, 0);
        EXPECT(lepugaso_site_set(block, sizeof blocks, 4, 1, NULL, 0, many, 1 + count, factory, 16, buf, 16, &mask), LEPUGASO_REFUSED_WORDS,
               0, 0);
        EXPECT(lepugaso_site_set(block, sizeof blocks, 4, 0, NULL, 0, many, 2 + count, factory, 16, buf, 16, &mask), LEPUGASO_REFUSED_WORDS,
               0, 0);
        EXPECT(lepugaso_read(file, sizeof few, 1, buf, 4, many, count), 0, 0, 1);
        HOLDS(memcmp(many, "abcd", 4) == 0); /* as a number no entry's */
        EXPECT(lepugaso_common(file, sizeof few, many, count), LEPUGASO_REFUSED_ENTRY, 0, 0);
    }
    memcpy(many, path, sizeof path);
    for (uint32_t bit = 0; bit <= 32; bit++) {
        size_t count = STEPS + ((size_t)1 << bit);
        EXPECT(lepugaso_view(large, LENGTH, LAST, many, count, buf, SIZE, &part, &part_len), LEPUGASO_REFUSED_INDEX_STEP, STEPS, 0);
        EXPECT(lepugaso_set(large, LENGTH, LAST, many, count, &word, 1, buf, SIZE), LEPUGASO_REFUSED_INDEX_STEP, STEPS, 0);
        EXPECT(lepugaso_extract_bits(large, LENGTH, LAST, many, count, buf, SIZE, 0, 12), LEPUGASO_REFUSED_INDEX_STEP, STEPS, 0);
        EXPECT(lepugaso_insert_bits(large, LENGTH, LAST, many, count, 7, 0, 12, buf, SIZE), LEPUGASO_REFUSED_INDEX_STEP, STEPS, 0);
        EXPECT(lepugaso_site_set(large, LENGTH, BLOCK, 3, many + 2, count - 2, &word, 1, factory, BLOCK_SIZE, buf, BLOCK_SIZE, &mask),
               LEPUGASO_REFUSED_INDEX_STEP, BLOCK_STEPS, 0);
    }
    HOLDS(mask == 0);
    /* A list to plan into has no greatest length, and one to be checked has one alone. */
    for (uint32_t bit = 10; bit <= 32; bit++) {
        memset(many, 0xA5, MEMBERS * sizeof *many);
        EXPECT(lepugaso_plan_order(large, LENGTH, LAST, many, (size_t)1 << bit), 0, 0, MEMBERS);
        HOLDS(memcmp(many, order, MEMBERS * sizeof *many) == 0);
    }
    EXPECT(lepugaso_check_order(large, LENGTH, LAST, many, MEMBERS), 0, 0, NEW_END);
    for (uint32_t bit = 0; bit <= 32; bit++) {
        EXPECT(lepugaso_check_order(large, LENGTH, LAST, many, MEMBERS + ((size_t)1 << bit)), LEPUGASO_REFUSED_ORDER, 0, 0);
    }
}

/* A file moved with the room for it alone, and refused with a byte less. */
static void moved(lepugaso_answer (*move)(const uint8_t *, size_t, uint8_t *, size_t), const uint8_t *from, size_t from_len,
                  const uint8_t *to, size_t to_len) {
    uint8_t *out = fresh(to_len);
    EXPECT(move(from, from_len, out + 1, to_len - 1), LEPUGASO_REFUSED_SHORT_BUFFER, 0, 0);
    HOLDS(out[0] == 0 && memcmp(out, out + 1, to_len - 1) == 0);
    EXPECT(move(from, from_len, out, to_len), 0, 0, to_len);
    HOLDS(memcmp(out, to, to_len) == 0);
}

/* Both ways between the forms, the bytes before the types moved too; and what is asked of form 1, asked of form 2. */
static void moves(uint32_t start) {
    size_t length = start + (size_t)LENGTH, length_2 = start + (size_t)LENGTH_2;
    uint8_t *one = fresh(length), *two = fresh(length_2);
    for (size_t k = 0; k < start; k++) one[k] = two[k] = (uint8_t)(k * 2654435761u >> 24);
    put_large(one + start, start, 1);
    put_large(two + start, start, 2);
    moved(lepugaso_to_form_2, sealed(one, length), length, two, length_2);
    moved(lepugaso_to_form_1, sealed(two, length_2), length_2, one, length);
    questions(two, length_2);
    many_words(two, length_2);
    many_gaps(two, length_2);
    many_members(two, length_2);
    many_steps(two, length_2);
    deep_member(two, length_2);
}

/* With the most bytes before the types the new length has more than 32 bits, and so has the room. A move that is not refused is not run:
 * it copies 4 GiB. */
static void far_moves(void) {
    const uint32_t start = UINT32_MAX;
    const size_t length = start + (size_t)LENGTH, length_2 = start + (size_t)LENGTH_2;
    const uint8_t *one = large_file(start);
    uint8_t *two = far(length_2), *out = far(length_2 - 1), *name = two + length_2 - 10 - 4;
    put_large(two + start, start, 2);
    const size_t rooms[] = {0, (uint32_t)length, (uint32_t)length_2, start, length - 1, length_2 - 1};
    for (size_t k = 0; k < sizeof rooms / sizeof rooms[0]; k++) {
        EXPECT(lepugaso_to_form_2(one, length, out, rooms[k]), LEPUGASO_REFUSED_SHORT_BUFFER, 0, 0);
        if (rooms[k] < length) EXPECT(lepugaso_to_form_1(two, length_2, out, rooms[k]), LEPUGASO_REFUSED_SHORT_BUFFER, 0, 0);
    }
    EXPECT(lepugaso_to_form_1(one, length, out, 0), LEPUGASO_REFUSED_FORM, 0, 0);
    EXPECT(lepugaso_to_form_2(two, length_2, out, 0), LEPUGASO_REFUSED_FORM, 0, 0);
    EXPECT(lepugaso_check(two, length_2), 0, 0, TYPES);
    name[3] = 1;
    EXPECT(lepugaso_to_form_1(two, length_2, out, length), LEPUGASO_REFUSED_NAMED, 0, 0);
    EXPECT(lepugaso_to_form_1(two, length_2, out, 0), LEPUGASO_REFUSED_NAMED, 0, 0);
    EXPECT(lepugaso_check(two, length_2), 0, 0, TYPES);
    HOLDS(out[0] == 0 && memcmp(out, out + 1, 7 * PAGE - 1) == 0);
    HOLDS(memcmp(out, out + length_2 - 1 - 7 * PAGE, 7 * PAGE) == 0);
}

/* The last type without its last member, which no other has, and without its first, which another has; in both forms. */
static void stray_member(uint32_t start) {
    for (uint32_t form = 1; form <= 2; form++) {
        size_t length = start + (size_t)(form == 1 ? LENGTH : LENGTH_2);
        uint8_t *types = far(length) + start, *file = types - start, *last = types + 12 * LAST;
        put_large(types, start, form);
        memcpy(last, (const uint8_t[]){STRUCT(0, MEMBERS - 1)}, 12);
        EXPECT(lepugaso_check(file, length), LEPUGASO_REFUSED_STRAY_MEMBER, MEMBERS - 1, 0);
        EXPECT(lepugaso_size(file, length, TYPES), LEPUGASO_REFUSED_STRAY_MEMBER, MEMBERS - 1, 0);
        EXPECT((form == 1 ? lepugaso_to_form_2 : lepugaso_to_form_1)(file, length, NULL, 0), LEPUGASO_REFUSED_STRAY_MEMBER, MEMBERS - 1, 0);
        memcpy(last, (const uint8_t[]){STRUCT(1, MEMBERS - 1)}, 12);
        EXPECT(lepugaso_check(file, length), 0, 0, TYPES);
    }
}

int main(void) {
    /* What lies before the types only a move looks at, so a file's length may have more than 16 bits, and more than 32. */
    static const uint32_t starts[] = {0, 65536, UINT32_MAX};
    const uint8_t *file = lent(few, sizeof few), *large = large_file(0);
    fill_rows();
    fill_path();
    fill_order();
    for (size_t k = 0; k < 3; k++) {
        const uint8_t *at = large_file(starts[k]);
        size_t length = starts[k] + (size_t)LENGTH;
        questions(at, length);
        many_words(at, length);
        many_gaps(at, length);
        many_members(at, length);
        many_steps(at, length);
        deep_member(at, length);
        no_entries(at, length);
        stray_member(starts[k]);
    }
    moves(0);
    moves(65536);
    far_moves();
    long_lists(file);
    large_steps(file, large);
    no_members(large, LENGTH);
    no_positions(large, LENGTH);
    large_block();
    long_blocks();
    largest_block();
    far_gaps();
    long_lengths(file, large);
    return failures != 0;
}
