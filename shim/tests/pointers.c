/* The pointers that every call must refuse, and those that it must not. A refused pointer is not touched: most of these lead nowhere. */
#include "test.h"

static const uint8_t file[] = {U32, F32, TRAILER(2, 0)};

/* 1 is a struct of a u32, and so a block. */
static const uint8_t form_1[] = {U32, STRUCT(0, 1), MEMBER(0), TRAILER(2, 1)};

#define REFUSED(call) EXPECT(call, LEPUGASO_BAD_POINTER, 0, 0)

/* A file that cannot be, to every call. */
static void bad_file(const uint8_t *at, size_t length) {
    static const uint32_t list[] = {0};
    static const uint8_t bytes[4];
    lepugaso_layout out = {1, 2, 3, 4};
    uint32_t word = 5;
    uint8_t buf[] = {6, 7, 8, 9};
    REFUSED(lepugaso_check(at, length));
    REFUSED(lepugaso_size(at, length, 0));
    REFUSED(lepugaso_align(at, length, 0));
    REFUSED(lepugaso_min_size(at, length, 0));
    REFUSED(lepugaso_layout_of(at, length, 0, &out));
    HOLDS(out.size == 1 && out.align == 2 && out.min_size == 3 && out.stride == 4);
    REFUSED(lepugaso_rank(at, length, 0, 0));
    REFUSED(lepugaso_common(at, length, list, 1));
    REFUSED(lepugaso_write(at, length, 0, list, 1, buf, sizeof buf));
    HOLDS(buf[0] == 6 && buf[1] == 7 && buf[2] == 8 && buf[3] == 9);
    REFUSED(lepugaso_read(at, length, 0, bytes, sizeof bytes, &word, 1));
    HOLDS(word == 5);
    const uint8_t *part = NULL;
    size_t part_len = 5;
    REFUSED(lepugaso_view(at, length, 0, NULL, 0, bytes, sizeof bytes, &part, &part_len));
    REFUSED(lepugaso_site_member(at, length, 0, 0, 0, bytes, sizeof bytes, bytes, sizeof bytes, &part, &part_len));
    HOLDS(part == NULL && part_len == 5);
    uint64_t mask = 5;
    REFUSED(lepugaso_site_fresh(at, length, 0, bytes, sizeof bytes, buf, sizeof buf, &mask));
    REFUSED(lepugaso_site_inheriting(at, length, 0, &mask));
    REFUSED(lepugaso_site_set(at, length, 0, 0, NULL, 0, list, 1, bytes, sizeof bytes, buf, sizeof buf, &mask));
    REFUSED(lepugaso_site_clear(at, length, 0, 0, &mask));
    HOLDS(mask == 5);
    uint64_t first = 5;
    REFUSED(lepugaso_clean(at, length, 0, buf, sizeof buf, &first));
    HOLDS(first == 5);
    REFUSED(lepugaso_plan_order(at, length, 0, &word, 1));
    HOLDS(word == 5);
    REFUSED(lepugaso_check_order(at, length, 0, list, 1));
    REFUSED(lepugaso_set(at, length, 0, NULL, 0, list, 1, buf, sizeof buf));
    REFUSED(lepugaso_extract_bits(at, length, 0, NULL, 0, bytes, sizeof bytes, 0, 12));
    REFUSED(lepugaso_insert_bits(at, length, 0, NULL, 0, 1, 0, 12, buf, sizeof buf));
    REFUSED(lepugaso_uniform(at, length, 0));
    REFUSED(lepugaso_to_form_2(at, length, buf, sizeof buf));
    REFUSED(lepugaso_to_form_1(at, length, buf, sizeof buf));
    HOLDS(buf[0] == 6 && buf[1] == 7 && buf[2] == 8 && buf[3] == 9);
}

static void files(void) {
    const uint8_t *last = (const uint8_t *)UINTPTR_MAX;
    bad_file(NULL, 1);
    bad_file(file, SIZE_MAX);
    bad_file(file, (size_t)PTRDIFF_MAX + 1);
    bad_file(last, 1);

    /* Null with length 0 is an empty file, which is a short one; so is any other pointer with length 0, and it is not looked at. */
    uint32_t list[] = {0}, word;
    lepugaso_layout out;
    uint8_t buf[] = {6, 7, 8, 9}, bytes[4] = {0};
    const uint8_t *part;
    size_t part_len;
    uint64_t mask, first;
    EXPECT(lepugaso_check(NULL, 0), LEPUGASO_REFUSED_SHORT_FILE, 0, 0);
    EXPECT(lepugaso_size(NULL, 0, 0), LEPUGASO_REFUSED_SHORT_FILE, 0, 0);
    EXPECT(lepugaso_align(NULL, 0, 0), LEPUGASO_REFUSED_SHORT_FILE, 0, 0);
    EXPECT(lepugaso_min_size(NULL, 0, 0), LEPUGASO_REFUSED_SHORT_FILE, 0, 0);
    EXPECT(lepugaso_layout_of(NULL, 0, 0, &out), LEPUGASO_REFUSED_SHORT_FILE, 0, 0);
    EXPECT(lepugaso_rank(NULL, 0, 0, 0), LEPUGASO_REFUSED_SHORT_FILE, 0, 0);
    EXPECT(lepugaso_common(NULL, 0, list, 1), LEPUGASO_REFUSED_SHORT_FILE, 0, 0);
    EXPECT(lepugaso_write(NULL, 0, 0, list, 1, buf, sizeof buf), LEPUGASO_REFUSED_SHORT_FILE, 0, 0);
    EXPECT(lepugaso_read(NULL, 0, 0, buf, sizeof buf, &word, 1), LEPUGASO_REFUSED_SHORT_FILE, 0, 0);
    EXPECT(lepugaso_view(NULL, 0, 0, NULL, 0, buf, sizeof buf, &part, &part_len), LEPUGASO_REFUSED_SHORT_FILE, 0, 0);
    EXPECT(lepugaso_set(NULL, 0, 0, NULL, 0, list, 1, buf, sizeof buf), LEPUGASO_REFUSED_SHORT_FILE, 0, 0);
    EXPECT(lepugaso_extract_bits(NULL, 0, 0, NULL, 0, buf, sizeof buf, 0, 12), LEPUGASO_REFUSED_SHORT_FILE, 0, 0);
    EXPECT(lepugaso_insert_bits(NULL, 0, 0, NULL, 0, 1, 0, 12, buf, sizeof buf), LEPUGASO_REFUSED_SHORT_FILE, 0, 0);
    EXPECT(lepugaso_uniform(NULL, 0, 0), LEPUGASO_REFUSED_SHORT_FILE, 0, 0);
    EXPECT(lepugaso_to_form_2(NULL, 0, buf, sizeof buf), LEPUGASO_REFUSED_SHORT_FILE, 0, 0);
    EXPECT(lepugaso_to_form_1(NULL, 0, buf, sizeof buf), LEPUGASO_REFUSED_SHORT_FILE, 0, 0);
    EXPECT(lepugaso_site_fresh(NULL, 0, 0, bytes, sizeof bytes, buf, sizeof buf, &mask), LEPUGASO_REFUSED_SHORT_FILE, 0, 0);
    EXPECT(lepugaso_site_inheriting(NULL, 0, 0, &mask), LEPUGASO_REFUSED_SHORT_FILE, 0, 0);
    EXPECT(lepugaso_site_member(NULL, 0, 0, 0, 0, buf, sizeof buf, buf, sizeof buf, &part, &part_len), LEPUGASO_REFUSED_SHORT_FILE, 0, 0);
    EXPECT(lepugaso_site_set(NULL, 0, 0, 0, NULL, 0, list, 1, bytes, sizeof bytes, buf, sizeof buf, &mask), LEPUGASO_REFUSED_SHORT_FILE, 0,
           0);
    EXPECT(lepugaso_site_clear(NULL, 0, 0, 0, &mask), LEPUGASO_REFUSED_SHORT_FILE, 0, 0);
    EXPECT(lepugaso_clean(NULL, 0, 0, buf, sizeof buf, &first), LEPUGASO_REFUSED_SHORT_FILE, 0, 0);
    EXPECT(lepugaso_plan_order(NULL, 0, 0, &word, 1), LEPUGASO_REFUSED_SHORT_FILE, 0, 0);
    EXPECT(lepugaso_check_order(NULL, 0, 0, list, 1), LEPUGASO_REFUSED_SHORT_FILE, 0, 0);
    EXPECT(lepugaso_check(last, 0), LEPUGASO_REFUSED_SHORT_FILE, 0, 0);
}

static void entry_lists(void) {
    uint32_t list[] = {0, 0};
    const uint32_t *odd = (const uint32_t *)(const void *)((const uint8_t *)list + 1);
    EXPECT(lepugaso_common(file, sizeof file, NULL, 0), LEPUGASO_REFUSED_NO_RANK, 0, 0);
    REFUSED(lepugaso_common(file, sizeof file, NULL, 1));
    REFUSED(lepugaso_common(file, sizeof file, odd, 1));
    REFUSED(lepugaso_common(file, sizeof file, odd, 0));
    REFUSED(lepugaso_common(file, sizeof file, list, SIZE_MAX));
    REFUSED(lepugaso_common(file, sizeof file, list, SIZE_MAX / sizeof list[0] + 1)); /* 4 times it wraps to 0 */
    REFUSED(lepugaso_common(file, sizeof file, list, (size_t)PTRDIFF_MAX / sizeof list[0] + 1));

    /* Before any number of document 01, and both pointers are tested. */
    REFUSED(lepugaso_common(NULL, 0, odd, 1));
    REFUSED(lepugaso_common(NULL, 1, list, 1));

    /* The list may lie within the file: both are only read. */
    static const union {
        uint8_t bytes[sizeof file];
        uint32_t words[sizeof file / 4];
    } both = {{U32, F32, TRAILER(2, 0)}};
    EXPECT(lepugaso_common(both.bytes, sizeof file, &both.words[1], 2), 0, 0, 0);
}

static void results(void) {
    lepugaso_layout out[2];
    REFUSED(lepugaso_layout_of(file, sizeof file, 0, NULL));
    REFUSED(lepugaso_layout_of(NULL, 0, 0, NULL));
    REFUSED(lepugaso_layout_of(file, sizeof file, 0, (lepugaso_layout *)(void *)((uint8_t *)out + 4)));
    REFUSED(lepugaso_layout_of(file, sizeof file, 0, (lepugaso_layout *)(UINTPTR_MAX - 15)));
    REFUSED(lepugaso_layout_of(file, sizeof file, 0, (lepugaso_layout *)(UINTPTR_MAX - 23))); /* its last number past the end */
    /* An empty file shares no byte with the result that it lies in. */
    EXPECT(lepugaso_layout_of((const uint8_t *)out + 8, 0, 0, out), LEPUGASO_REFUSED_SHORT_FILE, 0, 0);
}

/* The file at each place around a result, from a gap before it to a gap after it: refused exactly where the two share a byte, and then
 * nothing is touched; else the result is written, and nothing else. */
static void overlaps(void) {
    enum { RESULT = 96 };
    static union {
        uint8_t bytes[256];
        lepugaso_layout layouts[256 / sizeof(lepugaso_layout)];
    } memory, expected;
    lepugaso_layout *out = &memory.layouts[RESULT / sizeof *out];
    lepugaso_layout four = {4, 4, 4, 4};
    for (size_t at = RESULT - sizeof file - 2; at <= RESULT + sizeof *out + 2; at++) {
        int shared = at < RESULT + sizeof *out && RESULT < at + sizeof file;
        memset(&memory, 0xA5, sizeof memory);
        memcpy(memory.bytes + at, file, sizeof file);
        expected = memory;
        if (!shared) memcpy(expected.bytes + RESULT, &four, sizeof four);
        EXPECT(lepugaso_layout_of(memory.bytes + at, sizeof file, 1, out), shared ? LEPUGASO_BAD_POINTER : 0, 0, 0);
        HOLDS(memcmp(&memory, &expected, sizeof memory) == 0);
    }
}

/* Words that cannot be, to the four calls that take some; as a path; and as an order. */
static void bad_words(uint32_t *at, size_t count) {
    static const uint32_t word[] = {1};
    static const uint8_t bytes[4];
    uint8_t buf[] = {6, 7, 8, 9};
    uint64_t mask = 0;
    const uint8_t *part = NULL;
    size_t part_len = 5;
    REFUSED(lepugaso_write(file, sizeof file, 0, at, count, buf, sizeof buf));
    HOLDS(buf[0] == 6 && buf[1] == 7 && buf[2] == 8 && buf[3] == 9);
    REFUSED(lepugaso_read(file, sizeof file, 0, buf, sizeof buf, at, count));
    /* Before any number of document 01. */
    REFUSED(lepugaso_write(NULL, 0, 9, at, count, NULL, 0));
    REFUSED(lepugaso_read(NULL, 0, 9, NULL, 0, at, count));
    REFUSED(lepugaso_view(file, sizeof file, 0, at, count, buf, sizeof buf, &part, &part_len));
    REFUSED(lepugaso_view(NULL, 0, 9, at, count, NULL, 0, &part, &part_len));
    HOLDS(part == NULL && part_len == 5);
    REFUSED(lepugaso_set(file, sizeof file, 0, at, count, word, 1, buf, sizeof buf));
    REFUSED(lepugaso_set(NULL, 0, 9, at, count, word, 1, NULL, 0));
    REFUSED(lepugaso_set(file, sizeof file, 0, NULL, 0, at, count, buf, sizeof buf));
    REFUSED(lepugaso_set(NULL, 0, 9, NULL, 0, at, count, NULL, 0));
    REFUSED(lepugaso_set(file, sizeof file, 0, at, count, at, count, buf, sizeof buf));
    REFUSED(lepugaso_extract_bits(file, sizeof file, 0, at, count, buf, sizeof buf, 0, 12));
    REFUSED(lepugaso_extract_bits(NULL, 0, 9, at, count, NULL, 0, 0, 12));
    REFUSED(lepugaso_insert_bits(file, sizeof file, 0, at, count, 1, 0, 12, buf, sizeof buf));
    REFUSED(lepugaso_insert_bits(NULL, 0, 9, at, count, 1, 0, 12, NULL, 0));
    REFUSED(lepugaso_site_set(form_1, sizeof form_1, 1, 0, at, count, word, 1, bytes, sizeof bytes, buf, sizeof buf, &mask));
    REFUSED(lepugaso_site_set(form_1, sizeof form_1, 1, 0, NULL, 0, at, count, bytes, sizeof bytes, buf, sizeof buf, &mask));
    REFUSED(lepugaso_site_set(form_1, sizeof form_1, 1, 0, at, count, at, count, bytes, sizeof bytes, buf, sizeof buf, &mask));
    REFUSED(lepugaso_site_set(NULL, 0, 9, 9, at, count, word, 1, NULL, 0, NULL, 0, &mask));
    REFUSED(lepugaso_site_set(NULL, 0, 9, 9, NULL, 0, at, count, NULL, 0, NULL, 0, &mask));
    HOLDS(mask == 0);
    REFUSED(lepugaso_plan_order(form_1, sizeof form_1, 1, at, count));
    REFUSED(lepugaso_plan_order(NULL, 0, 9, at, count));
    REFUSED(lepugaso_check_order(form_1, sizeof form_1, 1, at, count));
    REFUSED(lepugaso_check_order(NULL, 0, 9, at, count));
    HOLDS(buf[0] == 6 && buf[1] == 7 && buf[2] == 8 && buf[3] == 9);
}

/* A buffer that cannot be. */
static void bad_buffer(uint8_t *at, size_t length) {
    uint32_t word = 5;
    uint64_t mask = 0, first = 5;
    uint8_t bytes[] = {6, 7, 8, 9};
    const uint8_t *part = NULL;
    size_t part_len = 5;
    REFUSED(lepugaso_write(file, sizeof file, 0, &word, 1, at, length));
    REFUSED(lepugaso_read(file, sizeof file, 0, at, length, &word, 1));
    REFUSED(lepugaso_write(NULL, 0, 9, NULL, 0, at, length));
    REFUSED(lepugaso_read(NULL, 0, 9, at, length, NULL, 0));
    HOLDS(word == 5);
    REFUSED(lepugaso_view(file, sizeof file, 0, NULL, 0, at, length, &part, &part_len));
    REFUSED(lepugaso_view(NULL, 0, 9, NULL, 0, at, length, &part, &part_len));
    /* As the factory, as the site, and as both. */
    REFUSED(lepugaso_site_member(form_1, sizeof form_1, 1, 0, mask, at, length, bytes, sizeof bytes, &part, &part_len));
    REFUSED(lepugaso_site_member(form_1, sizeof form_1, 1, 0, mask, bytes, sizeof bytes, at, length, &part, &part_len));
    REFUSED(lepugaso_site_member(form_1, sizeof form_1, 1, 0, mask, at, length, at, length, &part, &part_len));
    REFUSED(lepugaso_site_member(NULL, 0, 9, 9, UINT64_MAX, at, length, NULL, 0, &part, &part_len));
    REFUSED(lepugaso_site_member(NULL, 0, 9, 9, UINT64_MAX, NULL, 0, at, length, &part, &part_len));
    HOLDS(part == NULL && part_len == 5);
    REFUSED(lepugaso_site_fresh(form_1, sizeof form_1, 1, at, length, bytes, sizeof bytes, &mask));
    REFUSED(lepugaso_site_fresh(form_1, sizeof form_1, 1, bytes, sizeof bytes, at, length, &mask));
    REFUSED(lepugaso_site_fresh(form_1, sizeof form_1, 1, at, length, at, length, &mask));
    REFUSED(lepugaso_site_fresh(NULL, 0, 9, at, length, NULL, 0, &mask));
    REFUSED(lepugaso_site_fresh(NULL, 0, 9, NULL, 0, at, length, &mask));
    REFUSED(lepugaso_site_set(form_1, sizeof form_1, 1, 0, NULL, 0, &word, 1, at, length, bytes, sizeof bytes, &mask));
    REFUSED(lepugaso_site_set(form_1, sizeof form_1, 1, 0, NULL, 0, &word, 1, bytes, sizeof bytes, at, length, &mask));
    REFUSED(lepugaso_site_set(NULL, 0, 9, 9, NULL, 0, NULL, 0, at, length, NULL, 0, &mask));
    REFUSED(lepugaso_site_set(NULL, 0, 9, 9, NULL, 0, NULL, 0, NULL, 0, at, length, &mask));
    HOLDS(mask == 0 && bytes[0] == 6 && bytes[1] == 7 && bytes[2] == 8 && bytes[3] == 9);
    REFUSED(lepugaso_set(file, sizeof file, 0, NULL, 0, &word, 1, at, length));
    REFUSED(lepugaso_set(NULL, 0, 9, NULL, 0, NULL, 0, at, length));
    REFUSED(lepugaso_extract_bits(file, sizeof file, 0, NULL, 0, at, length, 0, 12));
    REFUSED(lepugaso_extract_bits(NULL, 0, 9, NULL, 0, at, length, 0, 12));
    REFUSED(lepugaso_insert_bits(file, sizeof file, 0, NULL, 0, 1, 0, 12, at, length));
    REFUSED(lepugaso_insert_bits(NULL, 0, 9, NULL, 0, 1, 0, 12, at, length));
    REFUSED(lepugaso_clean(file, sizeof file, 0, at, length, &first));
    REFUSED(lepugaso_clean(NULL, 0, 9, at, length, &first));
    HOLDS(first == 5);
}

/* The two calls that hand back a part, of a file like `form_1` and a buffer of its entry 1: all 4 bytes of it. */
typedef lepugaso_answer part_of(const uint8_t *, size_t, const uint8_t *, size_t, const uint8_t **, size_t *);
static lepugaso_answer viewed(const uint8_t *at, size_t length, const uint8_t *buf, size_t count, const uint8_t **part, size_t *part_len) {
    return lepugaso_view(at, length, 1, NULL, 0, buf, count, part, part_len);
}
static lepugaso_answer shown(const uint8_t *at, size_t length, const uint8_t *buf, size_t count, const uint8_t **part, size_t *part_len) {
    static const uint8_t site[4];
    return lepugaso_site_member(at, length, 1, 0, 0, buf, count, site, sizeof site, part, part_len);
}

/* Where a part goes: both places are tested, and neither is touched if one of them cannot be. */
static void parts(part_of *ask) {
    uint8_t buf[] = {6, 7, 8, 9};
    struct {
        const uint8_t *part;
        size_t part_len;
    } out[2] = {{NULL, 5}, {NULL, 5}};
    const uint8_t **odd_part = (const uint8_t **)(void *)((uint8_t *)out + 4);
    size_t *odd_len = (size_t *)(void *)((uint8_t *)out + 12);
    REFUSED(ask(form_1, sizeof form_1, buf, sizeof buf, NULL, &out->part_len));
    REFUSED(ask(form_1, sizeof form_1, buf, sizeof buf, &out->part, NULL));
    REFUSED(ask(form_1, sizeof form_1, buf, sizeof buf, odd_part, &out[1].part_len));
    REFUSED(ask(form_1, sizeof form_1, buf, sizeof buf, &out->part, odd_len));
    REFUSED(ask(form_1, sizeof form_1, buf, sizeof buf, (const uint8_t **)(UINTPTR_MAX - 7), &out->part_len));
    REFUSED(ask(form_1, sizeof form_1, buf, sizeof buf, &out->part, (size_t *)(UINTPTR_MAX - 7)));
    /* Both in one place. */
    REFUSED(ask(form_1, sizeof form_1, buf, sizeof buf, (const uint8_t **)(void *)&out->part_len, &out->part_len));
    /* Before any number of document 01. */
    REFUSED(ask(NULL, 0, NULL, 0, NULL, NULL));
    HOLDS(out->part == NULL && out->part_len == 5);

    EXPECT(ask(form_1, sizeof form_1, buf, sizeof buf, &out->part, &out->part_len), 0, 0, 0);
    HOLDS(out->part == buf && out->part_len == 4);
    /* Refused, the empty part at the start of the buffer, wherever that is and whatever is there; of a null buffer null. */
    EXPECT(ask(form_1, sizeof form_1, buf + 1, 0, &out->part, &out->part_len), LEPUGASO_REFUSED_SHORT_BUFFER, 0, 0);
    HOLDS(out->part == buf + 1 && out->part_len == 0);
    out->part_len = 5;
    EXPECT(ask(form_1, sizeof form_1, NULL, 0, &out->part, &out->part_len), LEPUGASO_REFUSED_SHORT_BUFFER, 0, 0);
    HOLDS(out->part == NULL && out->part_len == 0);
    EXPECT(ask(NULL, 0, (uint8_t *)UINTPTR_MAX, 0, &out->part, &out->part_len), LEPUGASO_REFUSED_SHORT_FILE, 0, 0);
    HOLDS(out->part == (uint8_t *)UINTPTR_MAX && out->part_len == 0);
    /* What is empty shares no byte with the place that it lies in. */
    EXPECT(ask(form_1, sizeof form_1, (uint8_t *)out + 3, 0, &out->part, &out->part_len), LEPUGASO_REFUSED_SHORT_BUFFER, 0, 0);
    HOLDS(out->part == (uint8_t *)out + 3 && out->part_len == 0);
}

/* A mask that cannot be, to the four calls that write one. */
static void bad_mask(uint64_t *at) {
    static const uint32_t word[] = {1};
    static const uint8_t bytes[4];
    uint8_t buf[] = {6, 7, 8, 9};
    REFUSED(lepugaso_site_fresh(form_1, sizeof form_1, 1, bytes, sizeof bytes, buf, sizeof buf, at));
    REFUSED(lepugaso_site_inheriting(form_1, sizeof form_1, 1, at));
    REFUSED(lepugaso_site_clear(form_1, sizeof form_1, 1, 0, at));
    REFUSED(lepugaso_site_set(form_1, sizeof form_1, 1, 0, NULL, 0, word, 1, bytes, sizeof bytes, buf, sizeof buf, at));
    /* Before any number of documents 01 and 02. */
    REFUSED(lepugaso_site_fresh(NULL, 0, 9, NULL, 0, NULL, 0, at));
    REFUSED(lepugaso_site_inheriting(NULL, 0, 9, at));
    REFUSED(lepugaso_site_clear(NULL, 0, 9, 9, at));
    REFUSED(lepugaso_site_set(NULL, 0, 9, 9, NULL, 0, NULL, 0, NULL, 0, NULL, 0, at));
    HOLDS(buf[0] == 6 && buf[1] == 7 && buf[2] == 8 && buf[3] == 9);
}

static void masks(void) {
    uint64_t two[] = {0, 0};
    bad_mask(NULL);
    for (size_t off = 1; off < sizeof two[0]; off++) bad_mask((uint64_t *)(void *)((uint8_t *)two + off));
    bad_mask((uint64_t *)(UINTPTR_MAX - 7));
    HOLDS(two[0] == 0 && two[1] == 0);

    /* What is empty shares no byte with the mask that it lies in. */
    uint8_t *in = (uint8_t *)two + 3, buf[] = {6, 7, 8, 9, 10};
    uint32_t word = 1, *path = (uint32_t *)(void *)((uint8_t *)two + 4);
    static const uint8_t bytes[5] = {1, 2, 3, 4, 5};
    EXPECT(lepugaso_site_fresh(in, 0, 1, bytes, 4, buf, 4, two), LEPUGASO_REFUSED_SHORT_FILE, 0, 0);
    EXPECT(lepugaso_site_fresh(form_1, sizeof form_1, 1, in, 0, buf, 4, two), LEPUGASO_REFUSED_SHORT_BUFFER, 0, 0);
    EXPECT(lepugaso_site_fresh(form_1, sizeof form_1, 1, bytes, 4, in, 0, two), LEPUGASO_REFUSED_SHORT_BUFFER, 0, 0);
    EXPECT(lepugaso_site_fresh(form_1, sizeof form_1, 1, (uint8_t *)UINTPTR_MAX, 0, NULL, 0, two), LEPUGASO_REFUSED_SHORT_BUFFER, 0, 0);
    EXPECT(lepugaso_site_inheriting(in, 0, 1, two), LEPUGASO_REFUSED_SHORT_FILE, 0, 0);
    EXPECT(lepugaso_site_clear(in, 0, 1, 0, two), LEPUGASO_REFUSED_SHORT_FILE, 0, 0);
    EXPECT(lepugaso_site_set(form_1, sizeof form_1, 1, 0, path, 0, &word, 1, bytes, 4, in, 0, two), LEPUGASO_REFUSED_SHORT_BUFFER, 0, 0);
    EXPECT(lepugaso_site_set(form_1, sizeof form_1, 1, 0, NULL, 0, path, 0, bytes, 4, buf, 4, two), LEPUGASO_REFUSED_WORDS, 0, 0);
    EXPECT(lepugaso_site_set(form_1, sizeof form_1, 1, 0, NULL, 0, &word, 1, in, 0, buf, 4, two), LEPUGASO_REFUSED_SHORT_BUFFER, 0, 0);
    EXPECT(lepugaso_site_set(form_1, sizeof form_1, 1, 0, NULL, 0, &word, 1, (uint8_t *)UINTPTR_MAX, 0, NULL, 0, two),
           LEPUGASO_REFUSED_SHORT_BUFFER, 0, 0);
    /* Nor do a factory and a site in each other, or a file in the site. */
    EXPECT(lepugaso_site_fresh(form_1, sizeof form_1, 1, buf + 1, 0, buf, 4, two), LEPUGASO_REFUSED_SHORT_BUFFER, 0, 0);
    EXPECT(lepugaso_site_fresh(form_1, sizeof form_1, 1, buf, 4, buf + 1, 0, two), LEPUGASO_REFUSED_SHORT_BUFFER, 0, 0);
    EXPECT(lepugaso_site_fresh(buf + 1, 0, 1, bytes, 4, buf, 4, two), LEPUGASO_REFUSED_SHORT_FILE, 0, 0);
    HOLDS(two[0] == 0 && two[1] == 0 && buf[0] == 6 && buf[1] == 7 && buf[2] == 8 && buf[3] == 9);
    /* A buffer is of bytes, and may begin anywhere. */
    EXPECT(lepugaso_site_fresh(form_1, sizeof form_1, 1, bytes + 1, 4, buf + 1, 4, two), 0, 0, 0);
    HOLDS(two[0] == 1 && two[1] == 0 && buf[0] == 6 && memcmp(buf + 1, bytes + 1, 4) == 0);
    EXPECT(lepugaso_site_inheriting(form_1, sizeof form_1, 1, two), 0, 0, 0);
    HOLDS(two[0] == 0 && two[1] == 0);
    EXPECT(lepugaso_site_set(form_1, sizeof form_1, 1, 0, NULL, 0, &word, 1, bytes + 1, 4, buf + 1, 4, two), 0, 0, 0);
    HOLDS(two[0] == 1 && two[1] == 0 && buf[0] == 6 && buf[1] == 1 && buf[4] == 0);
}

/* A place for the first changed byte that cannot be. */
static void bad_first(uint64_t *at) {
    uint8_t buf[] = {6, 7, 8, 9};
    REFUSED(lepugaso_clean(form_1, sizeof form_1, 1, buf, sizeof buf, at));
    /* Before any number of documents 01 and 02. */
    REFUSED(lepugaso_clean(NULL, 0, 9, NULL, 0, at));
    HOLDS(buf[0] == 6 && buf[1] == 7 && buf[2] == 8 && buf[3] == 9);
}

static void firsts(void) {
    uint64_t two[] = {5, 5};
    bad_first(NULL);
    for (size_t off = 1; off < sizeof two[0]; off++) bad_first((uint64_t *)(void *)((uint8_t *)two + off));
    bad_first((uint64_t *)(UINTPTR_MAX - 7));

    /* What is empty shares no byte with what it lies in, and is not looked at. */
    uint8_t *in = (uint8_t *)two + 3, buf[] = {6, 7, 8, 9, 10};
    EXPECT(lepugaso_clean(in, 0, 1, buf, sizeof buf, two), LEPUGASO_REFUSED_SHORT_FILE, 0, 0);
    EXPECT(lepugaso_clean(buf + 1, 0, 1, buf, sizeof buf, two), LEPUGASO_REFUSED_SHORT_FILE, 0, 0);
    EXPECT(lepugaso_clean(form_1, sizeof form_1, 1, in, 0, two), LEPUGASO_REFUSED_SHORT_BUFFER, 0, 0);
    EXPECT(lepugaso_clean(form_1, sizeof form_1, 1, (uint8_t *)UINTPTR_MAX, 0, two), LEPUGASO_REFUSED_SHORT_BUFFER, 0, 0);
    EXPECT(lepugaso_clean(form_1, sizeof form_1, 1, NULL, 0, two), LEPUGASO_REFUSED_SHORT_BUFFER, 0, 0);
    HOLDS(two[0] == 5 && two[1] == 5);
    /* A buffer is of bytes, and may begin anywhere. */
    EXPECT(lepugaso_clean(form_1, sizeof form_1, 1, buf + 1, 4, two), 0, 0, 0);
    HOLDS(two[0] == 4 && two[1] == 5 && buf[0] == 6 && buf[1] == 7 && buf[4] == 10);
}

static void words_and_buffers(void) {
    uint32_t words[] = {1, 2, 3};
    uint8_t buf[] = {6, 7, 8, 9, 10};
    for (size_t off = 1; off < sizeof words[0]; off++) {
        uint32_t *odd = (uint32_t *)(void *)((uint8_t *)words + off);
        bad_words(odd, 1);
        bad_words(odd, 0);
    }
    bad_words(NULL, 1);
    bad_words(words, SIZE_MAX);
    bad_words(words, SIZE_MAX / sizeof words[0] + 1); /* 4 times it wraps to 0 */
    bad_words(words, (size_t)PTRDIFF_MAX / sizeof words[0] + 1);
    bad_words((uint32_t *)(UINTPTR_MAX - 3), 1);
    bad_buffer(NULL, 1);
    bad_buffer(buf, SIZE_MAX);
    bad_buffer(buf, (size_t)PTRDIFF_MAX + 1);
    bad_buffer((uint8_t *)UINTPTR_MAX, 1);
    HOLDS(words[0] == 1 && words[1] == 2 && words[2] == 3);
    HOLDS(buf[0] == 6 && buf[1] == 7 && buf[2] == 8 && buf[3] == 9);

    /* Null with length 0 is no words, or an empty buffer; so is any other pointer with length 0, and it is not looked at. */
    EXPECT(lepugaso_write(file, sizeof file, 0, NULL, 0, buf, sizeof buf), LEPUGASO_REFUSED_WORDS, 0, 0);
    EXPECT(lepugaso_write(file, sizeof file, 0, words, 1, NULL, 0), LEPUGASO_REFUSED_SHORT_BUFFER, 0, 0);
    EXPECT(lepugaso_write(file, sizeof file, 0, words, 1, (uint8_t *)UINTPTR_MAX, 0), LEPUGASO_REFUSED_SHORT_BUFFER, 0, 0);
    EXPECT(lepugaso_read(file, sizeof file, 0, NULL, 0, words, 1), LEPUGASO_REFUSED_SHORT_BUFFER, 0, 0);
    EXPECT(lepugaso_read(file, sizeof file, 0, buf, sizeof buf, NULL, 0), LEPUGASO_REFUSED_WORDS, 0, 0);
    EXPECT(lepugaso_read(file, sizeof file, 0, buf, sizeof buf, (uint32_t *)(UINTPTR_MAX - 3), 0), LEPUGASO_REFUSED_WORDS, 0, 0);
    EXPECT(lepugaso_set(file, sizeof file, 0, NULL, 0, NULL, 0, buf, sizeof buf), LEPUGASO_REFUSED_WORDS, 0, 0);
    EXPECT(lepugaso_set(file, sizeof file, 0, words, 0, (uint32_t *)(UINTPTR_MAX - 3), 0, buf, sizeof buf), LEPUGASO_REFUSED_WORDS, 0, 0);
    EXPECT(lepugaso_set(file, sizeof file, 0, words, 1, NULL, 0, buf, sizeof buf), LEPUGASO_REFUSED_INDEX_STEP, 0, 0);
    EXPECT(lepugaso_set(file, sizeof file, 0, NULL, 0, NULL, 0, NULL, 0), LEPUGASO_REFUSED_SHORT_BUFFER, 0, 0);
    EXPECT(lepugaso_set(file, sizeof file, 0, NULL, 0, words, 1, (uint8_t *)UINTPTR_MAX, 0), LEPUGASO_REFUSED_SHORT_BUFFER, 0, 0);
    HOLDS(buf[0] == 6 && buf[1] == 7 && buf[2] == 8 && buf[3] == 9);
    EXPECT(lepugaso_extract_bits(file, sizeof file, 0, NULL, 0, NULL, 0, 0, 12), LEPUGASO_REFUSED_SHORT_BUFFER, 0, 0);
    EXPECT(lepugaso_insert_bits(file, sizeof file, 0, NULL, 0, 1, 0, 12, NULL, 0), LEPUGASO_REFUSED_SHORT_BUFFER, 0, 0);
    EXPECT(lepugaso_extract_bits(file, sizeof file, 0, words, 0, (uint8_t *)UINTPTR_MAX, 0, 0, 12), LEPUGASO_REFUSED_SHORT_BUFFER, 0, 0);
    EXPECT(lepugaso_insert_bits(file, sizeof file, 0, words, 0, 1, 0, 12, (uint8_t *)UINTPTR_MAX, 0), LEPUGASO_REFUSED_SHORT_BUFFER, 0, 0);
    EXPECT(lepugaso_plan_order(form_1, sizeof form_1, 1, NULL, 0), LEPUGASO_REFUSED_WORDS, 0, 0);
    EXPECT(lepugaso_plan_order(form_1, sizeof form_1, 1, (uint32_t *)(UINTPTR_MAX - 3), 0), LEPUGASO_REFUSED_WORDS, 0, 0);
    EXPECT(lepugaso_check_order(form_1, sizeof form_1, 1, NULL, 0), LEPUGASO_REFUSED_ORDER, 0, 0);
    EXPECT(lepugaso_check_order(form_1, sizeof form_1, 1, (uint32_t *)(UINTPTR_MAX - 3), 0), LEPUGASO_REFUSED_ORDER, 0, 0);

    /* A region that is empty shares no byte with the one that it lies in. */
    EXPECT(lepugaso_write(file, sizeof file, 0, words, 1, (uint8_t *)words + 2, 0), LEPUGASO_REFUSED_SHORT_BUFFER, 0, 0);
    EXPECT(lepugaso_write(file, sizeof file, 0, &words[1], 0, (uint8_t *)words, sizeof words), LEPUGASO_REFUSED_WORDS, 0, 0);
    EXPECT(lepugaso_read(file, sizeof file, 0, (uint8_t *)words + 2, 0, words, 1), LEPUGASO_REFUSED_SHORT_BUFFER, 0, 0);
    EXPECT(lepugaso_read((uint8_t *)words + 2, 0, 0, buf, sizeof buf, words, 1), LEPUGASO_REFUSED_SHORT_FILE, 0, 0);
    EXPECT(lepugaso_set(file, sizeof file, 0, NULL, 0, words, 1, (uint8_t *)words + 2, 0), LEPUGASO_REFUSED_SHORT_BUFFER, 0, 0);
    EXPECT(lepugaso_set(file, sizeof file, 0, NULL, 0, &words[1], 0, (uint8_t *)words, sizeof words), LEPUGASO_REFUSED_WORDS, 0, 0);
    EXPECT(lepugaso_insert_bits(file, sizeof file, 0, words, 1, 1, 0, 12, (uint8_t *)words + 2, 0), LEPUGASO_REFUSED_SHORT_BUFFER, 0, 0);
    EXPECT(lepugaso_insert_bits((uint8_t *)words + 2, 0, 0, NULL, 0, 1, 0, 12, (uint8_t *)words, 4), LEPUGASO_REFUSED_SHORT_FILE, 0, 0);
    EXPECT(lepugaso_plan_order((uint8_t *)words + 2, 0, 0, words, 3), LEPUGASO_REFUSED_SHORT_FILE, 0, 0);

    /* A buffer is of bytes, and may begin anywhere. */
    EXPECT(lepugaso_write(file, sizeof file, 0, words, 1, buf + 1, 4), 0, 0, 4);
    HOLDS(buf[0] == 6 && buf[1] == 1 && buf[4] == 0);
    EXPECT(lepugaso_read(file, sizeof file, 0, buf + 1, 4, &words[2], 1), 0, 0, 1);
    HOLDS(words[0] == 1 && words[1] == 2 && words[2] == 1);
    EXPECT(lepugaso_set(file, sizeof file, 0, NULL, 0, words, 1, buf + 1, 4), 0, 0, 0);
    HOLDS(buf[0] == 6 && buf[1] == 1 && buf[4] == 0);
    EXPECT(lepugaso_insert_bits(file, sizeof file, 0, NULL, 0, 0xFFFFFFFF, 8, 24, buf + 1, 4), 0, 0, 0);
    HOLDS(buf[0] == 6 && buf[1] == 1 && buf[2] == 255 && buf[4] == 255);
    EXPECT(lepugaso_extract_bits(file, sizeof file, 0, NULL, 0, buf + 1, 4, 0, 12), 0, 0, 0xF01);
}

/* Regions within one piece of memory. A file of a u32 and of two of them; words, or a buffer, for the two, and some of each that are lent
 * and left alone. */
static const uint8_t pair[] = {U32, VECTOR(2, 0), TRAILER(2, 0)};
enum { MEMORY = 256, FILE_AT = 20, READ_AT = 88, SPARE = 1 };
union memory {
    uint8_t bytes[MEMORY];
    uint32_t words[MEMORY / 4];
    const uint8_t *parts[MEMORY / sizeof(uint8_t *)];
    size_t lengths[MEMORY / sizeof(size_t)];
    uint64_t masks[MEMORY / sizeof(uint64_t)];
};

static int shares(size_t a, size_t a_len, size_t b, size_t b_len) { return a < b + b_len && b < a + a_len; }

/* All bytes different, and the file. */
static union memory filled_memory(void) {
    union memory m;
    for (size_t k = 0; k < MEMORY; k++) m.bytes[k] = (uint8_t)(k + 1);
    memcpy(m.bytes + FILE_AT, pair, sizeof pair);
    return m;
}

/* What is to be written at each place from before the file to behind what is read: refused exactly where it shares a byte with either, and
 * then nothing is touched; else 8 bytes of it are the 8 that are read, and nothing else has changed. */
static void writable_overlaps(void) {
    enum { EIGHT = 8 };
    for (size_t at = 0; at + EIGHT + 4 <= MEMORY; at++) {
        union memory m = filled_memory(), expected = m;
        size_t length = EIGHT + SPARE;
        int shared = shares(at, length, FILE_AT, sizeof pair) || shares(at, length, READ_AT, EIGHT);
        if (!shared) memcpy(expected.bytes + at, m.bytes + READ_AT, EIGHT);
        EXPECT(lepugaso_write(m.bytes + FILE_AT, sizeof pair, 1, &m.words[READ_AT / 4], 2, m.bytes + at, length),
               shared ? LEPUGASO_BAD_POINTER : 0, 0, shared ? 0 : 8);
        HOLDS(memcmp(&m, &expected, sizeof m) == 0);

        if (at % 4) continue;
        m = expected = filled_memory();
        length = EIGHT + SPARE * sizeof(uint32_t);
        shared = shares(at, length, FILE_AT, sizeof pair) || shares(at, length, READ_AT, EIGHT + SPARE);
        if (!shared) memcpy(expected.bytes + at, m.bytes + READ_AT, EIGHT);
        EXPECT(lepugaso_read(m.bytes + FILE_AT, sizeof pair, 1, m.bytes + READ_AT, EIGHT + SPARE, &m.words[at / 4], 2 + SPARE),
               shared ? LEPUGASO_BAD_POINTER : 0, 0, shared ? 0 : 2);
        HOLDS(memcmp(&m, &expected, sizeof m) == 0);
    }
}

/* The same of a set and an insertion, whose path of one step is read, and of a set its word too; and of each place for a view's part: with
 * a path and a buffer behind the file. */
static void path_overlaps(void) {
    enum { EIGHT = 8, WORD_AT = 124, BUF_AT = 108, OUT = 8 };
    for (size_t at = 0; at + EIGHT + 4 <= MEMORY; at++) {
        union memory m = filled_memory(), expected;
        m.words[READ_AT / 4] = 1;
        m.words[WORD_AT / 4] = 0x04030201;
        expected = m;
        int shared = shares(at, EIGHT + SPARE, FILE_AT, sizeof pair) || shares(at, EIGHT + SPARE, READ_AT, 4) ||
                     shares(at, EIGHT + SPARE, WORD_AT, 4);
        if (!shared) memcpy(expected.bytes + at + 4, "\1\2\3\4", 4);
        EXPECT(lepugaso_set(m.bytes + FILE_AT, sizeof pair, 1, &m.words[READ_AT / 4], 1, &m.words[WORD_AT / 4], 1, m.bytes + at,
                            EIGHT + SPARE),
               shared ? LEPUGASO_BAD_POINTER : 0, 0, shared ? 0 : 4);
        HOLDS(memcmp(&m, &expected, sizeof m) == 0);
        shared = shares(at, EIGHT + SPARE, FILE_AT, sizeof pair) || shares(at, EIGHT + SPARE, READ_AT, 4);
        if (!shared) memcpy(expected.bytes + at + 5, "\6\7", 2);
        EXPECT(lepugaso_insert_bits(m.bytes + FILE_AT, sizeof pair, 1, &m.words[READ_AT / 4], 1, 0x0706, 8, 16, m.bytes + at,
                                    EIGHT + SPARE),
               shared ? LEPUGASO_BAD_POINTER : 0, 0, shared ? 0 : 4);
        HOLDS(memcmp(&m, &expected, sizeof m) == 0);
    }
    for (size_t at = 0; at + OUT <= MEMORY; at += OUT) {
        for (int which = 0; which < 2; which++) {
            union memory m = filled_memory(), expected;
            m.words[READ_AT / 4] = 1;
            expected = m;
            const uint8_t *part = NULL, *expected_part = m.bytes + BUF_AT + 4;
            size_t part_len = 5, expected_len = 4;
            int shared = shares(at, OUT, FILE_AT, sizeof pair) || shares(at, OUT, READ_AT, 4) || shares(at, OUT, BUF_AT, EIGHT + SPARE);
            if (!shared) memcpy(expected.bytes + at, which ? (void *)&expected_len : (void *)&expected_part, OUT);
            EXPECT(lepugaso_view(m.bytes + FILE_AT, sizeof pair, 1, &m.words[READ_AT / 4], 1, m.bytes + BUF_AT, EIGHT + SPARE,
                                 which ? &part : &m.parts[at / OUT], which ? &m.lengths[at / OUT] : &part_len),
                   shared ? LEPUGASO_BAD_POINTER : 0, 0, shared ? 0 : 4);
            HOLDS(memcmp(&m, &expected, sizeof m) == 0);
            HOLDS(which ? part == (shared ? NULL : expected_part) : part_len == (shared ? 5 : expected_len));
        }
    }
}

/* And of a set of 64 bits: every word that is lent counts, whether there are two, which are set, or more or fewer. */
static void wide_overlaps(void) {
    static const uint8_t wide[] = {I64, TRAILER(1, 0)};
    enum { EIGHT = 8 };
    for (size_t at = 0; at + EIGHT + SPARE <= MEMORY; at++) {
        for (size_t count = 0; count <= 3; count++) {
            union memory m = filled_memory(), expected;
            memcpy(m.bytes + FILE_AT, wide, sizeof wide);
            expected = m;
            int shared = shares(at, EIGHT + SPARE, FILE_AT, sizeof wide) || (count && shares(at, EIGHT + SPARE, READ_AT, 4 * count));
            if (!shared && count == 2) memcpy(expected.bytes + at, m.bytes + READ_AT, EIGHT);
            uint32_t refusal = shared ? LEPUGASO_BAD_POINTER : count == 2 ? 0 : LEPUGASO_REFUSED_WORDS;
            EXPECT(lepugaso_set(m.bytes + FILE_AT, sizeof wide, 0, NULL, 0, &m.words[READ_AT / 4], count, m.bytes + at, EIGHT + SPARE),
                   refusal, 0, 0);
            HOLDS(memcmp(&m, &expected, sizeof m) == 0);
        }
    }
}

/* The same of a block of one member, two u32; all that a call is lent lies apart in `m`, but for what moves. */
static const uint8_t pairs[] = {U32, VECTOR(2, 0), STRUCT(0, 1), MEMBER(1), TRAILER(3, 1)};
enum { PATH_AT = 92, WORD_AT = 112, FACTORY_AT = 130, SITE_AT = 153, MASK_AT = 176, BLOCK = 8 + SPARE };

static union memory block_memory(void) {
    union memory m = filled_memory();
    memcpy(m.bytes + FILE_AT, pairs, sizeof pairs);
    m.words[PATH_AT / 4] = 1;
    m.masks[MASK_AT / 8] = 0;
    return m;
}

/* Whether a region shares a byte with what a set only reads. */
static int shares_read(size_t at, size_t length) {
    return shares(at, length, FILE_AT, sizeof pairs) || shares(at, length, PATH_AT, 4) || shares(at, length, WORD_AT, 4) ||
           shares(at, length, FACTORY_AT, BLOCK);
}

/* A set with the site and the mask at these places, good or refused. */
static void block_set(int shared, size_t site, size_t mask) {
    union memory m = block_memory(), expected;
    if (!shared) m.masks[mask / 8] = 0;
    expected = m;
    if (!shared) {
        memcpy(expected.bytes + site, m.bytes + FACTORY_AT, 4);
        memcpy(expected.bytes + site + 4, m.bytes + WORD_AT, 4);
        expected.masks[mask / 8] = 1;
    }
    EXPECT(lepugaso_site_set(m.bytes + FILE_AT, sizeof pairs, 2, 0, &m.words[PATH_AT / 4], 1, &m.words[WORD_AT / 4], 1,
                             m.bytes + FACTORY_AT, BLOCK, m.bytes + site, BLOCK, &m.masks[mask / 8]),
           shared ? LEPUGASO_BAD_POINTER : 0, 0, shared ? 0 : 4);
    HOLDS(memcmp(&m, &expected, sizeof m) == 0);
}

/* A fresh block with the file, the factory, the site and the mask at these places: refused exactly where the site or the mask shares a byte
 * with another of them. The file and the factory are apart. */
static void block_fresh(size_t file_at, size_t factory, size_t site, size_t mask) {
    int shared = shares(site, BLOCK, file_at, sizeof pairs) || shares(site, BLOCK, factory, BLOCK) || shares(site, BLOCK, mask, 8) ||
                 shares(mask, 8, file_at, sizeof pairs) || shares(mask, 8, factory, BLOCK);
    union memory m = filled_memory(), expected;
    memcpy(m.bytes + file_at, pairs, sizeof pairs);
    expected = m;
    if (!shared) {
        memcpy(expected.bytes + site, m.bytes + factory, 8);
        expected.masks[mask / 8] = 1;
    }
    EXPECT(lepugaso_site_fresh(m.bytes + file_at, sizeof pairs, 2, m.bytes + factory, BLOCK, m.bytes + site, BLOCK, &m.masks[mask / 8]),
           shared ? LEPUGASO_BAD_POINTER : 0, 0, 0);
    HOLDS(memcmp(&m, &expected, sizeof m) == 0);
}

/* The site at each place, and the mask, with what is read a little off too, so that the mask touches that before it and behind it. */
static void fresh_overlaps(void) {
    for (size_t off = 0; off < 8; off++) {
        for (size_t at = 0; at + BLOCK <= MEMORY; at++) block_fresh(FILE_AT + off, FACTORY_AT, at, MASK_AT);
        for (size_t at = 0; at < MEMORY; at += 8) {
            block_fresh(FILE_AT + off, FACTORY_AT, SITE_AT, at);
            block_fresh(FILE_AT, FACTORY_AT + off, SITE_AT, at);
            block_fresh(FILE_AT, FACTORY_AT, SITE_AT + off, at);
        }
    }
}

/* The site at each place, and the mask. */
static void block_overlaps(void) {
    for (size_t at = 0; at + BLOCK <= MEMORY; at++) block_set(shares_read(at, BLOCK) || shares(at, BLOCK, MASK_AT, 8), at, MASK_AT);
    for (size_t at = 0; at < MEMORY; at += 8) {
        block_set(shares_read(at, 8) || shares(at, 8, SITE_AT, BLOCK), SITE_AT, at);

        int shared = shares(at, 8, FILE_AT, sizeof pairs);
        union memory m = block_memory(), expected;
        if (!shared) m.masks[at / 8] = 1;
        expected = m;
        if (!shared) expected.masks[at / 8] = 0;
        EXPECT(lepugaso_site_clear(m.bytes + FILE_AT, sizeof pairs, 2, 0, &m.masks[at / 8]), shared ? LEPUGASO_BAD_POINTER : 0, 0, 0);
        HOLDS(memcmp(&m, &expected, sizeof m) == 0);
        if (!shared) m.masks[at / 8] = 7;
        EXPECT(lepugaso_site_inheriting(m.bytes + FILE_AT, sizeof pairs, 2, &m.masks[at / 8]), shared ? LEPUGASO_BAD_POINTER : 0, 0, 0);
        HOLDS(memcmp(&m, &expected, sizeof m) == 0);
    }
}

/* A place for the part that shows a member, or for its length, at each place. */
static void shown_overlaps(void) {
    enum { OUT = 8 };
    for (size_t at = 0; at + OUT <= MEMORY; at += OUT) {
        for (uint64_t turn = 0; turn < 4; turn++) {
            int which = turn % 2, on = turn / 2;
            union memory m = block_memory(), expected = m;
            const uint8_t *part = NULL, *expected_part = m.bytes + (on ? SITE_AT : FACTORY_AT);
            size_t part_len = 5, expected_len = 8;
            int shared = shares(at, OUT, FILE_AT, sizeof pairs) || shares(at, OUT, FACTORY_AT, BLOCK) || shares(at, OUT, SITE_AT, BLOCK);
            if (!shared) memcpy(expected.bytes + at, which ? (void *)&expected_len : (void *)&expected_part, OUT);
            EXPECT(lepugaso_site_member(m.bytes + FILE_AT, sizeof pairs, 2, 0, on, m.bytes + FACTORY_AT, BLOCK, m.bytes + SITE_AT, BLOCK,
                                        which ? &part : &m.parts[at / OUT], which ? &m.lengths[at / OUT] : &part_len),
                   shared ? LEPUGASO_BAD_POINTER : 0, 0, 0);
            HOLDS(memcmp(&m, &expected, sizeof m) == 0);
            HOLDS(which ? part == (shared ? NULL : expected_part) : part_len == (shared ? 5 : expected_len));
        }
    }
}

/* A cleaning of {f16, u32}, whose gap is its bytes 2 and 3, with the file, the buffer and the place for the first changed byte at these
 * places: refused exactly where two of them share a byte. */
static void clean_at(size_t file_at, size_t buf, size_t first) {
    static const uint8_t gapped[] = {F16, U32, STRUCT(0, 2), MEMBER(0), MEMBER(1), TRAILER(3, 2)};
    enum { LENT = 8 + SPARE };
    int shared = shares(buf, LENT, file_at, sizeof gapped) || shares(first, 8, file_at, sizeof gapped) || shares(buf, LENT, first, 8);
    union memory m = filled_memory(), expected;
    memcpy(m.bytes + file_at, gapped, sizeof gapped);
    expected = m;
    if (!shared) {
        memset(expected.bytes + buf + 2, 0, 2);
        expected.masks[first / 8] = 2;
    }
    EXPECT(lepugaso_clean(m.bytes + file_at, sizeof gapped, 2, m.bytes + buf, LENT, &m.masks[first / 8]), shared ? LEPUGASO_BAD_POINTER : 0,
           0, shared ? 0 : 2);
    HOLDS(memcmp(&m, &expected, sizeof m) == 0);
}

static void clean_overlaps(void) {
    for (size_t buf = 0; buf + 8 + SPARE < MEMORY; buf++) clean_at(FILE_AT, buf, MASK_AT);
    /* So that it touches what is before it and behind it too. */
    for (size_t first = 0; first < MEMORY; first += 8) {
        for (size_t off = 0; off < 8; off++) {
            clean_at(FILE_AT + off, SITE_AT, first);
            clean_at(FILE_AT, SITE_AT + off, first);
        }
    }
}

/* A planning of {u32, vec4<u32>, u32} with the file and the list at these places: refused exactly where they share a byte. In an empty list
 * there is no place, and it shares none. */
#define ORDERED U32, VECTOR(4, 0), STRUCT(0, 3), MEMBER(0), MEMBER(1), MEMBER(0)
static void plan_at(size_t file_at, size_t list) {
    static const uint8_t ordered[] = {ORDERED, TRAILER(3, 3)};
    static const uint32_t planned[] = {1, 0, 2};
    enum { LENT = sizeof planned + SPARE * sizeof planned[0] };
    int shared = shares(list, LENT, file_at, sizeof ordered);
    union memory m = filled_memory(), expected;
    memcpy(m.bytes + file_at, ordered, sizeof ordered);
    expected = m;
    EXPECT(lepugaso_plan_order(m.bytes + file_at, sizeof ordered, 2, &m.words[list / 4], 0), LEPUGASO_REFUSED_WORDS, 0, 0);
    HOLDS(memcmp(&m, &expected, sizeof m) == 0);
    if (!shared) memcpy(expected.bytes + list, planned, sizeof planned);
    EXPECT(lepugaso_plan_order(m.bytes + file_at, sizeof ordered, 2, &m.words[list / 4], 3 + SPARE), shared ? LEPUGASO_BAD_POINTER : 0, 0,
           shared ? 0 : 3);
    HOLDS(memcmp(&m, &expected, sizeof m) == 0);
}

static void plan_overlaps(void) {
    for (size_t list = 0; list + 16 <= MEMORY; list += 4) {
        for (size_t off = 0; off < 4; off++) plan_at(3 * FILE_AT + off, list);
    }
    /* An order that is only checked may lie in the file, here before its types. */
    static const union {
        uint8_t bytes[12 + 72 + 10];
        uint32_t words[3];
    } both = {{LE32(1), LE32(0), LE32(2), ORDERED, LE16(3), LE16(3), LE32(12), LE16(1)}};
    EXPECT(lepugaso_check_order(both.bytes, sizeof both.bytes, 2, both.words, 3), 0, 0, 32);
    EXPECT(lepugaso_check_order(both.bytes, sizeof both.bytes, 2, both.words, 2), LEPUGASO_REFUSED_ORDER, 0, 0);
}

/* What is only read may overlap: words, and a buffer, that lie within the file. */
static void read_only_overlaps(void) {
    union memory m = filled_memory();
    uint8_t buf[8];
    uint32_t words[2];
    EXPECT(lepugaso_write(m.bytes + FILE_AT, sizeof pair, 1, &m.words[FILE_AT / 4 + 3], 2, buf, sizeof buf), 0, 0, 8);
    HOLDS(memcmp(buf, pair + 12, sizeof buf) == 0);
    EXPECT(lepugaso_read(m.bytes + FILE_AT, sizeof pair, 1, m.bytes + FILE_AT + 13, 8, words, 2), 0, 0, 2);
    HOLDS(memcmp(words, pair + 13, sizeof words) == 0);
    EXPECT(lepugaso_read(m.bytes + FILE_AT, sizeof pair, 1, m.bytes + FILE_AT, sizeof pair, words, 2), 0, 0, 2);
    HOLDS(memcmp(words, pair, sizeof words) == 0);
    /* A path too, and a view of the file itself. */
    const uint8_t *part;
    size_t part_len;
    EXPECT(lepugaso_view(m.bytes + FILE_AT, sizeof pair, 1, &m.words[FILE_AT / 4 + 6], 1, m.bytes + FILE_AT, sizeof pair, &part, &part_len),
           LEPUGASO_REFUSED_INDEX, 0, 0);
    EXPECT(lepugaso_view(m.bytes + FILE_AT, sizeof pair, 1, &m.words[FILE_AT / 4 + 1], 1, m.bytes + FILE_AT, sizeof pair, &part, &part_len),
           0, 0, 0);
    HOLDS(part == m.bytes + FILE_AT && part_len == 4);
    /* A path and the word to be set at it, both in the file, and in the same place: its second word is 0, its fourth the vector's. */
    memset(buf, 9, sizeof buf);
    EXPECT(lepugaso_set(m.bytes + FILE_AT, sizeof pair, 1, &m.words[FILE_AT / 4 + 1], 1, &m.words[FILE_AT / 4 + 3], 1, buf, sizeof buf), 0,
           0, 0);
    HOLDS(memcmp(buf, pair + 12, 4) == 0 && buf[4] == 9);
    EXPECT(lepugaso_set(m.bytes + FILE_AT, sizeof pair, 1, &m.words[FILE_AT / 4 + 1], 1, &m.words[FILE_AT / 4 + 1], 1, buf, sizeof buf), 0,
           0, 0);
    HOLDS(memcmp(buf, pair + 4, 4) == 0 && buf[4] == 9);
    /* And a field of the file itself, by a path in it: its first byte is U32's kind. */
    EXPECT(lepugaso_extract_bits(m.bytes + FILE_AT, sizeof pair, 1, &m.words[FILE_AT / 4 + 1], 1, m.bytes + FILE_AT, sizeof pair, 1, 31), 0,
           0, 1);
    /* A path, a word and a factory in the file, and a factory at each place around it; and a file that is the factory and the site of its
     * own block. */
    uint64_t mask = 0;
    m = block_memory();
    EXPECT(lepugaso_site_set(m.bytes + FILE_AT, sizeof pairs, 2, 0, &m.words[FILE_AT / 4 + 1], 1, &m.words[FILE_AT / 4 + 3], 1,
                             m.bytes + FILE_AT, sizeof pairs, buf, sizeof buf, &mask),
           0, 0, 0);
    HOLDS(mask == 1 && memcmp(buf, pairs + 12, 4) == 0 && memcmp(buf + 4, pairs + 4, 4) == 0);
    for (size_t at = 0; at + 8 <= MEMORY; at++) {
        EXPECT(lepugaso_site_fresh(m.bytes + FILE_AT, sizeof pairs, 2, m.bytes + at, 8, buf, sizeof buf, &mask), 0, 0, 0);
        HOLDS(mask == 1 && memcmp(buf, m.bytes + at, 8) == 0);
    }
    for (mask = 0; mask < 2; mask++) {
        EXPECT(lepugaso_site_member(m.bytes + FILE_AT, sizeof pairs, 2, 0, mask, m.bytes + FILE_AT, sizeof pairs, m.bytes + FILE_AT,
                                    sizeof pairs, &part, &part_len),
               0, 0, 0);
        HOLDS(part == m.bytes + FILE_AT && part_len == 8);
    }
}

/* The same table in form 2: each is moved to the other. */
static const uint8_t form_2[] = {U32, STRUCT(0, 1), NAMED(0, MEMBER(0)), TRAILER_2(2, 1)};

/* Where a moved file cannot go. */
static void bad_out(uint8_t *at, size_t length) {
    REFUSED(lepugaso_to_form_2(form_1, sizeof form_1, at, length));
    REFUSED(lepugaso_to_form_1(form_2, sizeof form_2, at, length));
    /* Before any number of document 01. */
    REFUSED(lepugaso_to_form_2(NULL, 0, at, length));
    REFUSED(lepugaso_to_form_1(NULL, 0, at, length));
}

static void moves(void) {
    uint8_t out[64], expected[64];
    memset(out, 0xA5, sizeof out);
    memset(expected, 0xA5, sizeof expected);
    bad_out(NULL, 1);
    bad_out(out, SIZE_MAX);
    bad_out(out, (size_t)PTRDIFF_MAX + 1);
    bad_out((uint8_t *)UINTPTR_MAX, 1);

    /* Null with length 0 is an empty output; so is any other pointer with length 0, and it is not looked at. */
    EXPECT(lepugaso_to_form_2(form_1, sizeof form_1, NULL, 0), LEPUGASO_REFUSED_SHORT_BUFFER, 0, 0);
    EXPECT(lepugaso_to_form_1(form_2, sizeof form_2, NULL, 0), LEPUGASO_REFUSED_SHORT_BUFFER, 0, 0);
    EXPECT(lepugaso_to_form_2(form_1, sizeof form_1, (uint8_t *)UINTPTR_MAX, 0), LEPUGASO_REFUSED_SHORT_BUFFER, 0, 0);
    EXPECT(lepugaso_to_form_1(form_2, sizeof form_2, (uint8_t *)UINTPTR_MAX, 0), LEPUGASO_REFUSED_SHORT_BUFFER, 0, 0);

    /* An empty file shares no byte with the output that it lies in. */
    EXPECT(lepugaso_to_form_2(out + 8, 0, out, sizeof out), LEPUGASO_REFUSED_SHORT_FILE, 0, 0);
    EXPECT(lepugaso_to_form_1(out + 8, 0, out, sizeof out), LEPUGASO_REFUSED_SHORT_FILE, 0, 0);
    HOLDS(memcmp(out, expected, sizeof out) == 0);

    /* A file is not moved in place, though it be refused otherwise. */
    memcpy(out, form_1, sizeof form_1);
    memcpy(expected, form_1, sizeof form_1);
    REFUSED(lepugaso_to_form_2(out, sizeof form_1, out, sizeof out));
    REFUSED(lepugaso_to_form_1(out, sizeof form_1, out, sizeof out));
    REFUSED(lepugaso_to_form_2(out, 1, out, sizeof out));
    REFUSED(lepugaso_to_form_2(out, sizeof form_1, out + sizeof form_1 - 1, 1));
    HOLDS(memcmp(out, expected, sizeof out) == 0);
}

/* The output at each place around a file: refused exactly where the two share a byte, be it one that would stay, and then nothing is
 * touched; else the moved file is there, and nothing else has changed. An empty output shares none, wherever it lies. */
static void moved_overlaps(void) {
    enum { ROOM = 256, AT = 100 };
    for (int back = 0; back < 2; back++) {
        const uint8_t *from = back ? form_2 : form_1, *to = back ? form_1 : form_2;
        size_t from_len = back ? sizeof form_2 : sizeof form_1, to_len = back ? sizeof form_1 : sizeof form_2, length = to_len + 3;
        lepugaso_answer (*move)(const uint8_t *, size_t, uint8_t *, size_t) = back ? lepugaso_to_form_1 : lepugaso_to_form_2;
        for (size_t at = 0; at + length <= ROOM; at++) {
            uint8_t memory[ROOM], expected[ROOM];
            for (size_t k = 0; k < ROOM; k++) memory[k] = (uint8_t)(k + 1);
            memcpy(memory + AT, from, from_len);
            memcpy(expected, memory, ROOM);
            EXPECT(move(memory + AT, from_len, memory + at, 0), LEPUGASO_REFUSED_SHORT_BUFFER, 0, 0);
            HOLDS(memcmp(memory, expected, ROOM) == 0);
            int shared = shares(at, length, AT, from_len);
            if (!shared) memcpy(expected + at, to, to_len);
            EXPECT(move(memory + AT, from_len, memory + at, length), shared ? LEPUGASO_BAD_POINTER : 0, 0, shared ? 0 : to_len);
            HOLDS(memcmp(memory, expected, ROOM) == 0);
        }
    }
}

int main(void) {
    files();
    entry_lists();
    results();
    overlaps();
    words_and_buffers();
    parts(viewed);
    parts(shown);
    masks();
    firsts();
    writable_overlaps();
    path_overlaps();
    wide_overlaps();
    block_overlaps();
    fresh_overlaps();
    shown_overlaps();
    clean_overlaps();
    plan_overlaps();
    read_only_overlaps();
    moves();
    moved_overlaps();
    return failures != 0;
}
