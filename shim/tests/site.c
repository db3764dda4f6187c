/* A factory sheet and a site block (E8), from either start (E11), beside a model of two buffers and a mask. What is lent stands at the end
 * of a page after which nothing can be touched, and what is lent to be read cannot be written. Long buffers are in large.c, bad files in
 * calls.c. */
#include "pages.h"
#include "test.h"

#define M LEPUGASO_MEMBER
#define COUNT(list) (sizeof(list) / sizeof(list)[0])
#define BIT(k) (UINT64_C(1) << (k))

static const uint8_t types[] = {
    BOOL,             /* 0 */
    U32,              /* 1 */
    F32,              /* 2 */
    F16,              /* 3 */
    ABSTRACT_INT,     /* 4: no layout */
    U64,              /* 5 */
    ATOMIC(1),        /* 6: atomic<u32> */
    VECTOR(3, 2),     /* 7: vec3<f32> */
    MATRIX(3, 3, 2),  /* 8: mat3x3<f32>, columns of 12 bytes and a gap of 4 */
    STRUCT(0, 3),     /* 9: u32, vec3<f32>, f16: at 0, 16, 28; 32 bytes */
    ARRAY(9, 2),      /* 10 */
    STRUCT(3, 2),     /* 11: atomic<u32>, 10: at 0, 16; 80 bytes */
    STRUCT(5, 5),     /* 12: the sheet, of `members`; 192 bytes */
    ARRAY(12, 1),     /* 13 */
    RUNTIME_ARRAY(1), /* 14 */
    STRUCT(10, 2),    /* 15: u32, 14; open */
    STRUCT(12, 2),    /* 16: u32, bool */
    RUNTIME_ARRAY(0), /* 17: of bool */
    STRUCT(14, 2),    /* 18: u32, 17; open */
    ARRAY(4, 2),      /* 19: no layout */
    VECTOR(3, 5),     /* 20: vec3<u64>, no layout */
    MEMBER(1), MEMBER(7), MEMBER(3),                                          /* 0 to 2 */
    MEMBER(6), MEMBER(10),                                                    /* 3, 4 */
    MEMBER_SIZE(1, 20), MEMBER(3), MEMBER(8), MEMBER(5), MEMBER_SIZE(11, 88), /* 5 to 9 */
    MEMBER(1), MEMBER(14),                                                    /* 10, 11 */
    MEMBER(1), MEMBER(0),                                                     /* 12, 13 */
    MEMBER(1), MEMBER(17),                                                    /* 14, 15 */
    TRAILER(21, 16),
};
enum { SHEET = 12, NO_ENTRY = 21, MEMBERS = 5, ALL = 31, SIZE = 192, SPARE = 5 };

/* The sheet's members: where each lies, and how many bytes its type has. The first and the last are given more. */
static const struct {
    uint32_t at, size;
} members[MEMBERS] = {{0, 4}, {20, 2}, {32, 48}, {80, 8}, {96, 80}};

/* Scalars of the sheet: the member, the way from there, where it lies and how many bytes it has. */
static const struct scalar {
    uint32_t member, steps, path[4], at, size;
} scalars[] = {
    {0, 0, {0}, 0, 4},
    {1, 0, {0}, 20, 2},
    {2, 2, {0, 0}, 32, 4},
    {2, 2, {1, 2}, 56, 4},
    {2, 2, {2, 1}, 68, 4},
    {3, 0, {0}, 80, 8},
    {4, 1, {M(0)}, 96, 4},
    {4, 3, {M(1), 0, M(0)}, 112, 4},
    {4, 4, {M(1), 0, M(1), 2}, 136, 4},
    {4, 3, {M(1), 1, M(0)}, 144, 4},
    {4, 4, {M(1), 1, M(1), 1}, 164, 4},
    {4, 3, {M(1), 1, M(2)}, 172, 2},
};

/* What the factory buffer holds, a later one, and the site buffer at first: no byte is the same in two, and none is the next one's. */
static uint8_t made_byte(size_t k) { return (uint8_t)(0xC5 + 75 * k); }
static uint8_t later_byte(size_t k) { return (uint8_t)(made_byte(k) ^ 0x36); }
static uint8_t own_byte(size_t k) { return (uint8_t)~made_byte(k); }

static uint8_t *filled(size_t length, uint8_t byte(size_t)) {
    uint8_t *bytes = fresh(length);
    for (size_t k = 0; k < length; k++) bytes[k] = byte(k);
    return bytes;
}

static const uint8_t *factory_of(size_t length) { return sealed(filled(length, made_byte), length); }

/* xorshift: a word that looks like any other */
static uint32_t next_word(void) {
    static uint32_t word = 2463534242u;
    word ^= word << 13;
    word ^= word >> 17;
    word ^= word << 5;
    return word;
}

/* ---- beside the model */

/* A block, and what its site buffer and its mask must hold. */
struct block {
    const uint8_t *file, *factory;
    uint8_t *site, own[SIZE + SPARE];
    uint64_t *mask, bits;
    size_t factory_len, site_len;
    const uint8_t **part;
    size_t *part_len;
};

/* A block before its start. */
static struct block new_block(size_t factory_len, size_t site_len) {
    struct block b = {.file = lent(types, sizeof types), .factory_len = factory_len, .site_len = site_len};
    b.factory = factory_of(factory_len);
    b.site = filled(site_len, own_byte);
    memcpy(b.own, b.site, site_len);
    b.mask = (void *)fresh(sizeof *b.mask);
    b.part = (void *)fresh(sizeof *b.part);
    b.part_len = (void *)fresh(sizeof *b.part_len);
    return b;
}

/* The block is as the model says, and shows each member where it must. */
static void as_modelled(int line, struct block *b) {
    hold(__FILE__, line, "the site buffer", memcmp(b->site, b->own, b->site_len) == 0);
    hold(__FILE__, line, "the mask", *b->mask == b->bits);
    for (uint32_t k = 0; k < MEMBERS; k++) {
        const uint8_t *from = b->bits & BIT(k) ? b->site : b->factory;
        *b->part = NULL;
        expect(__FILE__, line, "asking",
               lepugaso_site_member(b->file, sizeof types, SHEET, k, *b->mask, b->factory, b->factory_len, b->site, b->site_len, b->part,
                                    b->part_len),
               0, 0, members[k].at);
        hold(__FILE__, line, "what shows a member", *b->part == from + members[k].at && *b->part_len == members[k].size);
    }
}

/* The two starts, in the block and in the model, whatever its mask and its site buffer held. */
static void start_fresh(int line, struct block *b) {
    memcpy(b->own, b->factory, SIZE);
    b->bits = ALL;
    expect(__FILE__, line, "a fresh block",
           lepugaso_site_fresh(b->file, sizeof types, SHEET, b->factory, b->factory_len, b->site, b->site_len, b->mask), 0, 0, 0);
    as_modelled(line, b);
}

static void start_inheriting(int line, struct block *b) {
    b->bits = 0;
    expect(__FILE__, line, "an inheriting block", lepugaso_site_inheriting(b->file, sizeof types, SHEET, b->mask), 0, 0, 0);
    as_modelled(line, b);
}

/* Sets a scalar, in the block and in the model; two words of which as many count as it has bytes. */
static void set(int line, struct block *b, const struct scalar *s, const uint32_t words[2]) {
    uint32_t k = s->member, at = members[k].at;
    size_t count = s->size == 8 ? 2 : 1;
    const void *path = lent(s->path, s->steps * sizeof *s->path), *given = lent(words, count * sizeof *words);
    if (!(b->bits & BIT(k))) memcpy(b->own + at, b->factory + at, members[k].size);
    for (uint32_t j = 0; j < s->size; j++) b->own[s->at + j] = (uint8_t)(words[j / 4] >> 8 * (j % 4));
    b->bits |= BIT(k);
    expect(__FILE__, line, "setting",
           lepugaso_site_set(b->file, sizeof types, SHEET, k, path, s->steps, given, count, b->factory, b->factory_len, b->site,
                             b->site_len, b->mask),
           0, 0, s->at);
    as_modelled(line, b);
}

static void clear(int line, struct block *b, uint32_t k) {
    b->bits &= ~BIT(k);
    expect(__FILE__, line, "clearing", lepugaso_site_clear(b->file, sizeof types, SHEET, k, b->mask), 0, 0, 0);
    as_modelled(line, b);
}

/* Every mask of the sheet: each scalar set, each member cleared, from a block that was not touched. */
static void every_mask(size_t factory_len, size_t site_len) {
    struct block b = new_block(factory_len, site_len);
    for (uint64_t bits = 0; bits <= ALL; bits++) {
        for (size_t k = 0; k < COUNT(scalars) + MEMBERS; k++) {
            for (size_t j = 0; j < site_len; j++) b.site[j] = b.own[j] = own_byte(j);
            *b.mask = b.bits = bits;
            if (k < COUNT(scalars)) {
                set(__LINE__, &b, &scalars[k], (const uint32_t[]){65535, 0x89ABCDEF});
            } else {
                clear(__LINE__, &b, (uint32_t)(k - COUNT(scalars)));
            }
        }
    }
}

/* Both starts, from any mask, one with bits beyond the members too. */
static void every_start(size_t factory_len, size_t site_len) {
    struct block b = new_block(factory_len, site_len);
    for (uint32_t turn = 0; turn < 2 * (ALL + 1 + 64); turn++) {
        uint64_t bits = turn / 2 <= ALL ? turn / 2 : UINT64_MAX >> (turn / 2 - ALL - 1);
        for (size_t j = 0; j < site_len; j++) b.site[j] = b.own[j] = own_byte(j);
        *b.mask = bits;
        (turn % 2 ? start_fresh : start_inheriting)(__LINE__, &b);
        HOLDS(memcmp(b.site, turn % 2 ? b.factory : b.own, SIZE) == 0);
        /* Again, and the other way. */
        start_fresh(__LINE__, &b);
        start_inheriting(__LINE__, &b);
        HOLDS(memcmp(b.site, b.factory, SIZE) == 0);
    }
}

/* Two blocks beside the same sheet show the same bytes for every member, wherever these lie. */
static void show_alike(int line, struct block *a, struct block *b) {
    for (uint32_t k = 0; k < MEMBERS; k++) {
        const uint8_t *of_a = a->bits & BIT(k) ? a->site : a->factory, *of_b = b->bits & BIT(k) ? b->site : b->factory;
        hold(__FILE__, line, "the same bytes shown", memcmp(of_a + members[k].at, of_b + members[k].at, members[k].size) == 0);
    }
}

/* A set or a clear that is refused, one of several by `which`, and changes nothing. */
static void refuse(int line, struct block *b, uint32_t which) {
    static const struct {
        uint32_t refusal, member, steps, path[2];
        size_t site_len;
    } sets[] = {
        {LEPUGASO_REFUSED_SHORT_BUFFER, 0, 0, {0}, SIZE - 1}, {LEPUGASO_REFUSED_MEMBER_STEP, MEMBERS, 0, {0}, SIZE},
        {LEPUGASO_REFUSED_MEMBER_STEP, 4, 1, {M(2)}, SIZE},   {LEPUGASO_REFUSED_INDEX, 2, 2, {3, 0}, SIZE},
        {LEPUGASO_REFUSED_INDEX_STEP, 4, 1, {1}, SIZE},       {LEPUGASO_REFUSED_WORDS, 3, 0, {0}, SIZE},
        {LEPUGASO_REFUSED_F16_WORD, 1, 0, {0}, SIZE},
    };
    uint32_t k = which % (COUNT(sets) + 1);
    if (k < COUNT(sets)) {
        expect(__FILE__, line, "setting, refused",
               lepugaso_site_set(b->file, sizeof types, SHEET, sets[k].member, sets[k].path, sets[k].steps, (const uint32_t[]){65536}, 1,
                                 b->factory, b->factory_len, b->site, sets[k].site_len, b->mask),
               sets[k].refusal, 0, 0);
    } else {
        expect(__FILE__, line, "clearing, refused", lepugaso_site_clear(b->file, sizeof types, SHEET, MEMBERS, b->mask),
               LEPUGASO_REFUSED_MEMBER_STEP, 0, 0);
    }
    as_modelled(line, b);
}

/* Sets and clears in any order, some of them refused, put to a block of either start, which goes from one to the next: they answer alike,
 * and the two blocks show the same bytes. */
static void any_order(size_t factory_len, size_t site_len) {
    struct block copied = new_block(factory_len, site_len), inheriting = new_block(factory_len, site_len);
    start_fresh(__LINE__, &copied);
    start_inheriting(__LINE__, &inheriting);
    show_alike(__LINE__, &copied, &inheriting);
    for (int turn = 0; turn < 1500; turn++) {
        const struct scalar *s = &scalars[next_word() % COUNT(scalars)];
        uint32_t words[] = {next_word(), next_word()}, which = next_word(), way = next_word() % 8;
        if (s->size == 2) words[0] %= 65536;
        for (int k = 0; k < 2; k++) {
            struct block *b = k ? &inheriting : &copied;
            if (way == 0) {
                refuse(__LINE__, b, which);
            } else if (way < 4) {
                clear(__LINE__, b, which % MEMBERS);
            } else {
                set(__LINE__, b, s, words);
            }
        }
        show_alike(__LINE__, &copied, &inheriting);
    }
}

/* Another sheet after the start, at another place: a fresh block shows nothing of it until a member is cleared, and then that member alone;
 * an inheriting one shows it in all that was not set on site. */
static void another_sheet(void) {
    const uint8_t *later = sealed(filled(SIZE, later_byte), SIZE);
    for (uint32_t k = 0; k < MEMBERS; k++) {
        struct block copied = new_block(SIZE, SIZE), inheriting = new_block(SIZE, SIZE);
        const uint8_t *made = copied.factory;
        size_t end = members[k].at + members[k].size;
        start_fresh(__LINE__, &copied);
        start_inheriting(__LINE__, &inheriting);
        copied.factory = inheriting.factory = later;
        as_modelled(__LINE__, &copied);
        HOLDS(copied.bits == ALL && memcmp(copied.site, made, SIZE) == 0);
        as_modelled(__LINE__, &inheriting);
        HOLDS(inheriting.bits == 0);

        clear(__LINE__, &copied, k);
        HOLDS(copied.bits == (ALL & ~BIT(k)) && memcmp(copied.site, made, SIZE) == 0);
        /* Set again, it is the later sheet's but for that scalar; on the inheriting block too. */
        for (size_t j = 0; j < COUNT(scalars); j++) {
            if (scalars[j].member != k) continue;
            clear(__LINE__, &copied, k);
            clear(__LINE__, &inheriting, k);
            set(__LINE__, &copied, &scalars[j], (const uint32_t[]){65535, 0x89ABCDEF});
            set(__LINE__, &inheriting, &scalars[j], (const uint32_t[]){65535, 0x89ABCDEF});
            HOLDS(memcmp(copied.site + members[k].at, inheriting.site + members[k].at, members[k].size) == 0);
            HOLDS(memcmp(copied.site, made, members[k].at) == 0 && memcmp(copied.site + end, made + end, SIZE - end) == 0);
        }
        HOLDS(copied.bits == ALL && inheriting.bits == BIT(k));
    }
}

/* ---- written out: nothing here is the model's */

static void written_out(void) {
    const uint8_t *file = lent(types, sizeof types), *factory = factory_of(SIZE), *part;
    uint8_t *site = filled(SIZE, own_byte), *before = filled(SIZE, own_byte);
    uint64_t mask = 9;
    size_t part_len;
    EXPECT(lepugaso_site_inheriting(file, sizeof types, SHEET, &mask), 0, 0, 0);
    HOLDS(mask == 0 && memcmp(site, before, SIZE) == 0);

    /* A column's gap is copied with the matrix, what is around the matrix is not. */
    EXPECT(lepugaso_site_set(file, sizeof types, SHEET, 2, (const uint32_t[]){1, 2}, 2, (const uint32_t[]){0x04030201}, 1, factory, SIZE,
                             site, SIZE, &mask),
           0, 0, 56);
    HOLDS(mask == 4);
    HOLDS(memcmp(site, before, 32) == 0 && memcmp(site + 32, factory + 32, 24) == 0 && memcmp(site + 56, "\1\2\3\4", 4) == 0);
    HOLDS(memcmp(site + 60, factory + 60, 20) == 0 && memcmp(site + 80, before + 80, SIZE - 80) == 0);
    EXPECT(lepugaso_site_member(file, sizeof types, SHEET, 2, mask, factory, SIZE, site, SIZE, &part, &part_len), 0, 0, 32);
    HOLDS(part == site + 32 && part_len == 48);

    /* Set again, nothing is copied: the gap keeps what the site put there. */
    site[44] = 77;
    EXPECT(lepugaso_site_set(file, sizeof types, SHEET, 2, (const uint32_t[]){0, 0}, 2, (const uint32_t[]){0x08070605}, 1, factory, SIZE,
                             site, SIZE, &mask),
           0, 0, 32);
    HOLDS(mask == 4);
    HOLDS(memcmp(site + 32, "\5\6\7\10", 4) == 0 && site[44] == 77 && memcmp(site + 56, "\1\2\3\4", 4) == 0);

    /* Cleared, it is the factory's; set once more, the factory's bytes come anew. A member with a given size has 4 bytes, not 20. */
    EXPECT(lepugaso_site_set(file, sizeof types, SHEET, 0, NULL, 0, (const uint32_t[]){7}, 1, factory, SIZE, site, SIZE, &mask), 0, 0, 0);
    HOLDS(mask == 5 && memcmp(site, "\7\0\0\0", 4) == 0 && memcmp(site + 4, before + 4, 28) == 0);
    EXPECT(lepugaso_site_clear(file, sizeof types, SHEET, 2, &mask), 0, 0, 0);
    EXPECT(lepugaso_site_clear(file, sizeof types, SHEET, 2, &mask), 0, 0, 0);
    HOLDS(mask == 1 && site[44] == 77 && memcmp(site + 56, "\1\2\3\4", 4) == 0);
    EXPECT(lepugaso_site_member(file, sizeof types, SHEET, 2, mask, factory, SIZE, site, SIZE, &part, &part_len), 0, 0, 32);
    HOLDS(part == factory + 32 && part_len == 48);
    EXPECT(lepugaso_site_set(file, sizeof types, SHEET, 2, (const uint32_t[]){0, 0}, 2, (const uint32_t[]){9}, 1, factory, SIZE, site, SIZE,
                             &mask),
           0, 0, 32);
    HOLDS(mask == 5 && memcmp(site + 32, "\11\0\0\0", 4) == 0 && memcmp(site + 36, factory + 36, 44) == 0);

    /* 64 bits are two words, the low one first. */
    EXPECT(lepugaso_site_set(file, sizeof types, SHEET, 3, NULL, 0, (const uint32_t[]){0x04030201, 0x08070605}, 2, factory, SIZE, site,
                             SIZE, &mask),
           0, 0, 80);
    HOLDS(mask == 13 && memcmp(site + 80, "\1\2\3\4\5\6\7\10", 8) == 0 && site[88] == before[88]);
    EXPECT(lepugaso_site_set(file, sizeof types, SHEET, 1, NULL, 0, (const uint32_t[]){65535}, 1, factory, SIZE, site, SIZE, &mask), 0, 0,
           20);
    HOLDS(mask == 15 && site[19] == before[19] && site[20] == 255 && site[21] == 255 && site[22] == before[22]);
}

static void written_out_fresh(void) {
    const uint8_t *file = lent(types, sizeof types), *factory = factory_of(SIZE + 2), *part;
    const uint8_t *later = sealed(filled(SIZE, later_byte), SIZE);
    uint8_t *site = filled(SIZE + 1, own_byte), *before = filled(SIZE + 1, own_byte);
    uint64_t mask = 9;
    size_t part_len;

    /* All of its bytes are copied, those between members too, and none behind it; every member is the site's. */
    EXPECT(lepugaso_site_fresh(file, sizeof types, SHEET, factory, SIZE + 2, site, SIZE + 1, &mask), 0, 0, 0);
    HOLDS(mask == 31 && memcmp(site, factory, SIZE) == 0 && site[SIZE] == before[SIZE]);
    EXPECT(lepugaso_site_member(file, sizeof types, SHEET, 2, mask, factory, SIZE, site, SIZE, &part, &part_len), 0, 0, 32);
    HOLDS(part == site + 32 && part_len == 48);

    /* A set copies nothing, and changes one scalar. */
    EXPECT(lepugaso_site_set(file, sizeof types, SHEET, 2, (const uint32_t[]){1, 2}, 2, (const uint32_t[]){0x04030201}, 1, later, SIZE,
                             site, SIZE, &mask),
           0, 0, 56);
    HOLDS(mask == 31 && memcmp(site, factory, 56) == 0 && memcmp(site + 56, "\1\2\3\4", 4) == 0);
    HOLDS(memcmp(site + 60, factory + 60, SIZE - 60) == 0 && site[SIZE] == before[SIZE]);

    /* Cleared, the member is the factory's, whichever lies beside the block; no other one is. */
    EXPECT(lepugaso_site_clear(file, sizeof types, SHEET, 2, &mask), 0, 0, 0);
    HOLDS(mask == 27 && memcmp(site + 56, "\1\2\3\4", 4) == 0);
    EXPECT(lepugaso_site_member(file, sizeof types, SHEET, 2, mask, later, SIZE, site, SIZE, &part, &part_len), 0, 0, 32);
    HOLDS(part == later + 32 && part_len == 48);
    EXPECT(lepugaso_site_member(file, sizeof types, SHEET, 3, mask, later, SIZE, site, SIZE, &part, &part_len), 0, 0, 80);
    HOLDS(part == site + 80 && part_len == 8 && memcmp(part, factory + 80, 8) == 0);

    /* Started anew, it is a copy again. */
    EXPECT(lepugaso_site_fresh(file, sizeof types, SHEET, factory, SIZE, site, SIZE, &mask), 0, 0, 0);
    HOLDS(mask == 31 && memcmp(site, factory, SIZE) == 0 && site[SIZE] == before[SIZE]);
}

/* ---- members, and bits of a mask */

/* A struct of `count` u32. A block has at most 64 members, and its mask no bit beyond them; a start does not look at the mask. */
static void members_of(uint32_t count) {
    size_t length = 24 + 12 * (size_t)count + 10, size = 4 * (size_t)count;
    uint8_t *bytes = fresh(length), *site = filled(size, own_byte), *before = filled(size, own_byte);
    const uint8_t *factory = factory_of(size), *part;
    const void *word = lent((const uint32_t[]){0x89ABCDEF}, sizeof(uint32_t));
    memcpy(bytes, (const uint8_t[]){U32, STRUCT(0, count)}, 24);
    for (size_t k = 0; k < count; k++) memcpy(bytes + 24 + 12 * k, (const uint8_t[]){MEMBER(0)}, 12);
    memcpy(bytes + length - 10, (const uint8_t[]){TRAILER(2, count)}, 10);
    const uint8_t *file = sealed(bytes, length);

    uint32_t last = count - 1, start = count <= 64 ? 0 : LEPUGASO_REFUSED_NO_SITE, refusal;
    uint64_t mask, all = count < 64 ? BIT(count) - 1 : UINT64_MAX;
    size_t part_len, at = 4 * (size_t)last;
    for (uint32_t turn = 0; turn < 2 * 64; turn++) {
        /* One bit, or that and all below it. */
        uint64_t bits = turn % 2 ? BIT(turn / 2) : (BIT(turn / 2) - 1) | BIT(turn / 2), own = BIT(last % 64);
        refusal = turn / 2 < count && count <= 64 ? 0 : LEPUGASO_REFUSED_NO_SITE;
        const uint8_t *from = !refusal && bits & own ? site : factory;
        mask = bits;
        EXPECT(lepugaso_site_inheriting(file, length, 1, &mask), start, 0, 0);
        HOLDS(mask == (start ? bits : 0));
        memcpy(site, before, size);
        mask = bits;
        EXPECT(lepugaso_site_fresh(file, length, 1, factory, size - 1, site, size, &mask), start ? start : LEPUGASO_REFUSED_SHORT_BUFFER, 0,
               0);
        EXPECT(lepugaso_site_fresh(file, length, 1, factory, size, site, size - 1, &mask), start ? start : LEPUGASO_REFUSED_SHORT_BUFFER, 0,
               0);
        HOLDS(mask == bits && memcmp(site, before, size) == 0);
        EXPECT(lepugaso_site_fresh(file, length, 1, factory, size, site, size, &mask), start, 0, 0);
        HOLDS(mask == (start ? bits : all) && memcmp(site, start ? before : factory, size) == 0);
        for (uint32_t k = 0; k < count && !start; k++) {
            EXPECT(lepugaso_site_member(file, length, 1, k, mask, factory, size, site, size, &part, &part_len), 0, 0, 4 * (uint64_t)k);
            HOLDS(part == site + 4 * (size_t)k && part_len == 4);
        }
        memcpy(site, before, size);
        EXPECT(lepugaso_site_member(file, length, 1, last, bits, factory, size, site, size, &part, &part_len), refusal, 0,
               refusal ? 0 : at);
        HOLDS(part == from + (refusal ? 0 : at) && part_len == (refusal ? 0 : 4));
        mask = bits;
        EXPECT(lepugaso_site_set(file, length, 1, last, NULL, 0, word, 1, factory, size, site, size, &mask), refusal, 0, refusal ? 0 : at);
        HOLDS(mask == (refusal ? bits : bits | own));
        HOLDS(memcmp(site, before, at) == 0 && memcmp(site + at, refusal ? before + at : (const uint8_t *)"\xEF\xCD\xAB\x89", 4) == 0);
        mask = bits;
        EXPECT(lepugaso_site_clear(file, length, 1, last, &mask), refusal, 0, 0);
        HOLDS(mask == (refusal ? bits : bits & ~own));
        /* The member after the last. */
        mask = bits;
        refusal = refusal ? refusal : LEPUGASO_REFUSED_MEMBER_STEP;
        EXPECT(lepugaso_site_member(file, length, 1, count, bits, factory, size, site, size, &part, &part_len), refusal, 0, 0);
        HOLDS(part == factory && part_len == 0);
        EXPECT(lepugaso_site_clear(file, length, 1, count, &mask), refusal, 0, 0);
        HOLDS(mask == bits);
    }
}

/* ---- refusals */

/* All that a call is lent; the one here is good. */
struct question {
    uint32_t entry, member;
    uint64_t mask;
    size_t factory_len, site_len;
    const uint32_t *path, *words;
    size_t steps, count;
};
static const uint32_t seven[] = {7};
static const struct question good = {SHEET, 0, 0, SIZE, SIZE, NULL, seven, 0, 1};

/* The calls, each lent more than the one before it; START is both starts. */
enum { START, CLEAR, ASK, SET };

/* A question that the calls from `first` on refuse alike, and leave all that is lent as it was. Those before it do not look at what is
 * wrong, but that clearing looks at the member: asking may refuse a buffer first. If not the entry is wrong, a fresh block looks at the
 * buffers alone, neither at the mask nor at the member. */
#define REFUSED(first, refusal, place, ...)          \
    do {                                             \
        struct question q = good;                    \
        __VA_ARGS__;                                 \
        refused(__LINE__, first, refusal, place, q); \
    } while (0)
#define PATH(...) q.path = (const uint32_t[]){__VA_ARGS__}, q.steps = COUNT(((const uint32_t[]){__VA_ARGS__}))
#define WORDS(...) q.words = (const uint32_t[]){__VA_ARGS__}, q.count = COUNT(((const uint32_t[]){__VA_ARGS__}))
static void refused(int line, int first, uint32_t refusal, uint32_t place, struct question q) {
    const uint8_t *file = lent(types, sizeof types), *factory = factory_of(q.factory_len), *part = NULL;
    const void *path = lent(q.path, q.steps * sizeof *q.path), *words = lent(q.words, q.count * sizeof *q.words);
    uint8_t *site = filled(q.site_len, own_byte), *before = filled(q.site_len, own_byte);
    uint64_t *mask = (void *)fresh(sizeof *mask);
    size_t part_len = 5;
    *mask = 77;
    expect(__FILE__, line, "an inheriting block", lepugaso_site_inheriting(file, sizeof types, q.entry, mask), first == START ? refusal : 0,
           0, 0);
    hold(__FILE__, line, "the mask of an inheriting block", *mask == (first == START ? 77 : 0));

    *mask = q.mask;
    int is_short = q.factory_len < SIZE || q.site_len < SIZE;
    uint32_t started = first == START ? refusal : is_short ? LEPUGASO_REFUSED_SHORT_BUFFER : 0;
    expect(__FILE__, line, "a fresh block",
           lepugaso_site_fresh(file, sizeof types, q.entry, factory, q.factory_len, site, q.site_len, mask), started, 0, 0);
    hold(__FILE__, line, "the mask of a fresh block", *mask == (started ? q.mask : ALL));
    hold(__FILE__, line, "the site buffer of a fresh block",
         started ? memcmp(site, before, q.site_len) == 0
                 : memcmp(site, factory, SIZE) == 0 && memcmp(site + SIZE, before + SIZE, q.site_len - SIZE) == 0);
    memcpy(site, before, q.site_len);

    *mask = q.mask;
    uint32_t cleared = first <= CLEAR ? refusal : q.member < MEMBERS ? 0 : LEPUGASO_REFUSED_MEMBER_STEP;
    expect(__FILE__, line, "clearing", lepugaso_site_clear(file, sizeof types, q.entry, q.member, mask), cleared, 0, 0);
    hold(__FILE__, line, "the mask after clearing", *mask == (cleared ? q.mask : q.mask & ~BIT(q.member)));

    uint32_t at = first == SET ? members[q.member].at : 0, size = first == SET ? members[q.member].size : 0;
    const uint8_t *from = first == SET && q.mask & BIT(q.member) ? site : factory;
    expect(__FILE__, line, "asking",
           lepugaso_site_member(file, sizeof types, q.entry, q.member, q.mask, factory, q.factory_len, site, q.site_len, &part, &part_len),
           first == SET ? 0 : refusal, 0, at);
    hold(__FILE__, line, "the part handed back", part == from + at && part_len == size);

    *mask = q.mask;
    expect(__FILE__, line, "setting",
           lepugaso_site_set(file, sizeof types, q.entry, q.member, path, q.steps, words, q.count, factory, q.factory_len, site, q.site_len,
                             mask),
           refusal, place, 0);
    hold(__FILE__, line, "the mask after setting", *mask == q.mask);
    hold(__FILE__, line, "the site buffer after setting", memcmp(site, before, q.site_len) == 0);
}

/* No entry, or an entry that is no block, whatever the buffers are. */
static void entries(void) {
    static const uint32_t absent[] = {4, 19, 20}, bools[] = {0, 16, 17, 18}, no_blocks[] = {1, 3, 5, 6, 7, 8, 10, 13, 14, 15};
    static const size_t lengths[][2] = {{SIZE, SIZE}, {SIZE + SPARE, SIZE}, {SIZE, SIZE + SPARE}, {0, SIZE}, {SIZE, 0}, {0, 0}};
    for (size_t j = 0; j < COUNT(lengths); j++) {
#define ENTRY(refusal, number) REFUSED(START, refusal, 0, q.entry = number, q.factory_len = lengths[j][0], q.site_len = lengths[j][1])
        ENTRY(LEPUGASO_REFUSED_ENTRY, NO_ENTRY);
        ENTRY(LEPUGASO_REFUSED_ENTRY, UINT32_MAX);
        for (size_t k = 0; k < COUNT(absent); k++) ENTRY(LEPUGASO_REFUSED_ABSENT, absent[k]);
        for (size_t k = 0; k < COUNT(bools); k++) ENTRY(LEPUGASO_REFUSED_NOT_STORABLE, bools[k]);
        for (size_t k = 0; k < COUNT(no_blocks); k++) ENTRY(LEPUGASO_REFUSED_NO_SITE, no_blocks[k]);
#undef ENTRY
    }
}

static void masks(void) {
    for (uint32_t bit = MEMBERS; bit < 64; bit++) {
        REFUSED(CLEAR, LEPUGASO_REFUSED_NO_SITE, 0, q.mask = BIT(bit));
        REFUSED(CLEAR, LEPUGASO_REFUSED_NO_SITE, 0, q.mask = BIT(bit) | 31);
    }
    REFUSED(CLEAR, LEPUGASO_REFUSED_NO_SITE, 0, q.mask = UINT64_MAX);
}

static void buffers(void) {
    static const size_t lengths[] = {0, 1, 4, SIZE - 1};
    for (size_t k = 0; k < COUNT(lengths); k++) {
        for (uint64_t mask = 0; mask <= 1; mask++) {
            REFUSED(ASK, LEPUGASO_REFUSED_SHORT_BUFFER, 0, q.mask = mask, q.factory_len = lengths[k]);
            REFUSED(ASK, LEPUGASO_REFUSED_SHORT_BUFFER, 0, q.mask = mask, q.site_len = lengths[k]);
            REFUSED(ASK, LEPUGASO_REFUSED_SHORT_BUFFER, 0, q.mask = mask, q.factory_len = lengths[k], q.site_len = SIZE + SPARE);
            REFUSED(ASK, LEPUGASO_REFUSED_SHORT_BUFFER, 0, q.mask = mask, q.factory_len = SIZE + SPARE, q.site_len = lengths[k]);
        }
    }
    /* Of a null factory null is handed back; of a null site the factory. */
    const uint8_t *file = lent(types, sizeof types), *bytes = factory_of(SIZE), *part = bytes;
    size_t part_len = 5;
    EXPECT(lepugaso_site_member(file, sizeof types, SHEET, 0, 0, NULL, 0, bytes, SIZE, &part, &part_len), LEPUGASO_REFUSED_SHORT_BUFFER, 0,
           0);
    HOLDS(part == NULL && part_len == 0);
    EXPECT(lepugaso_site_member(file, sizeof types, SHEET, 0, 1, bytes, SIZE, NULL, 0, &part, &part_len), LEPUGASO_REFUSED_SHORT_BUFFER, 0,
           0);
    HOLDS(part == bytes && part_len == 0);
    /* Of either no block starts. */
    uint8_t *site = filled(SIZE, own_byte), *before = filled(SIZE, own_byte);
    uint64_t mask = 9;
    EXPECT(lepugaso_site_fresh(file, sizeof types, SHEET, NULL, 0, site, SIZE, &mask), LEPUGASO_REFUSED_SHORT_BUFFER, 0, 0);
    EXPECT(lepugaso_site_fresh(file, sizeof types, SHEET, bytes, SIZE, NULL, 0, &mask), LEPUGASO_REFUSED_SHORT_BUFFER, 0, 0);
    EXPECT(lepugaso_site_fresh(file, sizeof types, SHEET, NULL, 0, NULL, 0, &mask), LEPUGASO_REFUSED_SHORT_BUFFER, 0, 0);
    HOLDS(mask == 9 && memcmp(site, before, SIZE) == 0);
}

/* A member is a number and no step: 0 with bit 31 is not member 0. */
static void numbers(void) {
    for (uint32_t low = 0; low <= MEMBERS; low++) {
        for (uint32_t bit = 3; bit < 32; bit++) {
            REFUSED(CLEAR, LEPUGASO_REFUSED_MEMBER_STEP, 0, q.member = low + (UINT32_C(1) << bit));
            REFUSED(CLEAR, LEPUGASO_REFUSED_MEMBER_STEP, 0, q.member = low + (UINT32_C(1) << bit), q.mask = 31);
        }
    }
    REFUSED(CLEAR, LEPUGASO_REFUSED_MEMBER_STEP, 0, q.member = MEMBERS);
    REFUSED(CLEAR, LEPUGASO_REFUSED_MEMBER_STEP, 0, q.member = MEMBERS, q.mask = 31);
    REFUSED(CLEAR, LEPUGASO_REFUSED_MEMBER_STEP, 0, q.member = UINT32_MAX);
}

/* The path starts at the member's type, and so does the count of its steps; then the words. */
static void paths_and_words(void) {
    for (uint64_t mask = 0; mask < 32; mask += 31) {
        REFUSED(SET, LEPUGASO_REFUSED_MEMBER_STEP, 0, q.mask = mask, PATH(M(0)));
        REFUSED(SET, LEPUGASO_REFUSED_MEMBER_STEP, 0, q.mask = mask, q.member = 2, PATH(M(2), 0));
        REFUSED(SET, LEPUGASO_REFUSED_MEMBER_STEP, 0, q.mask = mask, q.member = 4, PATH(M(4), M(0)));
        REFUSED(SET, LEPUGASO_REFUSED_MEMBER_STEP, 2, q.mask = mask, q.member = 4, PATH(M(1), 1, M(3)));
        REFUSED(SET, LEPUGASO_REFUSED_INDEX, 0, q.mask = mask, q.member = 2, PATH(3, 0));
        REFUSED(SET, LEPUGASO_REFUSED_INDEX, 1, q.mask = mask, q.member = 2, PATH(2, 3));
        REFUSED(SET, LEPUGASO_REFUSED_INDEX, 1, q.mask = mask, q.member = 4, PATH(M(1), 2, M(0)));
        REFUSED(SET, LEPUGASO_REFUSED_INDEX, 3, q.mask = mask, q.member = 4, PATH(M(1), 1, M(1), 3));
        REFUSED(SET, LEPUGASO_REFUSED_INDEX_STEP, 0, q.mask = mask, PATH(0));
        REFUSED(SET, LEPUGASO_REFUSED_INDEX_STEP, 0, q.mask = mask, q.member = 4, PATH(1, 0));
        REFUSED(SET, LEPUGASO_REFUSED_INDEX_STEP, 2, q.mask = mask, q.member = 4, PATH(M(1), 1, 0));
        REFUSED(SET, LEPUGASO_REFUSED_INDEX_STEP, 2, q.mask = mask, q.member = 2, PATH(2, 2, 0));
        /* no single scalar */
        REFUSED(SET, LEPUGASO_REFUSED_WORDS, 0, q.mask = mask, q.member = 2);
        REFUSED(SET, LEPUGASO_REFUSED_WORDS, 0, q.mask = mask, q.member = 2, PATH(1));
        REFUSED(SET, LEPUGASO_REFUSED_WORDS, 0, q.mask = mask, q.member = 4);
        REFUSED(SET, LEPUGASO_REFUSED_WORDS, 0, q.mask = mask, q.member = 4, PATH(M(1)));
        REFUSED(SET, LEPUGASO_REFUSED_WORDS, 0, q.mask = mask, q.member = 4, PATH(M(1), 0));
        REFUSED(SET, LEPUGASO_REFUSED_WORDS, 0, q.mask = mask, q.member = 4, PATH(M(1), 0, M(1)), WORDS(1, 2, 3));
        /* too few, too many */
        REFUSED(SET, LEPUGASO_REFUSED_WORDS, 0, q.mask = mask, q.count = 0);
        REFUSED(SET, LEPUGASO_REFUSED_WORDS, 0, q.mask = mask, WORDS(1, 2));
        REFUSED(SET, LEPUGASO_REFUSED_WORDS, 0, q.mask = mask, q.member = 3, q.count = 0);
        REFUSED(SET, LEPUGASO_REFUSED_WORDS, 0, q.mask = mask, q.member = 3);
        REFUSED(SET, LEPUGASO_REFUSED_WORDS, 0, q.mask = mask, q.member = 3, WORDS(1, 2, 3));
        REFUSED(SET, LEPUGASO_REFUSED_WORDS, 0, q.mask = mask, q.member = 4, PATH(M(0)), WORDS(1, 2));
        REFUSED(SET, LEPUGASO_REFUSED_F16_WORD, 0, q.mask = mask, q.member = 1, WORDS(65536));
        REFUSED(SET, LEPUGASO_REFUSED_F16_WORD, 0, q.mask = mask, q.member = 1, WORDS(UINT32_MAX));
        REFUSED(SET, LEPUGASO_REFUSED_F16_WORD, 0, q.mask = mask, q.member = 4, PATH(M(1), 1, M(2)), WORDS(65536));
    }
}

/* Of two refusals that stand next to each other in document 02's order, the first; 17 is in large.c. No type has both 9 and 10. */
static void order(void) {
    REFUSED(START, LEPUGASO_REFUSED_ENTRY, 0, q.entry = NO_ENTRY, q.mask = BIT(63), q.site_len = 0, q.member = M(0), q.count = 0);
    REFUSED(START, LEPUGASO_REFUSED_ABSENT, 0, q.entry = 4, q.mask = BIT(63), q.factory_len = 0);
    REFUSED(START, LEPUGASO_REFUSED_NOT_STORABLE, 0, q.entry = 0, q.site_len = 0);
    REFUSED(START, LEPUGASO_REFUSED_NOT_STORABLE, 0, q.entry = 18, q.factory_len = 0);
    REFUSED(START, LEPUGASO_REFUSED_NOT_STORABLE, 0, q.entry = 16, q.mask = BIT(2));
    REFUSED(START, LEPUGASO_REFUSED_NO_SITE, 0, q.entry = 1, q.factory_len = 0);
    REFUSED(START, LEPUGASO_REFUSED_NO_SITE, 0, q.entry = 15, q.site_len = 0);
    REFUSED(CLEAR, LEPUGASO_REFUSED_NO_SITE, 0, q.mask = BIT(5), q.factory_len = SIZE - 1);
    REFUSED(CLEAR, LEPUGASO_REFUSED_NO_SITE, 0, q.mask = BIT(5), q.site_len = SIZE - 1);
    REFUSED(CLEAR, LEPUGASO_REFUSED_NO_SITE, 0, q.mask = BIT(5), q.member = MEMBERS);
    REFUSED(ASK, LEPUGASO_REFUSED_SHORT_BUFFER, 0, q.factory_len = SIZE - 1, q.member = MEMBERS);
    REFUSED(ASK, LEPUGASO_REFUSED_SHORT_BUFFER, 0, q.site_len = SIZE - 1, q.member = M(0));
    REFUSED(ASK, LEPUGASO_REFUSED_SHORT_BUFFER, 0, q.site_len = SIZE - 1, PATH(0));
    REFUSED(CLEAR, LEPUGASO_REFUSED_MEMBER_STEP, 0, q.member = MEMBERS, PATH(0));
    REFUSED(CLEAR, LEPUGASO_REFUSED_MEMBER_STEP, 0, q.member = MEMBERS, PATH(M(0), M(0)), q.count = 0);
    REFUSED(CLEAR, LEPUGASO_REFUSED_MEMBER_STEP, 0, q.member = MEMBERS, q.count = 0);
    REFUSED(SET, LEPUGASO_REFUSED_INDEX, 1, q.member = 4, PATH(M(1), 2, 0), q.count = 0);
    REFUSED(SET, LEPUGASO_REFUSED_INDEX_STEP, 0, q.member = 1, PATH(0), WORDS(65536));
    REFUSED(SET, LEPUGASO_REFUSED_MEMBER_STEP, 0, q.member = 3, PATH(M(0)), q.count = 0);
    REFUSED(SET, LEPUGASO_REFUSED_WORDS, 0, q.member = 1, WORDS(65536, 65536));
    REFUSED(SET, LEPUGASO_REFUSED_WORDS, 0, q.member = 4, PATH(M(1), 1), WORDS(65536));
}

/* ---- asking reads nothing and writes nothing: the two buffers may be one, or overlap */

static void overlapping(void) {
    const uint8_t *file = lent(types, sizeof types), *bytes = factory_of(SIZE + SPARE), *part;
    size_t part_len;
    for (size_t factory = 0; factory <= SPARE; factory++) {
        for (size_t site = 0; site <= SPARE; site++) {
            for (uint32_t k = 0; k < MEMBERS; k++) {
                for (uint64_t mask = 0; mask <= BIT(k); mask += BIT(k)) {
                    EXPECT(lepugaso_site_member(file, sizeof types, SHEET, k, mask, bytes + factory, SIZE, bytes + site, SIZE, &part,
                                                &part_len),
                           0, 0, members[k].at);
                    HOLDS(part == bytes + (mask ? site : factory) + members[k].at && part_len == members[k].size);
                }
            }
        }
    }
}

int main(void) {
    every_mask(SIZE, SIZE);
    every_mask(SIZE + SPARE, SIZE);
    every_mask(SIZE, SIZE + SPARE);
    every_start(SIZE, SIZE);
    every_start(SIZE + SPARE, SIZE);
    every_start(SIZE, SIZE + SPARE);
    any_order(SIZE, SIZE);
    any_order(SIZE + SPARE, SIZE + 1);
    another_sheet();
    written_out();
    written_out_fresh();
    for (uint32_t count = 1; count <= 66; count++) members_of(count);
    members_of(1024);
    entries();
    masks();
    buffers();
    numbers();
    paths_and_words();
    order();
    overlapping();
    return failures != 0;
}
