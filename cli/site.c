/* A factory sheet and a site block: two files of one struct's bytes, and a mask, which the caller keeps. */
#include <stdlib.h>
#include <string.h>

#include "cli.h"

/* What the five have among their arguments. */
struct block {
    struct region file, factory, site;
    struct table t;
    uint32_t entry, member;
    uint64_t mask;
    struct question asked;
};

static void end_block(struct block *b) {
    drop(&b->file);
    drop(&b->factory);
    drop(&b->site);
}

static int begin_block(struct block *b, char **argv, const char *mask, const char *member, const char *factory, const char *site) {
    uint64_t number = 0;
    memset(b, 0, sizeof *b);
    int status = load_table(argv[0], &b->file, &b->t);
    if (!status) status = parse_entry(argv[1], &b->entry);
    if (!status && mask) status = parse_number(mask, "a mask", UINT64_MAX, &b->mask);
    if (!status && member) status = parse_number(member, "a member", UINT32_MAX, &number);
    b->member = (uint32_t)number;
    if (!status && factory) status = load(factory, &b->factory);
    if (!status && site) status = load(site, &b->site);
    if (status) end_block(b);
    b->asked = (struct question){.t = &b->t, .entry = b->entry, .wanted = "layout", .target = "single scalar", .block = 1};
    b->asked.member = b->member;
    b->asked.mask = b->mask;
    b->asked.buf_len = b->factory.len;
    b->asked.other_len = b->site.len;
    return status;
}

static int print_mask(uint64_t mask) {
    fprintf(cli.out, "mask %" PRIu64 "\n", mask);
    return GOOD;
}

/* ---- the starts ---- */

/* The site buffer is made: as long as the factory's, or as the file that is there. */
static int start_fresh(struct block *b, const char *path) {
    FILE *there = fopen(path, "rb");
    int status = GOOD;
    if (there) {
        fclose(there);
        status = load(path, &b->site);
        if (status) return status;
    }
    if (b->site.len < b->factory.len) {
        uint8_t *longer = calloc(1, b->factory.len);
        if (!longer) return fail("no memory for %zu bytes", b->factory.len);
        if (b->site.len) memcpy(longer, b->site.at, b->site.len);
        size_t len = b->factory.len;
        drop(&b->site);
        b->site = (struct region){longer, len, 0};
    }
    b->asked.other_len = b->site.len;
    status = refused(lepugaso_site_fresh(b->t.file, b->t.len, b->entry, b->factory.at, b->factory.len, b->site.at, b->site.len, &b->mask),
                     &b->asked);
    if (!status) status = replace(path, b->site.at, b->site.len);
    return status ? status : print_mask(b->mask);
}

static int site_fresh(char **argv) {
    struct block b;
    if (!strcmp(argv[3], "-")) return usage("site", "standard input is no site block to be written");
    int status = begin_block(&b, argv, NULL, NULL, argv[2], NULL);
    if (status) return status;
    status = start_fresh(&b, argv[3]);
    end_block(&b);
    return status;
}

static int site_inheriting(char **argv) {
    struct block b;
    int status = begin_block(&b, argv, NULL, NULL, NULL, NULL);
    if (status) return status;
    status = refused(lepugaso_site_inheriting(b.t.file, b.t.len, b.entry, &b.mask), &b.asked);
    if (!status) print_mask(b.mask);
    end_block(&b);
    return status;
}

/* ---- members ---- */

static int site_member(char **argv) {
    struct block b;
    int status = begin_block(&b, argv, argv[2], argv[3], argv[4], argv[5]);
    if (status) return status;
    const uint8_t *part;
    size_t part_len;
    lepugaso_answer at = lepugaso_site_member(b.t.file, b.t.len, b.entry, b.member, b.mask, b.factory.at, b.factory.len, b.site.at,
                                              b.site.len, &part, &part_len);
    status = refused(at, &b.asked);
    if (!status) {
        const uint8_t *buf = part == b.site.at + at.value ? b.site.at : b.factory.at;
        size_t len = buf == b.site.at ? b.site.len : b.factory.len;
        fprintf(cli.out, "the %s's\n", buf == b.site.at ? "site" : "factory");
        uint32_t step = LEPUGASO_MEMBER(b.member);
        status = print_scalars(&b.t, b.entry, &step, 1, buf, len);
    }
    end_block(&b);
    return status;
}

/* The value at a path in a member: the scalar's kind is known once the library has taken the path. */
static int set_member(struct block *b, const struct path *path, const char *value, const char *site) {
    uint64_t mask = b->mask;
    /* No words at all: what is wrong before them is refused, and nothing changes. */
    lepugaso_answer none = lepugaso_site_set(b->t.file, b->t.len, b->entry, b->member, path->steps, path->len, NULL, 0, b->factory.at,
                                             b->factory.len, b->site.at, b->site.len, &mask);
    if (none.refusal != LEPUGASO_REFUSED_WORDS) return refused(none, &b->asked);
    uint64_t bits = 0;
    struct entry e = entry_at(&b->t, b->entry);
    uint32_t type = member_at(&b->t, e.reference + b->member).type, kind = scalar_at(&b->t, type, path->steps, path->len);
    int status = kind == KINDS ? GOOD : parse_value(value, kind, NULL, &bits);
    if (status) return status;
    uint32_t words[] = {(uint32_t)bits, (uint32_t)(bits >> 32)};
    lepugaso_answer at =
        lepugaso_site_set(b->t.file, b->t.len, b->entry, b->member, path->steps, path->len, words,
                          kind != KINDS && kind_width(kind) == 8 ? 2 : 1, b->factory.at, b->factory.len, b->site.at, b->site.len, &mask);
    status = refused(at, &b->asked);
    if (!status) status = replace(site, b->site.at, b->site.len);
    return status ? status : print_mask(mask);
}

static int site_set(char **argv) {
    struct block b;
    struct path path;
    if (!strcmp(argv[7], "-")) return usage("site", "standard input is no site block to be written");
    int status = parse_path(argv[4], &path);
    if (status) return status;
    status = begin_block(&b, argv, argv[2], argv[3], argv[6], argv[7]);
    if (!status) {
        b.asked.steps = path.steps;
        b.asked.steps_len = path.len;
        status = set_member(&b, &path, argv[5], argv[7]);
        end_block(&b);
    }
    free(path.steps);
    return status;
}

static int site_clear(char **argv) {
    struct block b;
    int status = begin_block(&b, argv, argv[2], argv[3], NULL, NULL);
    if (status) return status;
    status = refused(lepugaso_site_clear(b.t.file, b.t.len, b.entry, b.member, &b.mask), &b.asked);
    if (!status) print_mask(b.mask);
    end_block(&b);
    return status;
}

/* ---- which of them ---- */

int run_site(int argc, char **argv) {
    static const struct {
        const char *name;
        int takes;
        int (*run)(char **argv);
    } all[] = {{"fresh", 4, site_fresh},
               {"inheriting", 2, site_inheriting},
               {"member", 6, site_member},
               {"set", 8, site_set},
               {"clear", 4, site_clear}};
    for (size_t k = 0; argc && k < sizeof all / sizeof all[0]; k++) {
        if (strcmp(argv[0], all[k].name)) continue;
        if (argc - 1 != all[k].takes) return usage("site", "site %s takes %d arguments", all[k].name, all[k].takes);
        return all[k].run(argv + 1);
    }
    return usage("site", argc ? "there is no site %s" : "fresh, inheriting, member, set or clear?", argc ? argv[0] : "");
}
