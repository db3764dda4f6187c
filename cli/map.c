/* Where the members of an entry lie, and the gaps between them: which entries are mapped, and the map as text. */
#include <stdlib.h>
#include <string.h>

#include "map.h"

/* ---- as text ---- */

/* How wide the columns are, and how deep the path is where the fourth begins. */
struct columns {
    int offset, size, align, depth;
};

static int width(int least, uint64_t number) {
    int digits = 1;
    while (number /= 10) digits++;
    return digits > least ? digits : least;
}

static void print_number(FILE *to, int width, uint64_t number) {
    if (number == LEPUGASO_ABSENT)
        fprintf(to, "%*s  ", width, "-");
    else
        fprintf(to, "%*" PRIu64 "  ", width, number);
}

static int print_gap(struct map *m, const struct gap *g, void *with) {
    const struct columns *c = with;
    /* The path is that of the member before which the gap lies, else of what the gap lies in. */
    int depth = (int)m->depth + (g->where == BEFORE_MEMBER ? 0 : 1) - c->depth;
    print_number(m->out, c->offset, g->offset);
    print_number(m->out, c->size, g->size);
    const char *what = g->where == AFTER_COLUMNS ? "column" : "element";
    fprintf(m->out, "%*s  %*s(%" PRIu64 " bytes ", c->align, "", 2 * depth, "", g->size);
    if (g->where == BEFORE_MEMBER)
        fprintf(m->out, "before member %" PRIu64 ")\n", g->number);
    else if (g->where == AT_END)
        fprintf(m->out, "at the end)\n");
    else if (g->number == LEPUGASO_ABSENT)
        fprintf(m->out, "after each element)\n");
    else if (g->number == 1)
        fprintf(m->out, "after the one %s)\n", what);
    else
        fprintf(m->out, "after each of %" PRIu64 " %ss)\n", g->number, what);
    return GOOD;
}

static int print_part(struct map *m, const struct part *p, const struct pieces *of, void *with) {
    const struct columns *c = with;
    if (!m->depth && p->e.kind == STRUCT) return GOOD;
    print_number(m->out, c->offset, p->offset);
    print_number(m->out, c->size, p->size);
    print_number(m->out, c->align, p->align);
    fprintf(m->out, "%*s", 2 * ((int)m->depth - c->depth), "");
    if (p->is_member) {
        fprintf(m->out, "%" PRIu32, p->number);
        if (p->as.name) fprintf(m->out, ", name %" PRIu32, p->as.name);
        fputs(": ", m->out);
        if (p->as.flags & ALIGN_GIVEN) fprintf(m->out, "@align(%" PRIu32 ") ", p->as.align);
        if (p->as.flags & SIZE_GIVEN) fprintf(m->out, "@size(%" PRIu32 ") ", p->as.size);
    } else if (m->depth) {
        fputs("[0]: ", m->out);
    }
    fputs(map_type(m, p), m->out);
    if (of && p->e.kind != MATRIX) fprintf(m->out, ", every %" PRIu64 " bytes", of->every);
    fputc('\n', m->out);
    return GOOD;
}

/* Element 0 is worth its lines if there is more to say than its type: it is made of structs, or has gaps. */
static int opens(struct map *m, const struct part *p) {
    struct entry e = entry_at(m->t, p->e.reference);
    while (e.kind == ARRAY) e = entry_at(m->t, e.reference);
    return e.kind == STRUCT || m->layouts[p->e.reference].size > m->scalars[p->e.reference];
}

static int print_entry(struct map *m, uint32_t entry) {
    struct part whole;
    struct totals all;
    const char *why;
    int status = map_turn(m, entry, &whole, &why);
    if (status) return status;
    int is_struct = whole.e.kind == STRUCT;
    fprintf(m->out, "%s, entry %" PRIu32, map_type(m, &whole), entry);
    if (why) {
        fprintf(m->out, ": %s\n", why);
        return GOOD;
    }
    status = map_totals(m, &whole, &all);
    if (status) return status;
    /* No number of a part is above these. */
    struct columns c = {width(6, all.bytes + all.each), width(4, all.bytes + all.each), width(5, whole.align), is_struct};
    struct teller to = {print_part, print_gap, NULL, opens, &c};
    fprintf(m->out, "\n%*s  %*s  %*s  %s\n", c.offset, "offset", c.size, "size", c.align, "align", is_struct ? "member" : "type");
    status = map_walk(m, &whole, &to);
    if (status) return status;
    map_print_totals(m->out, &whole, &all, "; ");
    fputc('\n', m->out);
    return GOOD;
}

int map_text(struct map *m) {
    int status = GOOD;
    for (uint32_t k = 0; !status && k < m->count; k++) {
        if (k) fputc('\n', m->out);
        status = print_entry(m, m->entries[k]);
    }
    return status;
}

/* ---- the command ---- */

struct request {
    const char *file, *entry, *svg;
    int json;
};

static int parse_request(int argc, char **argv, struct request *r) {
    memset(r, 0, sizeof *r);
    for (int k = 0; k < argc; k++) {
        if (!strcmp(argv[k], "--json"))
            r->json = 1;
        else if (!strcmp(argv[k], "--svg") && (r->svg || k + 1 == argc))
            return usage("map", "--svg takes one file");
        else if (!strcmp(argv[k], "--svg"))
            r->svg = argv[++k];
        else if (!strncmp(argv[k], "--", 2))
            return usage("map", "there is no option %s", argv[k]);
        else if (!r->file)
            r->file = argv[k];
        else if (!r->entry)
            r->entry = argv[k];
        else
            return usage("map", "%s is one argument too many", argv[k]);
    }
    if (r->json && r->svg) return usage("map", "--json and --svg are two maps");
    return r->file ? GOOD : usage("map", "which layout file?");
}

/* An entry that is asked for by its number has a map, or that is refused. */
static int choose_one(struct map *m, const char *asked) {
    const uint8_t *part;
    size_t len;
    int status = parse_entry(asked, &m->entry);
    if (status) return status;
    struct question q = map_question(m);
    m->entries[m->count++] = m->entry;
    return refused(lepugaso_view(m->t->file, m->t->len, m->entry, NULL, 0, m->space, LONGEST, &part, &len), &q);
}

/* Those that no other is made of. */
static void choose_all(struct map *m) {
    unsigned char made_of[MOST_TYPES] = {0};
    for (uint32_t k = 0; k < m->t->types; k++) {
        struct entry e = entry_at(m->t, k);
        if (e.kind == STRUCT)
            for (uint32_t n = 0; n < e.count; n++) made_of[member_at(m->t, e.reference + n).type] = 1;
        else if (!is_scalar(e.kind))
            made_of[e.reference] = 1;
    }
    for (uint32_t k = 0; k < m->t->types; k++)
        if (!made_of[k]) m->entries[m->count++] = k;
}

static int draw(struct map *m, const char *path) {
    struct whole_file to;
    if (!strcmp(path, "-")) return map_svg(m);
    int status = open_whole(path, &to);
    if (status) return status;
    m->out = to.file;
    return close_whole(&to, map_svg(m));
}

static int map_table(const struct table *t, const struct request *r) {
    struct map *m = calloc(1, sizeof *m);
    if (!m) return fail("no memory for a map");
    m->t = t;
    m->out = cli.out;
    m->space = nowhere();
    int status = m->space ? map_layouts(m) : FAILED;
    if (!status && r->entry) status = choose_one(m, r->entry);
    if (!status && !r->entry) choose_all(m);
    if (!status) status = r->svg ? draw(m, r->svg) : r->json ? map_json(m) : map_text(m);
    free(m);
    return status;
}

int run_map(int argc, char **argv) {
    struct request r;
    struct region file;
    struct table t;
    int status = parse_request(argc, argv, &r);
    if (!status) status = load_table(r.file, &file, &t);
    if (status) return status;
    status = map_table(&t, &r);
    drop(&file);
    return status;
}
