/* The map as JSON: an array of the mapped entries, each a tree of what it is made of, of an array element 0. Offsets count from the mapped
 * entry's start. What is absent is null. The stride of an array is how far its elements begin from each other, of any other mapped entry
 * how far those of an array of it would. */
#include "map.h"

static void put_number(FILE *to, const char *key, uint64_t number) {
    if (number == LEPUGASO_ABSENT)
        fprintf(to, ",\"%s\":null", key);
    else
        fprintf(to, ",\"%s\":%" PRIu64, key, number);
}

/* A part's line begins under that of what it is a part of. */
static void put_line(struct map *m) { fprintf(m->out, "\n%*s", (int)m->depth, ""); }

static void put_sums(FILE *to, uint64_t bytes, uint64_t scalars, uint64_t gaps) {
    put_number(to, "bytes", bytes);
    put_number(to, "scalars", scalars);
    put_number(to, "gap_bytes", gaps);
}

/* ---- parts ---- */

static int put_scalars(struct map *m, const struct part *of) {
    struct pieces scalars;
    int status = map_pieces(m, of, &scalars);
    if (status) return status;
    fprintf(m->out, ",\"rows\":%" PRIu64 ",\"scalar\":\"%s\"", scalars.count, kind_name(entry_at(m->t, of->e.reference).kind));
    put_number(m->out, "scalar_size", scalars.size);
    put_number(m->out, "scalar_stride", scalars.every);
    return GOOD;
}

static int put_columns(struct map *m, const struct part *matrix, const struct pieces *of) {
    struct part column;
    put_number(m->out, "columns", of->count);
    put_number(m->out, "column_stride", of->every);
    put_number(m->out, "gap_after_each", of->every - of->size);
    int status = map_enter(m, matrix, 0, &column);
    if (!status) status = put_scalars(m, &column);
    map_leave(m);
    return status;
}

/* What it is made of: all but the parts that have lines of their own. */
static int put_inside(struct map *m, const struct part *p, const struct pieces *of) {
    switch (p->e.kind) {
    case STRUCT:
        fputs(",\"members\":[", m->out);
        return GOOD;
    case MATRIX:
        return put_columns(m, p, of);
    case VECTOR:
        return put_scalars(m, p);
    case ARRAY:
    case RUNTIME_ARRAY:
        put_number(m->out, "count", of->count);
        put_number(m->out, "stride", of->every);
        put_number(m->out, "gap_after_each", of->every - of->size);
        fputs(",\"element\":", m->out);
        return GOOD;
    default:
        fprintf(m->out, ",\"scalar\":\"%s\"", kind_name(p->e.kind == ATOMIC ? entry_at(m->t, p->e.reference).kind : p->e.kind));
        return GOOD;
    }
}

static void put_part(struct map *m, const struct part *p) {
    FILE *to = m->out;
    fputc('{', to);
    if (p->is_member) fprintf(to, "\"member\":%" PRIu32 ",", p->number);
    fprintf(to, "\"entry\":%" PRIu32 ",\"type\":\"%s\",\"path\":\"", p->entry, map_type(m, p));
    print_path(to, m->steps, m->depth);
    fputc('"', to);
    put_number(to, "offset", p->offset);
    put_number(to, "size", p->size);
    put_number(to, "align", p->align);
    if (p->is_member && p->as.flags & ALIGN_GIVEN) put_number(to, "given_align", p->as.align);
    if (p->is_member && p->as.flags & SIZE_GIVEN) put_number(to, "given_size", p->as.size);
    if (p->is_member && p->as.name) put_number(to, "name", p->as.name);
}

static int begin(struct map *m, const struct part *p, const struct pieces *of, void *with) {
    (void)with;
    if (p->is_member && p->number) fputc(',', m->out);
    put_line(m);
    put_part(m, p);
    if (!m->depth && p->e.kind != ARRAY && p->e.kind != RUNTIME_ARRAY) put_number(m->out, "stride", m->layouts[p->entry].stride);
    return put_inside(m, p, of);
}

/* ---- what follows them ---- */

static int put_gap(struct map *m, const struct gap *g, void *with) {
    int *first = with;
    fprintf(m->out, "%s{\"offset\":%" PRIu64 ",\"size\":%" PRIu64, *first ? "" : ",", g->offset, g->size);
    if (g->where == AT_END)
        fputs(",\"at_end\":true}", m->out);
    else
        fprintf(m->out, ",\"before\":%" PRIu64 "}", g->number);
    *first = 0;
    return GOOD;
}

static void put_totals(FILE *to, const struct totals *all) {
    if (!all->open) {
        put_sums(to, all->bytes, all->scalars, all->bytes - all->scalars);
        return;
    }
    put_sums(to, LEPUGASO_ABSENT, LEPUGASO_ABSENT, LEPUGASO_ABSENT);
    put_number(to, "fixed_bytes", all->bytes);
    put_number(to, "fixed_scalars", all->scalars);
    put_number(to, "fixed_gap_bytes", all->bytes - all->scalars);
    put_number(to, "each_bytes", all->each);
    put_number(to, "each_scalars", all->scalars_of_each);
    put_number(to, "each_gap_bytes", all->each - all->scalars_of_each);
}

static int end(struct map *m, const struct part *p, void *with) {
    int status = GOOD, first = 1;
    if (p->e.kind == STRUCT) {
        struct teller gaps = {.gap = put_gap, .with = &first};
        fputs("],\"gaps\":[", m->out);
        status = map_gaps(m, p, &gaps);
        fputc(']', m->out);
    }
    if (!m->depth) put_totals(m->out, with);
    fputc('}', m->out);
    return status;
}

/* ---- all of them ---- */

static int always(struct map *m, const struct part *p) {
    (void)m;
    (void)p;
    return 1;
}

/* An entry that has no map: what numbers it has, and why. */
static void put_unmapped(struct map *m, const struct part *whole, const char *why) {
    put_line(m);
    put_part(m, whole);
    put_number(m->out, "stride", m->layouts[whole->entry].stride);
    put_sums(m->out, LEPUGASO_ABSENT, LEPUGASO_ABSENT, LEPUGASO_ABSENT);
    fprintf(m->out, ",\"unmapped\":\"%s\"}", why);
}

int map_json(struct map *m) {
    int status = GOOD;
    fputc('[', m->out);
    for (uint32_t k = 0; !status && k < m->count; k++) {
        struct part whole;
        struct totals all;
        const char *why;
        struct teller to = {begin, NULL, end, always, &all};
        if (k) fputc(',', m->out);
        status = map_turn(m, m->entries[k], &whole, &why);
        if (!status && why) {
            put_unmapped(m, &whole, why);
            continue;
        }
        if (!status) status = map_totals(m, &whole, &all);
        if (!status) status = map_walk(m, &whole, &to);
    }
    fputs("\n]\n", m->out);
    return status;
}
