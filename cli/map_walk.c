/* What the three forms of a map share: the way to each part of the mapped entry, and how many of its bytes hold no scalar. Recursion goes
 * down the entries, whose numbers fall. */
#include <string.h>

#include "map.h"

/* ---- the path and what it leads to ---- */

struct question map_question(const struct map *m) {
    struct question q = {.t = m->t, .file = m->t->file, .file_len = m->t->len, .wanted = "layout", .entry = m->entry, .buf_len = LONGEST};
    q.steps = m->steps;
    q.steps_len = m->depth;
    return q;
}

static lepugaso_answer view(struct map *m, size_t *len) {
    const uint8_t *part;
    return lepugaso_view(m->t->file, m->t->len, m->entry, m->steps, m->depth, m->space, LONGEST, &part, len);
}

/* Whether an entry, of those that have a layout, is a runtime array or ends in one. */
static int is_open(struct map *m, uint32_t entry) { return m->layouts[entry].size == LEPUGASO_ABSENT; }

static int look(struct map *m, struct part *p) {
    size_t len = 0;
    struct question q = map_question(m);
    lepugaso_answer at = view(m, &len);
    p->e = entry_at(m->t, p->entry);
    p->offset = at.value;
    p->size = is_open(m, p->entry) ? LEPUGASO_ABSENT : len;
    p->room = len;
    p->align = p->is_member && p->as.flags & ALIGN_GIVEN ? p->as.align : m->layouts[p->entry].align;
    return refused(at, &q);
}

int map_turn(struct map *m, uint32_t entry, struct part *whole, const char **why) {
    size_t len;
    m->entry = entry;
    m->depth = 0;
    *why = NULL;
    *whole = (struct part){.entry = entry, .e = entry_at(m->t, entry), .size = m->layouts[entry].size, .align = m->layouts[entry].align};
    uint32_t refusal = view(m, &len).refusal;
    if (refusal == LEPUGASO_REFUSED_ABSENT) *why = "it has no layout";
    if (refusal == LEPUGASO_REFUSED_SHORT_BUFFER) *why = "no buffer is long enough for an element of it";
    if (!*why) return look(m, whole);
    whole->offset = LEPUGASO_ABSENT;
    return GOOD;
}

int map_enter(struct map *m, const struct part *of, uint32_t step, struct part *p) {
    memset(p, 0, sizeof *p);
    m->steps[m->depth++] = step;
    p->entry = of->e.reference;
    if (of->e.kind == STRUCT) {
        p->is_member = 1;
        p->number = step & 0x7FFFFFFF;
        p->as = member_at(m->t, of->e.reference + p->number);
        p->entry = p->as.type;
    } else if (of->e.kind == MATRIX && !of->column) {
        p->column = 1;
        p->entry = of->entry;
    }
    return look(m, p);
}

void map_leave(struct map *m) { m->depth--; }

int map_pieces(struct map *m, const struct part *of, struct pieces *p) {
    struct part first, second = {0};
    int status = map_enter(m, of, 0, &first);
    map_leave(m);
    if (of->e.kind == ARRAY || of->e.kind == RUNTIME_ARRAY) {
        p->count = of->e.kind == ARRAY ? of->e.count : LEPUGASO_ABSENT;
        p->every = m->layouts[of->e.reference].stride;
    } else {
        p->count = of->e.kind == MATRIX && !of->column ? of->e.columns : of->e.rows;
        if (!status) {
            status = map_enter(m, of, 1, &second);
            map_leave(m);
        }
        p->every = second.offset - first.offset;
    }
    p->size = first.size;
    return status;
}

const char *map_type(struct map *m, const struct part *p) {
    name_stand(m->t, (struct stand){p->entry, (uint32_t)p->column, 0}, m->name);
    return m->name;
}

/* ---- the walk ---- */

static int tell_gap(struct map *m, struct gap g, const struct teller *to) { return g.size && to->gap ? to->gap(m, &g, to->with) : GOOD; }

static int tell_members(struct map *m, const struct part *s, const struct teller *to, int deep) {
    uint64_t end = s->offset;
    struct part p;
    int status = GOOD;
    /* Once the output is bad nobody sees the rest; who closes it says so. */
    for (uint32_t k = 0; !status && k < s->e.count && !ferror(m->out); k++) {
        status = map_enter(m, s, LEPUGASO_MEMBER(k), &p);
        if (!status) status = tell_gap(m, (struct gap){BEFORE_MEMBER, k, end, p.offset - end}, to);
        if (!status && deep) status = map_walk(m, &p, to);
        map_leave(m);
        end = p.offset + p.size;
    }
    if (status || s->size == LEPUGASO_ABSENT) return status;
    return tell_gap(m, (struct gap){AT_END, 0, end, s->offset + s->size - end}, to);
}

int map_gaps(struct map *m, const struct part *of, const struct teller *to) { return tell_members(m, of, to, 0); }

int map_walk(struct map *m, const struct part *p, const struct teller *to) {
    struct pieces of;
    struct part first;
    int array = p->e.kind == ARRAY || p->e.kind == RUNTIME_ARRAY, pieces = array || p->e.kind == MATRIX;
    int status = pieces ? map_pieces(m, p, &of) : GOOD;
    if (!status) status = to->part(m, p, pieces ? &of : NULL, to->with);
    if (!status && p->e.kind == STRUCT) status = tell_members(m, p, to, 1);
    if (!status && array && to->opens(m, p)) {
        status = map_enter(m, p, 0, &first);
        if (!status) status = map_walk(m, &first, to);
        map_leave(m);
    }
    if (!status && pieces) {
        struct gap g = {array ? AFTER_ELEMENTS : AFTER_COLUMNS, of.count, p->offset + of.size, of.every - of.size};
        status = tell_gap(m, g, to);
    }
    return !status && to->over ? to->over(m, p, to->with) : status;
}

/* ---- how much of it is gaps ---- */

/* How many bytes of an entry hold scalars, those of its parts being known. Of a runtime array, which has any number of elements, none. */
static uint64_t scalars_of(const struct map *m, uint32_t entry) {
    struct entry e = entry_at(m->t, entry);
    uint64_t each = e.kind == STRUCT ? 0 : m->scalars[e.reference], all = 0; /* a struct refers to a member */
    switch (e.kind) {
    case VECTOR:
        return e.rows * each;
    case MATRIX:
        return e.columns * e.rows * each;
    case ARRAY:
        return e.count * each;
    case RUNTIME_ARRAY:
        return 0;
    case STRUCT:
        for (uint32_t k = 0; k < e.count; k++) all += m->scalars[member_at(m->t, e.reference + k).type];
        return all;
    default:
        return m->layouts[entry].size;
    }
}

int map_layouts(struct map *m) {
    int status = GOOD;
    for (m->entry = 0; !status && m->entry < m->t->types; m->entry++) {
        struct question q = map_question(m);
        status = refused(lepugaso_layout_of(m->t->file, m->t->len, m->entry, &m->layouts[m->entry]), &q);
        if (!status) m->scalars[m->entry] = scalars_of(m, m->entry);
    }
    return status;
}

int map_totals(struct map *m, const struct part *whole, struct totals *all) {
    struct part array = *whole;
    struct pieces of;
    int status = GOOD, ends = whole->e.kind == STRUCT;
    *all = (struct totals){.open = is_open(m, whole->entry), .bytes = whole->size, .scalars = m->scalars[whole->entry]};
    if (!all->open) return GOOD;
    if (ends) status = map_enter(m, whole, LEPUGASO_MEMBER(whole->e.count - 1), &array);
    if (!status) status = map_pieces(m, &array, &of);
    if (ends) map_leave(m);
    if (status) return status;
    all->bytes = array.offset;
    all->each = of.every;
    all->scalars_of_each = m->scalars[array.e.reference];
    all->most = array.room / of.every;
    return GOOD;
}

static void print_share(FILE *to, uint64_t bytes, uint64_t scalars) {
    uint64_t gaps = bytes - scalars;
    fprintf(to, "%" PRIu64 " of scalars, ", scalars);
    if (gaps)
        fprintf(to, "%" PRIu64 " in gaps, %.1f %%", gaps, 100.0 * (double)gaps / (double)bytes);
    else
        fputs("no gaps", to);
}

void map_print_totals(FILE *to, const struct part *whole, const struct totals *all, const char *between) {
    if (!all->open) fprintf(to, "%" PRIu64 " bytes, ", all->bytes);
    fprintf(to, "align %" PRIu64, whole->align);
    if (all->open && all->bytes) fprintf(to, ", fixed part %" PRIu64 " bytes", all->bytes);
    if (all->bytes) {
        fputs(": ", to);
        print_share(to, all->bytes, all->scalars);
    }
    if (!all->open) return;
    fprintf(to, "%seach element %" PRIu64 " bytes: ", between, all->each);
    print_share(to, all->each, all->scalars_of_each);
}
