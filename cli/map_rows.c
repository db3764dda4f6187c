/* The bytes of a mapped entry in rows: what holds a byte, and which rows are drawn. However large the entry is, what is kept is one way
 * down from it. */
#include "map.h"

/* ---- what holds a byte ---- */

static int is_scalar_part(const struct part *p) { return !p->column && (is_scalar(p->e.kind) || p->e.kind == ATOMIC); }

/* A step further down the way. What is open ends with the last element that is drawn. */
static int step_in(struct finder *f, uint32_t step) {
    struct part *of = &f->parts[f->m->depth], *p = of + 1;
    int status = map_enter(f->m, of, step, p);
    if (p->size == LEPUGASO_ABSENT) p->size = f->extent - p->offset;
    if (!status && p->e.kind != STRUCT && !is_scalar_part(p)) status = map_pieces(f->m, p, &f->pieces[f->m->depth]);
    return status;
}

static int member_start(struct finder *f, uint32_t number, uint64_t *start) {
    struct part p;
    int status = map_enter(f->m, &f->parts[f->m->depth], LEPUGASO_MEMBER(number), &p);
    map_leave(f->m);
    *start = p.offset;
    return status;
}

/* Into the last member of a struct that begins at or before the byte, of which there is one: the first begins where the struct does.
 * `*next` is where the next begins. */
static int step_in_struct(struct finder *f, uint64_t byte, uint64_t *next) {
    const struct part *s = &f->parts[f->m->depth];
    uint32_t low = 0, high = s->e.count;
    *next = s->offset + s->size;
    while (high - low > 1) {
        uint64_t start;
        uint32_t middle = low + (high - low) / 2;
        int status = member_start(f, middle, &start);
        if (status) return status;
        if (start <= byte) {
            low = middle;
        } else {
            high = middle;
            *next = start;
        }
    }
    return step_in(f, LEPUGASO_MEMBER(low));
}

static int step_in_pieces(struct finder *f, uint64_t byte, uint64_t *next) {
    const struct part *of = &f->parts[f->m->depth];
    uint64_t every = f->pieces[f->m->depth].every, number = (byte - of->offset) / every;
    *next = of->offset + (number + 1) * every;
    return step_in(f, (uint32_t)number);
}

int map_find_in(struct finder *f, struct map *m, const struct part *whole, const struct totals *all) {
    struct part *p = &f->parts[0];
    f->m = m;
    f->extent = all->bytes + all->each * (all->most < 2 ? all->most : 2);
    *p = *whole;
    p->size = f->extent;
    return p->e.kind == STRUCT || is_scalar_part(p) ? GOOD : map_pieces(m, p, &f->pieces[0]);
}

int map_find(struct finder *f, uint64_t byte, struct span *s) {
    struct map *m = f->m;
    /* What holds the byte before holds this one too, from some step up. */
    for (; m->depth; m->depth--) {
        const struct part *p = &f->parts[m->depth];
        if (p->offset <= byte && byte - p->offset < p->size) break;
    }
    for (;;) {
        const struct part *p = &f->parts[m->depth];
        uint64_t next;
        *s = (struct span){p->offset, p->offset + p->size, 0};
        if (is_scalar_part(p)) return GOOD;
        int status = p->e.kind == STRUCT ? step_in_struct(f, byte, &next) : step_in_pieces(f, byte, &next);
        if (status) return status;
        p++;
        *s = (struct span){p->offset + p->size, next, 1};
        if (byte >= s->from) return GOOD;
    }
}

/* ---- which rows are drawn ---- */

/* Of the elements of a long array: all but the first two and the last. */
static int is_left_out(const struct part *of, uint32_t index) {
    return of->e.kind == ARRAY && of->e.count > 4 && index > 1 && index < of->e.count - 1;
}

/* The first byte from this one on that is in no element that is left out. */
static int next_drawn(struct finder *f, uint64_t *byte) {
    struct span s;
    struct map *m = f->m;
    int status = map_find(f, *byte, &s);
    for (size_t k = 0; !status && k < m->depth; k++) {
        if (!is_left_out(&f->parts[k], m->steps[k])) continue;
        m->depth = k;
        status = step_in(f, f->parts[k].e.count - 1);
        *byte = f->parts[k + 1].offset;
        break;
    }
    return status;
}

int map_strips(struct finder *f, struct strip strips[MOST_STRIPS], size_t *count) {
    int all = f->extent <= (uint64_t)ALL_ROWS * ROW, drawn = 0;
    *count = 0;
    for (uint64_t from = 0, to; from < f->extent; from = to) {
        uint64_t next = from;
        int status = all || drawn == MOST_ROWS ? GOOD : next_drawn(f, &next);
        if (status) return status;
        next -= next % ROW;
        int left_out = next > from || drawn == MOST_ROWS;
        to = drawn == MOST_ROWS ? f->extent : left_out ? next : from + ROW;
        if (to > f->extent) to = f->extent;
        drawn += !left_out;
        strips[(*count)++] = (struct strip){from, to, left_out};
    }
    return GOOD;
}
