/* The scalars of an entry, one after the other, in the order of their words. Recursion goes down the entries, whose numbers fall. */
#include <string.h>

#include "cli.h"

static int walk_elements(struct walk *w, uint32_t entry, uint32_t count, int open) {
    int status = GOOD;
    for (uint32_t k = 0; !status && (open ? w->more(w, k) : k < count); k++) {
        w->steps[w->depth++] = k;
        status = walk_entry(w, entry);
        w->depth--;
    }
    return status;
}

int walk_entry(struct walk *w, uint32_t entry) {
    struct entry e = entry_at(w->t, entry);
    int status = GOOD;
    switch (e.kind) {
    case VECTOR:
        return walk_elements(w, e.reference, e.rows, 0);
    case MATRIX:
        for (uint32_t k = 0; !status && k < e.columns; k++) {
            w->steps[w->depth++] = k;
            status = walk_elements(w, e.reference, e.rows, 0);
            w->depth--;
        }
        return status;
    case ARRAY:
        return walk_elements(w, e.reference, e.count, 0);
    case RUNTIME_ARRAY:
        return walk_elements(w, e.reference, 0, 1);
    case STRUCT:
        for (uint32_t k = 0; !status && k < e.count; k++) {
            w->steps[w->depth++] = LEPUGASO_MEMBER(k);
            status = walk_entry(w, member_at(w->t, e.reference + k).type);
            w->depth--;
        }
        return status;
    default:
        return w->each(w, entry);
    }
}

int walk_stand(struct walk *w, struct stand at) {
    struct entry e = entry_at(w->t, at.entry);
    return at.column ? walk_elements(w, e.reference, e.rows, 0) : walk_entry(w, at.entry);
}

uint32_t scalar_kind(const struct table *t, uint32_t scalar) {
    struct entry e = entry_at(t, scalar);
    return e.kind == ATOMIC ? entry_at(t, e.reference).kind : e.kind;
}

struct scalar_count count_scalars(const struct table *t, uint32_t entry) {
    /* Upward from entry 0: an entry is made of lower ones. An open type is no part of another but of a struct that ends in it. */
    struct scalar_count counts[MOST_TYPES];
    for (uint32_t k = 0; k <= entry; k++) {
        struct entry e = entry_at(t, k);
        struct scalar_count *c = &counts[k];
        *c = (struct scalar_count){1, 0};
        if (e.kind == VECTOR) c->fixed = e.rows;
        if (e.kind == MATRIX) c->fixed = (uint64_t)e.columns * e.rows;
        if (e.kind == ARRAY) c->fixed = e.count * counts[e.reference].fixed;
        if (e.kind == RUNTIME_ARRAY) *c = (struct scalar_count){0, counts[e.reference].fixed};
        if (e.kind == STRUCT) c->fixed = 0;
        for (uint32_t m = 0; e.kind == STRUCT && m < e.count; m++) {
            struct scalar_count *of = &counts[member_at(t, e.reference + m).type];
            c->fixed += of->fixed;
            c->each = of->each;
        }
    }
    return counts[entry];
}

uint32_t scalar_at(const struct table *t, uint32_t entry, const uint32_t *steps, size_t len) {
    struct stand at = follow(t, entry, steps, len);
    uint32_t kind = entry_at(t, at.entry).kind;
    return !at.column && (kind == ATOMIC || is_scalar(kind)) ? scalar_kind(t, at.entry) : (uint32_t)KINDS;
}

/* ---- as lines ---- */

struct printing {
    uint32_t entry;
    const uint8_t *buf;
    size_t buf_len;
};

static lepugaso_answer view(struct walk *w, size_t depth, const uint8_t **part, size_t *part_len) {
    const struct printing *p = w->with;
    return lepugaso_view(w->t->file, w->t->len, p->entry, w->steps, depth, p->buf, p->buf_len, part, part_len);
}

static int buffer_has(struct walk *w, uint32_t element) {
    const uint8_t *part;
    size_t part_len;
    w->steps[w->depth] = element;
    return !view(w, w->depth + 1, &part, &part_len).refusal;
}

static int print_scalar(struct walk *w, uint32_t scalar) {
    const struct printing *p = w->with;
    const uint8_t *part;
    size_t part_len;
    uint32_t words[2] = {0, 0}, kind = scalar_kind(w->t, scalar);
    char type[NAME_ROOM], value[VALUE_ROOM];
    lepugaso_answer at = view(w, w->depth, &part, &part_len);
    lepugaso_answer read = lepugaso_read(w->t->file, w->t->len, scalar, part, part_len, words, 2);
    int status = refused(at.refusal ? at : read, &(struct question){.t = w->t, .entry = at.refusal ? p->entry : scalar});
    if (status) return status;
    uint64_t bits = words[0] | (uint64_t)words[1] << 32;
    name_type(w->t, scalar, type);
    print_value(value, kind, bits);
    fprintf(cli.out, "%8" PRIu64 "  ", at.value);
    int taken = print_path(cli.out, w->steps, w->depth);
    fprintf(cli.out, "%*s  %-4s  %-12s  0x%0*" PRIx64 "\n", taken < 10 ? 10 - taken : 0, "", type, value, 2 * (int)kind_width(kind), bits);
    progress("reading", at.value, p->buf_len);
    return ferror(cli.out) ? fail("the output cannot be written") : GOOD;
}

int print_scalars(const struct table *t, uint32_t entry, const uint32_t *steps, size_t len, const uint8_t *buf, size_t buf_len) {
    struct printing p = {entry, buf, buf_len};
    struct walk w = {.t = t, .more = buffer_has, .each = print_scalar, .with = &p};
    if (len) memcpy(w.steps, steps, len * sizeof *steps);
    w.depth = len;
    int status = walk_stand(&w, follow(t, entry, steps, len));
    progress_over();
    return status;
}
