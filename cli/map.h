/* What the three forms of a map share: the mapped entry and the path at which a walk stands. Every offset and size is the library's, of a
 * view with the whole path from the mapped entry or of an entry's layout; the rest is differences between such numbers, and counts. */
#ifndef MAP_H
#define MAP_H

#include "cli.h"

struct map {
    const struct table *t;
    const uint8_t *space;
    FILE *out;
    lepugaso_layout layouts[MOST_TYPES];
    uint64_t scalars[MOST_TYPES];        /* how many bytes of an entry hold scalars */
    uint32_t entries[MOST_TYPES], count; /* those to be mapped */
    uint32_t entry;                      /* the one that is */
    uint32_t steps[MOST_TYPES + 4];
    size_t depth;
    char name[NAME_ROOM];
};

/* What the path leads to. An open type has no size, LEPUGASO_ABSENT, and `room` in the longest buffer. The align of a member is the given
 * one, if there is one. */
struct part {
    uint32_t entry;
    struct entry e;
    int column;       /* a matrix's, whose entry is the matrix's */
    int is_member;    /* of a struct: */
    uint32_t number;  /* its number, from 0 */
    struct member as; /* as the file has it */
    uint64_t offset, size, room, align;
};

/* The equal pieces that an array, matrix, column or vector is made of. A runtime array has LEPUGASO_ABSENT of them. */
struct pieces {
    uint64_t count, size, every; /* `every` so many bytes one begins */
};

/* Bytes that hold no scalar: before a member, after the last, or the first of those after each of `number` elements or columns. */
struct gap {
    enum { BEFORE_MEMBER, AT_END, AFTER_ELEMENTS, AFTER_COLUMNS } where;
    uint64_t number; /* of the member, or how many pieces */
    uint64_t offset, size;
};

/* How many bytes a mapped entry has and how many of them hold scalars; the others are gaps. Of an open one that is of what stands before
 * its runtime array, and beside it of each element, the gap after it included; the longest buffer has `most` of them. */
struct totals {
    int open;
    uint64_t bytes, scalars, each, scalars_of_each, most;
};

/* ---- map_walk.c ---- */

/* The layouts of all entries, and their scalars' bytes. */
int map_layouts(struct map *m);
/* What is asked of the library, for a refusal. */
struct question map_question(const struct map *m);
/* Turns to an entry, with an empty path. `*why` is null, or says why that has no map. */
int map_turn(struct map *m, uint32_t entry, struct part *whole, const char **why);
/* A step further, from `of`, and the same step back, which is due when that is refused too. */
int map_enter(struct map *m, const struct part *of, uint32_t step, struct part *p);
void map_leave(struct map *m);
int map_pieces(struct map *m, const struct part *of, struct pieces *p);
int map_totals(struct map *m, const struct part *whole, struct totals *all);

/* Who is told of the parts of an entry, from the mapped one down: of a part, with its pieces if it is an array or a matrix; of those that
 * it is made of; that it is over. Of an array element 0 is told, if `opens` wants it. Gaps are told where they lie. What is null is not. */
struct teller {
    int (*part)(struct map *m, const struct part *p, const struct pieces *of, void *with);
    int (*gap)(struct map *m, const struct gap *g, void *with);
    int (*over)(struct map *m, const struct part *p, void *with);
    int (*opens)(struct map *m, const struct part *p);
    void *with;
};
int map_walk(struct map *m, const struct part *p, const struct teller *to);
/* Of the gaps of a struct alone, and not of those in its members. */
int map_gaps(struct map *m, const struct part *of, const struct teller *to);

/* The type of a part, in `m->name`. */
const char *map_type(struct map *m, const struct part *p);
/* How many bytes hold scalars and how many are gaps; of an open type, `between` what is fixed and an element. */
void map_print_totals(FILE *to, const struct part *whole, const struct totals *all, const char *between);

/* ---- map_rows.c: the bytes of an entry in rows ---- */

enum { ROW = 16, ALL_ROWS = 64, MOST_ROWS = 512, MOST_STRIPS = 2 * MOST_ROWS + 1 };

/* A way from the mapped entry down to what holds a byte: the entry itself, and what each step of the map's path leads to. */
struct finder {
    struct map *m;
    uint64_t extent; /* how many bytes are drawn at most: of an open type two elements, or one if the longest buffer has no more */
    struct part parts[MOST_TYPES + 4];
    struct pieces pieces[MOST_TYPES + 4];
};
int map_find_in(struct finder *f, struct map *m, const struct part *whole, const struct totals *all);

/* The scalar or the gap that holds a byte. The path is the scalar's then, or that of what stands before the gap. */
struct span {
    uint64_t from, to;
    int gap;
};
int map_find(struct finder *f, uint64_t byte, struct span *s);

/* The rows from top to bottom: one that is drawn, or as many as are left out in one place. */
struct strip {
    uint64_t from, to;
    int left_out;
};
int map_strips(struct finder *f, struct strip strips[MOST_STRIPS], size_t *count);

/* ---- the forms: each writes all that is to be mapped ---- */

int map_text(struct map *m); /* map.c */
int map_json(struct map *m); /* map_json.c */
int map_svg(struct map *m);  /* map_svg.c */

#endif
