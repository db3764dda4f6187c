/* What the files of the command share. Every number about a layout is an answer of lepugaso.h; what stands here opens files, names types,
 * reads and writes text.
 *
 * Functions that can fail answer a status: 0; 1, refused or a file that cannot be had; 2, wrong usage. Who finds the fault says it, once,
 * on `cli.err`, and everybody above hands the status on. */
#ifndef CLI_H
#define CLI_H

#include <inttypes.h>
#include <stddef.h>
#include <stdint.h>
#include <stdio.h>

#include "lepugaso.h"

enum status { GOOD, FAILED, USAGE };

/* Where the command reads, writes and complains: standard input, output and error, or where a test wants them. */
extern struct streams {
    FILE *in, *out, *err;
} cli;

/* A complaint, one line; answers `FAILED`. */
int fail(const char *format, ...);

/* ---- files.c: bytes from files and to files ---- */

/* Bytes of ours: on the heap, or a file's, mapped so that what we change stays with us. */
struct region {
    uint8_t *at;
    size_t len;
    int mapped;
};

/* The bytes of a file; "-" is standard input. A regular file is mapped and costs no memory until it is looked at. */
int load(const char *path, struct region *bytes);
void drop(struct region *bytes);

/* A file that is there whole or not at all: what is written to `file` goes to another beside it, which takes its place, its owner and its
 * mode when all is there. Two at most, the last opened closed first; an interrupt removes them. */
struct whole_file {
    FILE *file;
    char *path, *beside;
};
int open_whole(const char *path, struct whole_file *to);
int close_whole(struct whole_file *to, int status);

/* Bytes to `cli.out`, with progress; not to a terminal. */
int put_bytes(const uint8_t *bytes, size_t len);
/* A whole file's new bytes, and a few bytes of a file at an offset, in place. */
int replace(const char *path, const uint8_t *bytes, size_t len);
int overwrite(const char *path, uint64_t offset, const uint8_t *bytes, size_t len);

/* On a terminal, and only when the work takes longer than a second: how far it is. */
void progress(const char *what, uint64_t done, uint64_t of);
void progress_over(void);

/* Address space as long as a buffer may be, with no memory behind it: for asking where things would lie. Null, with a complaint, if that
 * cannot be had. */
#define LONGEST UINT32_MAX
const uint8_t *nowhere(void);

/* Removes what stands half written when the command is interrupted. */
void guard_interrupts(void);

/* ---- table.c: the layout file by its entries ---- */

enum kind {
    BOOL, I32, U32, F32, F16, ABSTRACT_INT, ABSTRACT_FLOAT, VECTOR, MATRIX, ARRAY, RUNTIME_ARRAY, ATOMIC, STRUCT, I64, U64, F64, KINDS
};
enum { SIZE_GIVEN = 1, ALIGN_GIVEN = 2, TRAILER_LENGTH = 10, TYPE_LENGTH = 12, MOST_TYPES = 256, MOST_MEMBERS = 1024 };

struct entry {
    uint32_t kind, columns, rows, zero, reference, zeros, count;
};
struct member {
    uint32_t type, flags, size, align, name;
};

/* A layout file whose length is what its trailer says; `members_at` follows the types. */
struct table {
    const uint8_t *file;
    size_t len, members_at;
    uint32_t types, members, start, form, member_length;
};

/* The trailer's numbers, if there are ten bytes; whether the length is what they say. Answers whether it is. */
int read_trailer(const uint8_t *file, size_t len, struct table *t);
struct entry entry_at(const struct table *t, uint32_t number);
struct member member_at(const struct table *t, uint32_t number);

/* The file at `path`, read and accepted by the library; refused, it is said why. */
int load_table(const char *path, struct region *file, struct table *t);
/* An entry number as an argument: any number up to 4,294,967,295, which the library may refuse. */
int parse_entry(const char *text, uint32_t *entry);
/* A whole number as an argument, decimal or 0x and hexadecimal, up to `most`. */
int parse_number(const char *text, const char *what, uint64_t most, uint64_t *number);

/* A type in WGSL's notation; a struct is S and its entry number. */
enum { NAME_ROOM = 8192 };
const char *kind_name(uint32_t kind);
void name_type(const struct table *t, uint32_t entry, char name[NAME_ROOM]);
int is_scalar(uint32_t kind);

/* A path: steps as the library has them. As text `.1[2]`, and `.` for no step. */
struct path {
    uint32_t *steps;
    size_t len;
};
int read_path(const char *text, struct path *path);  /* answers whether it is one; its steps are to be freed then */
int parse_path(const char *text, struct path *path); /* as an argument: what is none is wrong usage */
/* Answers how many characters that took. */
int print_path(FILE *to, const uint32_t *steps, size_t len);

/* What a path leads to: an entry, or a column of a matrix's. `stopped` is how many steps were taken: fewer than there are if one is bad. */
struct stand {
    uint32_t entry, column, stopped;
};
struct stand follow(const struct table *t, uint32_t entry, const uint32_t *steps, size_t len);
void name_stand(const struct table *t, struct stand at, char name[NAME_ROOM]);

/* ---- refuse.c: refusals in words ---- */

/* What was asked, as far as a refusal of it can name it. */
struct question {
    const struct table *t; /* a file that was accepted, or null */
    const uint8_t *file;   /* any file */
    size_t file_len;
    const char *wanted; /* what a type may lack: "layout", "members" */
    const char *target; /* what a path has to lead to: "single scalar", "i32 or u32" */
    uint32_t entry, to; /* `to`: of a rank */
    const uint32_t *steps;
    size_t steps_len, words, values, buf_len, other_len;
    const uint32_t *list; /* an order, or entries */
    size_t list_len;
    uint32_t from, kind; /* of a literal, and what it is converted to */
    uint32_t form;       /* that a file is moved to */
    uint32_t member;     /* of a block, if `block` is set, with its mask */
    int block;
    uint64_t mask;
    const char *value;
};

/* Says a refusal on `cli.err` and answers `FAILED`; answers `GOOD` if it is none. */
int refused(lepugaso_answer answer, const struct question *q);

/* explain.c: why a file is refused, if that is what was. Answers whether it was. */
int explain_file(lepugaso_answer answer, const struct question *q);

/* ---- values.c: scalars as text ---- */

uint32_t kind_width(uint32_t kind); /* in bytes */
/* The value so that it reads back the same; `bits` at the low end. */
enum { VALUE_ROOM = 64 };
void print_value(char text[VALUE_ROOM], uint32_t kind, uint64_t bits);
/* A value as text, converted as WGSL converts the literal; says what is wrong with it, after `where` if that is not null. */
int parse_value(const char *text, uint32_t kind, const char *where, uint64_t *bits);

/* ---- scalars.c: the scalars of an entry, one after the other ---- */

/* A walk over the scalars of what a path leads to. `each` is handed a scalar's entry, or an atomic's, with its path in `steps`; a status
 * other than 0 ends the walk. `more` tells whether the runtime array at the path has an element of that number. */
struct walk {
    const struct table *t;
    uint32_t steps[MOST_TYPES + 4];
    size_t depth;
    int (*more)(struct walk *w, uint32_t element);
    int (*each)(struct walk *w, uint32_t scalar);
    void *with;
};
int walk_entry(struct walk *w, uint32_t entry);
int walk_stand(struct walk *w, struct stand at);
/* The kind of a scalar's entry, or of what an atomic's refers to. */
uint32_t scalar_kind(const struct table *t, uint32_t scalar);
/* The kind of the one scalar, or atomic, that a good path leads to; `KINDS` if it leads to something else. */
uint32_t scalar_at(const struct table *t, uint32_t entry, const uint32_t *steps, size_t len);
/* A line for each scalar of what a good path leads to in a buffer: offset, path, type, value, bits. */
int print_scalars(const struct table *t, uint32_t entry, const uint32_t *steps, size_t len, const uint8_t *buf, size_t buf_len);
/* How many scalars an entry has, an element of a runtime array counted apart. */
struct scalar_count {
    uint64_t fixed, each;
};
struct scalar_count count_scalars(const struct table *t, uint32_t entry);

/* ---- buffers.c: a file, an entry of it and a buffer, as the first arguments of most commands say ---- */

struct job {
    struct region file, buf;
    struct table t;
    uint32_t entry;
    struct question asked;
};
int begin_job(struct job *j, const char *file, const char *entry, const char *buffer);
void end_job(struct job *j);

/* ---- the commands, by their files; each has the arguments after its name ---- */

struct command {
    const char *name, *usage, *help; /* a line of `usage` for each way to call it */
    int (*run)(int argc, char **argv);
};
extern const struct command commands[];
/* Wrong usage of a command, or without one of that which runs: says what is wrong and the lines that show the right one. */
int usage(const char *command, const char *format, ...);

int run_check(int argc, char **argv);   /* asks.c */
int run_list(int argc, char **argv);
int run_uniform(int argc, char **argv);
int run_order(int argc, char **argv);
int run_form(int argc, char **argv);
int run_convert(int argc, char **argv);
int run_rank(int argc, char **argv);
int run_common(int argc, char **argv);
int run_map(int argc, char **argv);     /* map.c */
int run_read(int argc, char **argv);    /* buffers.c */
int run_write(int argc, char **argv);   /* write.c */
int run_get(int argc, char **argv);
int run_set(int argc, char **argv);
int run_bits(int argc, char **argv);
int run_clean(int argc, char **argv);
int run_site(int argc, char **argv);    /* site.c */
int run_pack(int argc, char **argv);    /* pack.c */
int run_unpack(int argc, char **argv);

/* All of it: as main, but for the streams. */
int lepugaso_command(int argc, char **argv);

#endif
