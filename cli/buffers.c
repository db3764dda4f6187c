/* What is done with a buffer: read, get, set, bits, clean. */
#include <stdlib.h>
#include <string.h>

#include "cli.h"

void end_job(struct job *j) {
    drop(&j->file);
    drop(&j->buf);
}

int begin_job(struct job *j, const char *file, const char *entry, const char *buffer) {
    memset(j, 0, sizeof *j);
    int status = load_table(file, &j->file, &j->t);
    if (!status) status = parse_entry(entry, &j->entry);
    if (!status && buffer) status = load(buffer, &j->buf);
    if (status) end_job(j);
    j->asked = (struct question){.t = &j->t, .entry = j->entry, .wanted = "layout", .target = "single scalar", .buf_len = j->buf.len};
    return status;
}

/* Whether the entry can be read from the buffer at all. Into no words, a reader refuses by what comes before them, or by their number. */
static int readable(struct job *j) {
    lepugaso_answer none = lepugaso_read(j->t.file, j->t.len, j->entry, j->buf.at, j->buf.len, NULL, 0);
    return none.refusal == LEPUGASO_REFUSED_WORDS ? GOOD : refused(none, &j->asked);
}

/* ---- read and get ---- */

int run_read(int argc, char **argv) {
    if (argc < 2 || argc > 3) return usage("read", "%s", argc < 2 ? "which file and entry?" : "too many arguments");
    struct job j;
    int status = begin_job(&j, argv[0], argv[1], argc > 2 ? argv[2] : "-");
    if (status) return status;
    status = readable(&j);
    if (!status) status = print_scalars(&j.t, j.entry, NULL, 0, j.buf.at, j.buf.len);
    end_job(&j);
    return status;
}

static lepugaso_answer view(struct job *j, const struct path *path, const uint8_t **part, size_t *part_len) {
    return lepugaso_view(j->t.file, j->t.len, j->entry, path->steps, path->len, j->buf.at, j->buf.len, part, part_len);
}

/* A path that leads somewhere in the buffer. */
static int find(struct job *j, const struct path *path) {
    const uint8_t *part;
    size_t part_len;
    j->asked.steps = path->steps;
    j->asked.steps_len = path->len;
    int status = readable(j);
    return status ? status : refused(view(j, path, &part, &part_len), &j->asked);
}

int run_get(int argc, char **argv) {
    if (argc < 3 || argc > 4) return usage("get", "%s", argc < 3 ? "which file, entry and path?" : "too many arguments");
    struct job j;
    struct path path;
    int status = parse_path(argv[2], &path);
    if (status) return status;
    status = begin_job(&j, argv[0], argv[1], argc > 3 ? argv[3] : "-");
    if (!status) {
        status = find(&j, &path);
        if (!status) status = print_scalars(&j.t, j.entry, path.steps, path.len, j.buf.at, j.buf.len);
        end_job(&j);
    }
    free(path.steps);
    return status;
}

/* ---- set ---- */

static int set_scalar(struct job *j, const struct path *path, const char *value, const char *buffer) {
    uint64_t bits = 0;
    uint32_t kind = scalar_at(&j->t, j->entry, path->steps, path->len);
    int status = kind == KINDS ? GOOD : parse_value(value, kind, NULL, &bits);
    if (status) return status;
    uint32_t words[] = {(uint32_t)bits, (uint32_t)(bits >> 32)};
    size_t count = kind != KINDS && kind_width(kind) == 8 ? 2 : 1;
    status = refused(lepugaso_set(j->t.file, j->t.len, j->entry, path->steps, path->len, words, count, j->buf.at, j->buf.len), &j->asked);
    if (status) return status;
    const uint8_t *part;
    size_t part_len;
    lepugaso_answer at = view(j, path, &part, &part_len);
    return overwrite(buffer, at.value, part, part_len);
}

int run_set(int argc, char **argv) {
    if (argc != 5) return usage("set", "%s", argc < 5 ? "which file, entry, path, value and buffer?" : "too many arguments");
    if (!strcmp(argv[4], "-")) return usage("set", "standard input cannot be set in place");
    struct job j;
    struct path path;
    int status = parse_path(argv[2], &path);
    if (status) return status;
    status = begin_job(&j, argv[0], argv[1], argv[4]);
    if (!status) {
        status = find(&j, &path);
        if (!status) status = set_scalar(&j, &path, argv[3], argv[4]);
        end_job(&j);
    }
    free(path.steps);
    return status;
}

/* ---- bits ---- */

static int print_field(uint32_t kind, uint32_t field) {
    char text[VALUE_ROOM];
    print_value(text, kind, field);
    fprintf(cli.out, "%s\n", text);
    return GOOD;
}

/* Which bits, as two arguments. */
static int parse_field(char **argv, uint32_t *offset, uint32_t *count) {
    uint64_t from, many;
    int status = parse_number(argv[0], "an offset", UINT32_MAX, &from);
    if (!status) status = parse_number(argv[1], "a count", UINT32_MAX, &many);
    if (status) return status;
    *offset = (uint32_t)from;
    *count = (uint32_t)many;
    return GOOD;
}

/* A field of a number, which no file goes with. */
static int bits_of_number(uint32_t kind, int argc, char **argv) {
    uint64_t number, value = 0;
    uint32_t offset, count;
    int status = parse_value(argv[0], kind, NULL, &number);
    if (!status) status = parse_field(argv + 1, &offset, &count);
    if (!status && argc > 3) status = parse_value(argv[3], kind, NULL, &value);
    if (status) return status;
    uint32_t e = (uint32_t)number, newbits = (uint32_t)value;
    if (kind == I32)
        return print_field(kind, (uint32_t)(argc > 3 ? lepugaso_insert_bits_i32((int32_t)e, (int32_t)newbits, offset, count)
                                                     : lepugaso_extract_bits_i32((int32_t)e, offset, count)));
    return print_field(kind, argc > 3 ? lepugaso_insert_bits_u32(e, newbits, offset, count) : lepugaso_extract_bits_u32(e, offset, count));
}

static int bits_at_path(struct job *j, const struct path *path, uint32_t offset, uint32_t count, const char *value, const char *buffer) {
    lepugaso_answer field =
        lepugaso_extract_bits(j->t.file, j->t.len, j->entry, path->steps, path->len, j->buf.at, j->buf.len, offset, count);
    j->asked.target = "i32 or u32";
    int status = refused(field, &j->asked);
    if (status) return status;
    uint32_t kind = scalar_at(&j->t, j->entry, path->steps, path->len);
    if (!value) return print_field(kind, (uint32_t)field.value);

    uint64_t newbits;
    status = parse_value(value, kind, NULL, &newbits);
    if (status) return status;
    lepugaso_answer at = lepugaso_insert_bits(j->t.file, j->t.len, j->entry, path->steps, path->len, (uint32_t)newbits, offset, count,
                                              j->buf.at, j->buf.len);
    status = refused(at, &j->asked);
    return status ? status : overwrite(buffer, at.value, j->buf.at + at.value, kind_width(kind));
}

int run_bits(int argc, char **argv) {
    if (argc > 0 && (!strcmp(argv[0], "i32") || !strcmp(argv[0], "u32"))) {
        if (argc < 4 || argc > 5) return usage("bits", "a number's field takes 4 arguments, or 5");
        return bits_of_number(argv[0][0] == 'i' ? I32 : U32, argc - 1, argv + 1);
    }
    if (argc < 6 || argc > 7) return usage("bits", "%s", argc < 6 ? "which file, entry, path, bits and buffer?" : "too many arguments");
    if (argc > 6 && !strcmp(argv[5], "-")) return usage("bits", "standard input cannot be changed in place");
    struct job j;
    struct path path;
    uint32_t offset, count;
    int status = parse_field(argv + 3, &offset, &count);
    if (!status) status = parse_path(argv[2], &path);
    if (status) return status;
    status = begin_job(&j, argv[0], argv[1], argv[5]);
    if (!status) {
        status = find(&j, &path);
        if (!status) status = bits_at_path(&j, &path, offset, count, argc > 6 ? argv[6] : NULL, argv[5]);
        end_job(&j);
    }
    free(path.steps);
    return status;
}

/* ---- clean ---- */

int run_clean(int argc, char **argv) {
    if (argc != 3) return usage("clean", "%s", argc < 3 ? "which file, entry and buffer?" : "too many arguments");
    if (!strcmp(argv[2], "-")) return usage("clean", "standard input cannot be cleaned in place");
    struct job j;
    int status = begin_job(&j, argv[0], argv[1], argv[2]);
    if (status) return status;
    uint64_t first;
    lepugaso_answer changed = lepugaso_clean(j.t.file, j.t.len, j.entry, j.buf.at, j.buf.len, &first);
    status = refused(changed, &j.asked);
    if (!status && changed.value) status = replace(argv[2], j.buf.at, j.buf.len);
    if (!status && changed.value)
        fprintf(cli.out, "%" PRIu64 " bytes changed, the first at %" PRIu64 "\n", changed.value, first);
    else if (!status)
        fprintf(cli.out, "0 bytes changed, none of %" PRIu64 "\n", first);
    end_job(&j);
    return status;
}
