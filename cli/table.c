/* The layout file by its entries, types by their names, paths as text. Nothing here knows a size or an offset. */
#include <errno.h>
#include <stdlib.h>
#include <string.h>

#include "cli.h"

/* ---- entries ---- */

static uint32_t le16(const uint8_t *at) { return at[0] | (uint32_t)at[1] << 8; }
static uint32_t le32(const uint8_t *at) { return le16(at) | le16(at + 2) << 16; }

int read_trailer(const uint8_t *file, size_t len, struct table *t) {
    memset(t, 0, sizeof *t);
    t->file = file;
    t->len = len;
    if (len < TRAILER_LENGTH) return 0;
    const uint8_t *trailer = file + len - TRAILER_LENGTH;
    t->types = le16(trailer);
    t->members = le16(trailer + 2);
    t->start = le32(trailer + 4);
    t->form = le16(trailer + 8);
    t->member_length = t->form == 2 ? 16 : 12;
    t->members_at = (size_t)t->start + (size_t)TYPE_LENGTH * t->types;
    return len == (uint64_t)t->start + (uint64_t)TYPE_LENGTH * t->types + (uint64_t)t->member_length * t->members + TRAILER_LENGTH;
}

struct entry entry_at(const struct table *t, uint32_t number) {
    const uint8_t *at = t->file + t->start + (size_t)TYPE_LENGTH * number;
    return (struct entry){at[0], at[1], at[2], at[3], le16(at + 4), le16(at + 6), le32(at + 8)};
}

struct member member_at(const struct table *t, uint32_t number) {
    const uint8_t *at = t->file + t->members_at + (size_t)t->member_length * number;
    return (struct member){le16(at), le16(at + 2), le32(at + 4), le32(at + 8), t->member_length == 16 ? le32(at + 12) : 0};
}

int load_table(const char *path, struct region *file, struct table *t) {
    int status = load(path, file);
    if (status) return status;
    status = refused(lepugaso_check(file->at, file->len), &(struct question){.file = file->at, .file_len = file->len});
    if (status)
        drop(file);
    else
        read_trailer(file->at, file->len, t);
    return status;
}

/* ---- numbers ---- */

int parse_number(const char *text, const char *what, uint64_t most, uint64_t *number) {
    int hexadecimal = text[0] == '0' && (text[1] == 'x' || text[1] == 'X');
    const char *digits = hexadecimal ? text + 2 : text;
    char *end;
    errno = 0;
    *number = strtoull(digits, &end, hexadecimal ? 16 : 10);
    if (!*digits || *end || digits[0] == '+' || digits[0] == '-' || digits[0] <= ' ')
        return usage(NULL, "%s is no number for %s", text, what);
    if (errno || *number > most) return usage(NULL, "%s is too large for %s, which is at most %" PRIu64, text, what, most);
    return GOOD;
}

int parse_entry(const char *text, uint32_t *entry) {
    uint64_t number;
    int status = parse_number(text, "an entry", UINT32_MAX, &number);
    *entry = (uint32_t)number;
    return status;
}

/* ---- names ---- */

const char *kind_name(uint32_t kind) {
    static const char *const names[KINDS] = {
        "bool",          "i32",    "u32",    "f32", "f16", "abstract-int", "abstract-float", "vector", "matrix", "array",
        "runtime-array", "atomic", "struct", "i64", "u64", "f64",
    };
    return kind < KINDS ? names[kind] : "no kind";
}

/* The same of a scalar, as WGSL writes it. */
static const char *wgsl_name(uint32_t kind) {
    return kind == ABSTRACT_INT ? "AbstractInt" : kind == ABSTRACT_FLOAT ? "AbstractFloat" : kind_name(kind);
}

int is_scalar(uint32_t kind) { return kind < VECTOR || (kind > STRUCT && kind < KINDS); }

void name_type(const struct table *t, uint32_t entry, char name[NAME_ROOM]) {
    /* From the outside in: what stands before the scalar, then, from the end of `behind` on, what closes it. */
    char behind[NAME_ROOM / 2], part[32];
    size_t at = 0, from = sizeof behind;
    for (;;) {
        struct entry e = entry_at(t, entry);
        part[0] = '\0';
        switch (e.kind) {
        case VECTOR:
            at += (size_t)sprintf(name + at, "vec%" PRIu32 "<", e.rows);
            break;
        case MATRIX:
            at += (size_t)sprintf(name + at, "mat%" PRIu32 "x%" PRIu32 "<", e.columns, e.rows);
            break;
        case ARRAY:
            sprintf(part, ", %" PRIu32, e.count);
            /* fall through */
        case RUNTIME_ARRAY:
            at += (size_t)sprintf(name + at, "array<");
            break;
        case ATOMIC:
            at += (size_t)sprintf(name + at, "atomic<");
            break;
        default:
            if (e.kind == STRUCT)
                at += (size_t)sprintf(name + at, "S%" PRIu32, entry);
            else
                at += (size_t)sprintf(name + at, "%s", wgsl_name(e.kind));
            memcpy(name + at, behind + from, sizeof behind - from);
            name[at + sizeof behind - from] = '\0';
            return;
        }
        strcat(part, ">");
        from -= strlen(part);
        memcpy(behind + from, part, strlen(part));
        entry = e.reference;
    }
}

/* ---- paths ---- */

int read_path(const char *text, struct path *path) {
    const char *at = text;
    path->len = 0;
    path->steps = malloc((strlen(text) + 1) * sizeof *path->steps);
    if (!path->steps) return 0;
    while (strcmp(text, ".") && (*at == '.' || *at == '[')) {
        char *end;
        int member = *at == '.';
        unsigned long long number = at[1] >= '0' && at[1] <= '9' ? strtoull(at + 1, &end, 10) : UINT64_MAX;
        if (number > 0x7FFFFFFF || (!member && *end != ']')) break;
        path->steps[path->len++] = member ? LEPUGASO_MEMBER(number) : (uint32_t)number;
        at = member ? end : end + 1;
    }
    if (!strcmp(text, ".") || (*text && !*at)) return 1;
    free(path->steps);
    path->steps = NULL;
    return 0;
}

int parse_path(const char *text, struct path *path) {
    return read_path(text, path) ? GOOD : usage(NULL, "%s is no path: .1[2] is member 1, then index 2, and . the entry itself", text);
}

int print_path(FILE *to, const uint32_t *steps, size_t len) {
    int taken = 0;
    for (size_t k = 0; k < len; k++) taken += fprintf(to, steps[k] >> 31 ? ".%" PRIu32 : "[%" PRIu32 "]", steps[k] & 0x7FFFFFFF);
    return len ? taken : fprintf(to, ".");
}

struct stand follow(const struct table *t, uint32_t entry, const uint32_t *steps, size_t len) {
    struct stand at = {entry, 0, 0};
    for (; at.stopped < len; at.stopped++) {
        struct entry e = entry_at(t, at.entry);
        uint32_t member = steps[at.stopped] >> 31, number = steps[at.stopped] & 0x7FFFFFFF;
        if (member != (e.kind == STRUCT)) return at;
        if (e.kind == STRUCT) {
            if (number >= e.count) return at;
            at.entry = member_at(t, e.reference + number).type;
        } else if (e.kind == MATRIX && !at.column) {
            if (number >= e.columns) return at;
            at.column = 1;
        } else if (e.kind == VECTOR || e.kind == MATRIX) {
            if (number >= e.rows) return at;
            at = (struct stand){e.reference, 0, at.stopped};
        } else if (e.kind == ARRAY || e.kind == RUNTIME_ARRAY) {
            if (e.kind == ARRAY && number >= e.count) return at;
            at.entry = e.reference;
        } else {
            return at;
        }
    }
    return at;
}

void name_stand(const struct table *t, struct stand at, char name[NAME_ROOM]) {
    if (!at.column) {
        name_type(t, at.entry, name);
        return;
    }
    struct entry e = entry_at(t, at.entry);
    sprintf(name, "vec%" PRIu32 "<%s>", e.rows, wgsl_name(entry_at(t, e.reference).kind));
}
