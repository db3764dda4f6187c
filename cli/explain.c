/* Why a layout file is refused, in words: 1 to 7, 20 and 24. The library has said that it is, and at which entry; here the first thing is
 * looked for that breaks a rule of that entry. What entries below it are like, which are good, the library answers over a file of those
 * alone. */
#include <stdlib.h>
#include <string.h>

#include "cli.h"

static void say_number(const char *format, uint64_t number) { fprintf(cli.err, format, number); }

/* ---- the entries below one ---- */

/* A file of the first `types` entries and of the members that they name. */
static int file_below(const struct table *t, uint32_t types, struct region *file) {
    uint8_t named[65536] = {0};
    uint32_t moved[65537] = {0};
    for (uint32_t k = 0; k < types; k++) {
        struct entry e = entry_at(t, k);
        for (uint32_t m = 0; e.kind == STRUCT && m < e.count; m++) named[e.reference + m] = 1;
    }
    for (uint32_t m = 0; m < t->members; m++) moved[m + 1] = moved[m] + named[m];
    file->len = (size_t)TYPE_LENGTH * types + (size_t)t->member_length * moved[t->members] + TRAILER_LENGTH;
    file->at = malloc(file->len);
    file->mapped = 0;
    if (!file->at) return 0;
    uint8_t *to = file->at;
    memcpy(to, t->file + t->start, (size_t)TYPE_LENGTH * types);
    for (uint32_t k = 0; k < types; k++, to += TYPE_LENGTH) {
        struct entry e = entry_at(t, k);
        if (e.kind != STRUCT) continue;
        to[4] = (uint8_t)moved[e.reference];
        to[5] = (uint8_t)(moved[e.reference] >> 8);
    }
    for (uint32_t m = 0; m < t->members; m++) {
        if (!named[m]) continue;
        memcpy(to, t->file + t->members_at + (size_t)t->member_length * m, t->member_length);
        to += t->member_length;
    }
    const uint8_t trailer[] = {types & 255, types >> 8, moved[t->members] & 255, moved[t->members] >> 8, 0, 0, 0, 0, t->form, 0};
    memcpy(to, trailer, sizeof trailer);
    return 1;
}

/* The numbers of an entry below another, by the library; all absent where they cannot be had. */
static lepugaso_layout layout_below(const struct table *t, uint32_t types, uint32_t entry) {
    lepugaso_layout of = {LEPUGASO_ABSENT, LEPUGASO_ABSENT, LEPUGASO_ABSENT, LEPUGASO_ABSENT};
    struct region file;
    if (!file_below(t, types, &file)) return of;
    lepugaso_layout_of(file.at, file.len, entry, &of);
    drop(&file);
    return of;
}

/* ---- refusal 5 ---- */

/* The first field that a kind does not use and that is not zero. */
static const char *unused_field(struct entry e) {
    int rows = e.kind == VECTOR || e.kind == MATRIX, columns = e.kind == MATRIX;
    int count = e.kind == ARRAY || e.kind == STRUCT;
    if (!columns && e.columns) return "columns";
    if (!rows && e.rows) return "rows";
    if (e.zero || e.zeros) return "a zero field";
    if (is_scalar(e.kind) && e.reference) return "reference";
    if (!count && e.count) return "count";
    return NULL;
}

static int may_refer(uint32_t kind, uint32_t to) {
    if (kind == VECTOR) return is_scalar(to);
    if (kind == MATRIX) return to == F32 || to == F16 || to == ABSTRACT_FLOAT;
    return kind != ATOMIC || to == I32 || to == U32;
}

static void say_member_rule(const struct table *t, uint32_t entry, struct entry e) {
    for (uint32_t k = 0; k < e.count; k++) {
        struct member m = member_at(t, e.reference + k);
        if (m.type >= entry) {
            fprintf(cli.err, "its member %" PRIu32 " is of entry %" PRIu32 ", which is not below it", k, m.type);
            return;
        }
        if (m.flags & ~(uint32_t)(SIZE_GIVEN | ALIGN_GIVEN)) {
            fprintf(cli.err, "its member %" PRIu32 " has flags %" PRIu32 ", and there are 1 and 2", k, m.flags);
            return;
        }
        if ((!(m.flags & SIZE_GIVEN) && m.size) || (!(m.flags & ALIGN_GIVEN) && m.align)) {
            fprintf(cli.err, "its member %" PRIu32 " has a size or an align that its flags do not give", k);
            return;
        }
        lepugaso_layout of = layout_below(t, entry, m.type);
        int last = k + 1 == e.count && entry_at(t, m.type).kind == RUNTIME_ARRAY;
        if (!last && (of.size == LEPUGASO_ABSENT || of.align == LEPUGASO_ABSENT)) {
            fprintf(cli.err, "its member %" PRIu32 " is of entry %" PRIu32 ", which has no size or no alignment", k, m.type);
            return;
        }
    }
    fprintf(cli.err, "a rule for its members is broken");
}

static void say_rule(const struct table *t, uint32_t entry) {
    struct entry e = entry_at(t, entry);
    const char *field = e.kind < KINDS ? unused_field(e) : NULL;
    int in_rows = e.rows >= 2 && e.rows <= 4, in_columns = e.columns >= 2 && e.columns <= 4;
    if (e.kind >= KINDS)
        fprintf(cli.err, "there is no kind %" PRIu32, e.kind);
    else if (field)
        fprintf(cli.err, "%s is not 0, and a type of kind %s does not use it", field, kind_name(e.kind));
    else if ((e.kind == VECTOR && !in_rows) || (e.kind == MATRIX && (!in_rows || !in_columns)))
        fprintf(cli.err, "it has 2 to 4 rows%s", e.kind == MATRIX ? " and 2 to 4 columns" : "");
    else if (e.kind != STRUCT && e.reference >= entry)
        fprintf(cli.err, "it refers to entry %" PRIu32 ", which is not below it", e.reference);
    else if (e.kind == STRUCT && (!e.count || e.count > MOST_MEMBERS))
        fprintf(cli.err, "a struct has 1 to 1,024 members");
    else if (e.kind == STRUCT && (uint64_t)e.reference + e.count > t->members)
        fprintf(cli.err, "its members would be %" PRIu32 " to %" PRIu64 ", and the file has %" PRIu32, e.reference,
                (uint64_t)e.reference + e.count - 1, t->members);
    else if (e.kind == STRUCT)
        say_member_rule(t, entry, e);
    else if (!may_refer(e.kind, entry_at(t, e.reference).kind))
        fprintf(cli.err, "a %s of entry %" PRIu32 ", which is of kind %s", kind_name(e.kind), e.reference,
                kind_name(entry_at(t, e.reference).kind));
    else if (e.kind == ARRAY && !e.count)
        fprintf(cli.err, "an array has 1 element at least");
    else
        fprintf(cli.err, "its element, entry %" PRIu32 ", is open or has no size or alignment", e.reference);
}

/* ---- refusal 6 ---- */

static void say_given(const struct table *t, uint32_t entry) {
    struct entry e = entry_at(t, entry);
    for (uint32_t k = 0; e.kind == STRUCT && k < e.count; k++) {
        struct member m = member_at(t, e.reference + k);
        lepugaso_layout of = layout_below(t, entry, m.type);
        if (m.flags & SIZE_GIVEN && entry_at(t, m.type).kind == RUNTIME_ARRAY) {
            fprintf(cli.err, "its member %" PRIu32 " is a runtime array, and takes no size", k);
            return;
        }
        if (m.flags & SIZE_GIVEN && m.size < of.size) {
            fprintf(cli.err, "its member %" PRIu32 " has size %" PRIu32 ", and its type takes %" PRIu64, k, m.size, of.size);
            return;
        }
        if (m.flags & ALIGN_GIVEN && (!m.align || m.align & (m.align - 1))) {
            fprintf(cli.err, "its member %" PRIu32 " has align %" PRIu32 ", which is no power of two", k, m.align);
            return;
        }
        if (m.flags & ALIGN_GIVEN && m.align % of.align) {
            fprintf(cli.err, "its member %" PRIu32 " has align %" PRIu32 ", and its type is aligned to %" PRIu64, k, m.align, of.align);
            return;
        }
    }
    fprintf(cli.err, "a given size or align does not suit its type");
}

/* ---- all of them ---- */

static void say_form(const struct table *t, uint32_t to) {
    say_number("the file has form %" PRIu64, t->form);
    if (to && t->form == to)
        fprintf(cli.err, " already");
    else
        fprintf(cli.err, ", and there are 1 and 2");
}

static void say_length(const struct table *t) {
    uint64_t says = (uint64_t)t->start + (uint64_t)TYPE_LENGTH * t->types + (uint64_t)t->member_length * t->members + TRAILER_LENGTH;
    fprintf(cli.err,
            "the file has %zu bytes, and its trailer says %" PRIu64 ": start %" PRIu32 ", types %" PRIu32 ", members %" PRIu32
            ", form %" PRIu32,
            t->len, says, t->start, t->types, t->members, t->form);
}

static void say_named(const struct table *t) {
    for (uint32_t k = 0; k < t->members; k++) {
        struct member m = member_at(t, k);
        if (!m.name) continue;
        fprintf(cli.err, "member %" PRIu32 " has name %" PRIu32 ", and form 1 has no room for it", k, m.name);
        return;
    }
}

int explain_file(lepugaso_answer a, const struct question *q) {
    struct table t;
    read_trailer(q->t ? q->t->file : q->file, q->t ? q->t->len : q->file_len, &t);
    switch (a.refusal) {
    case LEPUGASO_REFUSED_SHORT_FILE:
        fprintf(cli.err, "the file has %zu bytes, and its trailer alone would have 10", t.len);
        return 1;
    case LEPUGASO_REFUSED_FORM:
        say_form(&t, q->form);
        return 1;
    case LEPUGASO_REFUSED_COUNTS:
        fprintf(cli.err, "%" PRIu32 " types and %" PRIu32 " members, and there are 1 to 256 types and at most 1,024 members", t.types,
                t.members);
        return 1;
    case LEPUGASO_REFUSED_LENGTH:
        say_length(&t);
        return 1;
    case LEPUGASO_REFUSED_RULE:
        say_rule(&t, a.place);
        return 1;
    case LEPUGASO_REFUSED_GIVEN:
        say_given(&t, a.place);
        return 1;
    case LEPUGASO_REFUSED_TOO_LARGE:
        fprintf(cli.err, "a size, an offset or another number of this %s is above 4,294,967,295", kind_name(entry_at(&t, a.place).kind));
        return 1;
    case LEPUGASO_REFUSED_STRAY_MEMBER:
        fprintf(cli.err, "no struct has it among its members");
        return 1;
    case LEPUGASO_REFUSED_NAMED:
        say_named(&t);
        return 1;
    default:
        return 0;
    }
}
