/* Refusals in words: the number, the place, and what stands there. That something is refused, and where, the library has said; here it is
 * only put into words, with further answers of the library where a number is needed. A file that is refused is in explain.c. */
#include <string.h>

#include "cli.h"

/* What a place is, by the refusal. */
static const char *place_of(uint32_t refusal) {
    switch (refusal) {
    case LEPUGASO_REFUSED_RULE:
    case LEPUGASO_REFUSED_GIVEN:
    case LEPUGASO_REFUSED_TOO_LARGE:
    case LEPUGASO_REFUSED_UNIFORM:
        return "entry";
    case LEPUGASO_REFUSED_STRAY_MEMBER:
        return "member";
    case LEPUGASO_REFUSED_MEMBER_STEP:
    case LEPUGASO_REFUSED_INDEX:
    case LEPUGASO_REFUSED_INDEX_STEP:
        return "step";
    case LEPUGASO_REFUSED_F16_WORD:
        return "word";
    default:
        return NULL;
    }
}

static void say(const char *text) { fputs(text, cli.err); }

static void say_type(const struct table *t, uint32_t entry) {
    char name[NAME_ROOM];
    name_type(t, entry, name);
    say(name);
}

/* Members of a struct by their numbers. */
static void say_members(uint32_t count) { fprintf(cli.err, count == 1 ? "has member 0 alone" : "has members 0 to %" PRIu32, count - 1); }

/* ---- paths ---- */

/* Where a path starts: at the entry, or at the type of a block's member. */
static uint32_t start(const struct question *q) {
    return q->block ? member_at(q->t, entry_at(q->t, q->entry).reference + q->member).type : q->entry;
}

/* How many elements the buffer has of the runtime array that the steps before the bad one lead to. */
static uint64_t elements(const struct question *q, size_t steps, uint32_t element) {
    const uint8_t *space = nowhere(), *part;
    size_t part_len;
    lepugaso_layout of;
    if (!space || lepugaso_view(q->t->file, q->t->len, q->entry, q->steps, steps, space, q->buf_len, &part, &part_len).refusal) return 0;
    if (lepugaso_layout_of(q->t->file, q->t->len, element, &of).refusal || !of.stride) return 0;
    return part_len / of.stride;
}

static void say_step(const struct question *q, uint32_t place) {
    struct stand at = follow(q->t, start(q), q->steps, place);
    struct entry e = entry_at(q->t, at.entry);
    uint32_t step = q->steps[place], number = step & 0x7FFFFFFF;
    char name[NAME_ROOM];
    name_stand(q->t, at, name);
    if (step >> 31) {
        fprintf(cli.err, "member %" PRIu32 ", but %s ", number, name);
        if (e.kind == STRUCT)
            say_members(e.count);
        else
            say("has no members");
    } else if (e.kind == STRUCT || e.kind == ATOMIC || is_scalar(e.kind)) {
        fprintf(cli.err, "index %" PRIu32 ", but %s has %s", number, name, e.kind == STRUCT ? "members, and no elements" : "no elements");
    } else {
        uint64_t count = e.kind == ARRAY                  ? e.count
                         : e.kind == RUNTIME_ARRAY        ? elements(q, place, e.reference)
                         : e.kind == MATRIX && !at.column ? e.columns
                                                          : e.rows;
        fprintf(cli.err, "index %" PRIu32 ", but %s %s has %" PRIu64, number, name[0] == 'a' ? "an" : "a", name, count);
        if (e.kind == RUNTIME_ARRAY) say(" in this buffer");
    }
}

/* ---- buffers, words, blocks ---- */

static void say_short(const struct question *q) {
    lepugaso_answer size = lepugaso_size(q->t->file, q->t->len, q->entry);
    if (q->block)
        fprintf(cli.err, "the factory buffer has %zu bytes and the site buffer %zu, and ", q->buf_len, q->other_len);
    else
        fprintf(cli.err, "the buffer has %zu bytes, and ", q->buf_len);
    say_type(q->t, q->entry);
    if (size.refusal)
        say(" has no whole element there");
    else
        fprintf(cli.err, " takes %" PRIu64, size.value);
}

static void say_words(const struct question *q) {
    if (q->steps) {
        struct stand at = follow(q->t, start(q), q->steps, q->steps_len);
        char name[NAME_ROOM];
        name_stand(q->t, at, name);
        fprintf(cli.err, "the path leads to %s, which is no %s", name, q->target);
        return;
    }
    struct scalar_count has = count_scalars(q->t, q->entry);
    fprintf(cli.err, q->values == 1 ? "%zu value was given, and " : "%zu values were given, and ", q->values);
    say_type(q->t, q->entry);
    if (has.each)
        fprintf(cli.err, " has %" PRIu64 ", then %" PRIu64 " for each element, of which there is one at least", has.fixed, has.each);
    else
        fprintf(cli.err, " has %" PRIu64, has.fixed);
}

static void say_no_site(const struct question *q) {
    struct entry e = entry_at(q->t, q->entry);
    say_type(q->t, q->entry);
    if (e.kind != STRUCT)
        say(" is no struct");
    else if (lepugaso_size(q->t->file, q->t->len, q->entry).refusal)
        say(" ends in a runtime array");
    else if (e.count > 64)
        fprintf(cli.err, " has %" PRIu32 " members, and a mask has 64 bits", e.count);
    else
        fprintf(cli.err, " has %" PRIu32 " members, and mask %" PRIu64 " has bits beyond them", e.count, q->mask);
}

/* ---- uniform, orders, ranks, literals ---- */

static uint64_t start_of(const struct table *t, uint32_t entry, uint32_t member) {
    uint32_t step = LEPUGASO_MEMBER(member);
    const uint8_t *part;
    size_t part_len;
    return lepugaso_view(t->file, t->len, entry, &step, 1, nowhere(), LONGEST, &part, &part_len).value;
}

/* In which way a struct's member stands wrong. */
static void say_uniform_struct(const struct table *t, uint32_t entry, struct entry e) {
    for (uint32_t k = 0; k < e.count; k++) {
        uint64_t start = start_of(t, entry, k);
        uint32_t type = member_at(t, e.reference + k).type, kind = entry_at(t, type).kind;
        if ((kind == STRUCT || kind == ARRAY) && start % 16) {
            fprintf(cli.err, ": member %" PRIu32 " is a %s at offset %" PRIu64 ", and it must be at a multiple of 16", k,
                    kind == STRUCT ? "struct" : "array", start);
            return;
        }
        if (kind != STRUCT || k + 1 == e.count) continue;
        uint64_t size = lepugaso_size(t->file, t->len, type).value, next = start_of(t, entry, k + 1);
        uint64_t least = start + (size + 15) / 16 * 16;
        if (next < least) {
            fprintf(cli.err,
                    ": member %" PRIu32 " at offset %" PRIu64 " follows a struct at %" PRIu64 ", and may not start before %" PRIu64, k + 1,
                    next, start, least);
            return;
        }
    }
}

static void say_uniform(const struct table *t, uint32_t entry) {
    struct entry e = entry_at(t, entry);
    say_type(t, entry);
    if (e.kind == ATOMIC) {
        say(" is atomic");
    } else if (e.kind == STRUCT) {
        if (nowhere()) say_uniform_struct(t, entry, e);
    } else {
        lepugaso_layout of;
        if (lepugaso_layout_of(t->file, t->len, e.reference, &of).refusal) return;
        fprintf(cli.err, " has its elements every %" PRIu64 " bytes, and it must be a multiple of 16", of.stride);
    }
}

static void say_order(const struct question *q) {
    struct entry e = entry_at(q->t, q->entry);
    uint8_t seen[MOST_MEMBERS] = {0};
    say_type(q->t, q->entry);
    say(" ");
    if (q->list_len != e.count) {
        fprintf(cli.err, "has %" PRIu32 " members, and %zu positions were given", e.count, q->list_len);
        return;
    }
    for (size_t k = 0; k < q->list_len; k++) {
        if (q->list[k] >= e.count || seen[q->list[k]]++) {
            if (q->list[k] >= e.count)
                say_members(e.count);
            else
                say("has each member once");
            fprintf(cli.err, ", and position %" PRIu32 " was given%s", q->list[k], q->list[k] < e.count ? " twice" : "");
            return;
        }
    }
    uint32_t last = member_at(q->t, e.reference + e.count - 1).type;
    if (entry_at(q->t, last).kind == RUNTIME_ARRAY && q->list[e.count - 1] != e.count - 1)
        say("has a runtime array, which stays last");
    else
        say("would not be smaller in that order");
}

/* Of several numbers, the first that no entry has. */
static void say_no_entry(const struct question *q) {
    uint32_t number = q->entry < q->t->types ? q->to : q->entry;
    for (size_t k = 0; q->list && q->entry < q->t->types && k < q->list_len; k++)
        if ((number = q->list[k]) >= q->t->types) break;
    fprintf(cli.err, "there is no entry %" PRIu32 ", the file has %" PRIu32 ", counted from 0", number, q->t->types);
}

static void say_no_rank(const struct question *q) {
    if (!q->list) {
        say_type(q->t, q->entry);
        say(" is not converted to ");
        say_type(q->t, q->to);
        say(" by itself");
    } else if (!q->list_len) {
        say("no entry was given");
    } else {
        say("there is no type that all of them are converted to");
    }
}

/* ---- all of them ---- */

static void say_asked(lepugaso_answer a, const struct question *q) {
    switch (a.refusal) {
    case LEPUGASO_REFUSED_ENTRY:
        say_no_entry(q);
        return;
    case LEPUGASO_REFUSED_ABSENT:
        say_type(q->t, q->entry);
        fprintf(cli.err, " has no %s", q->wanted);
        return;
    case LEPUGASO_REFUSED_NOT_STORABLE:
        say_type(q->t, q->entry);
        say(" holds a bool");
        return;
    case LEPUGASO_REFUSED_MEMBER_STEP:
    case LEPUGASO_REFUSED_INDEX:
    case LEPUGASO_REFUSED_INDEX_STEP:
        say_step(q, a.place);
        return;
    case LEPUGASO_REFUSED_WORDS:
        say_words(q);
        return;
    case LEPUGASO_REFUSED_SHORT_BUFFER:
        say_short(q);
        return;
    case LEPUGASO_REFUSED_F16_WORD:
        say("it is above 65,535, and an f16 has 16 bits");
        return;
    case LEPUGASO_REFUSED_LONG_BUFFER:
        fprintf(cli.err, "a buffer has %zu bytes, and it may have %" PRIu32, q->buf_len > LONGEST ? q->buf_len : q->other_len, LONGEST);
        return;
    case LEPUGASO_REFUSED_NO_RANK:
        say_no_rank(q);
        return;
    case LEPUGASO_REFUSED_UNIFORM:
        say_uniform(q->t, a.place);
        return;
    case LEPUGASO_REFUSED_NO_SITE:
        say_no_site(q);
        return;
    case LEPUGASO_REFUSED_ORDER:
        say_order(q);
        return;
    case LEPUGASO_REFUSED_CONVERSION:
        /* Zero can be converted wherever anything can. */
        if (lepugaso_convert(q->from, 0, q->kind).refusal)
            fprintf(cli.err, "%s is not converted to %s by itself", kind_name(q->from), kind_name(q->kind));
        else
            fprintf(cli.err, "%s is outside the numbers of type %s", q->value, kind_name(q->kind));
        return;
    default:
        say("for a reason that has no words here");
    }
}

int refused(lepugaso_answer a, const struct question *q) {
    if (!a.refusal) return GOOD;
    progress_over();
    fflush(cli.out);
    const char *place = place_of(a.refusal);
    /* A block's member is no step of a path, and its place is 0. */
    int no_member = q->block && a.refusal == LEPUGASO_REFUSED_MEMBER_STEP && q->member >= entry_at(q->t, q->entry).count;
    fprintf(cli.err, "lepugaso: refused %" PRIu32, a.refusal);
    if (place && !no_member) fprintf(cli.err, " at %s %" PRIu32, place, a.place);
    say(": ");
    if (no_member) {
        fprintf(cli.err, "member %" PRIu32 ", but ", q->member);
        say_type(q->t, q->entry);
        say(" ");
        say_members(entry_at(q->t, q->entry).count);
    } else if (!explain_file(a, q)) {
        say_asked(a, q);
    }
    say("\n");
    return FAILED;
}
