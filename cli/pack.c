/* The layout file in words, a line for each entry, and back. One table has the words for both ways. The library is asked for nothing but
 * whether types may be named in comments: a bad file can be packed, and any bytes be unpacked. */
#include <stdarg.h>
#include <stdlib.h>
#include <string.h>

#include "cli.h"

/* ---- the words ---- */

/* The numbers of lines and of the trailer: the fields of a type, those of a member and those of the trailer, as they follow each other in
 * the file; and a struct's last member. */
enum slot { KIND, COLUMNS, ROWS, ZERO, REFERENCE, ZEROS, COUNT, TYPE, FLAGS, SIZE, ALIGN, NAME, TYPES, MEMBERS, START, FORM, LAST, SLOTS };

static const struct {
    char sign;      /* stands for it in the shapes below; `?` stands in none */
    unsigned width; /* in bytes */
    const char *what;
} numbers[SLOTS] = {
    {'K', 1, "a kind"}, {'C', 1, "how many columns"}, {'R', 1, "how many rows"}, {'Z', 1, "a number"}, {'T', 2, "a reference"},
    {'O', 2, "a number"}, {'N', 4, "a count"}, {'M', 2, "a type"}, {'G', 2, "flags"}, {'S', 4, "a size"}, {'A', 4, "an align"},
    {'I', 4, "a name"}, {'?', 2, ""}, {'?', 2, ""}, {'?', 4, ""}, {'V', 2, "a form"}, {'L', 8, "the last member"},
};

/* The lines, each after those that it begins with: the kinds; then a struct of one member, and any type at all; members by their flags, the
 * fifth for any flags at all, and then with names; the form. A capital is a number. */
enum { ONE_MEMBER = KINDS, ANY_TYPE, MEMBER, ANY_FLAGS = 4, NAMED, THE_FORM = MEMBER + 2 * NAMED, SHAPES };

#define SAME(words) {words, words}
#define GIVEN(words) {words, "member 2 size 20 align 16 name 101"}
#define FLAGGED(words) {words, "member 2 flags 5 size 20 align 0 name 101"}
static const struct shape {
    const char *words, *example;
} shapes[SHAPES] = {
    SAME("bool"), SAME("i32"), SAME("u32"), SAME("f32"), SAME("f16"), SAME("abstract int"), SAME("abstract float"),
    {"vector R of T", "vector 3 of 1"}, {"matrix C by R of T", "matrix 3 by 2 of 1"}, {"array N of T", "array 24 of 1"},
    {"runtime array of T", "runtime array of 4"}, {"atomic of T", "atomic of 0"}, {"struct of members T to L", "struct of members 0 to 4"},
    SAME("i64"), SAME("u64"), SAME("f64"),
    {"struct of member T", "struct of member 2"},
    {"type kind K columns C rows R zero Z reference T zeros O count N", "type kind 7 columns 0 rows 3 zero 0 reference 1 zeros 0 count 0"},
    GIVEN("member M"), GIVEN("member M size S"), GIVEN("member M align A"), GIVEN("member M size S align A"),
    FLAGGED("member M flags G size S align A"),
    GIVEN("member M name I"), GIVEN("member M size S name I"), GIVEN("member M align A name I"), GIVEN("member M size S align A name I"),
    FLAGGED("member M flags G size S align A name I"),
    {"form V", "form 2"},
};

/* ---- text ---- */

/* Part of a text: a line, or a word. */
struct span {
    const char *at, *end;
};

static size_t length(struct span s) { return (size_t)(s.end - s.at); }
static int same(struct span a, struct span b) { return length(a) == length(b) && !memcmp(a.at, b.at, length(a)); }
static int is_blank(char c) { return c == ' ' || c == '\t'; }
static struct span span_of(const char *text) { return (struct span){text, text + strlen(text)}; }

/* Takes the next line off a text, without its comment and the blanks around it. */
static struct span next_line(struct span *text) {
    const char *newline = memchr(text->at, '\n', length(*text));
    struct span line = {text->at, newline ? newline : text->end};
    text->at = newline ? newline + 1 : text->end;
    const char *comment = memchr(line.at, '#', length(line));
    if (comment) line.end = comment;
    while (line.at < line.end && is_blank(line.at[0])) line.at++;
    while (line.at < line.end && (is_blank(line.end[-1]) || line.end[-1] == '\r')) line.end--;
    return line;
}

/* Takes the next word off a line; an empty one if there is none. */
static struct span next_word(struct span *line) {
    while (line->at < line->end && is_blank(*line->at)) line->at++;
    struct span word = {line->at, line->at};
    while (word.end < line->end && !is_blank(*word.end)) word.end++;
    line->at = word.end;
    return word;
}

/* The number that a word of a shape stands for, or `SLOTS`. */
static int slot_of(struct span word) {
    int slot = 0;
    while (slot < SLOTS && (length(word) != 1 || *word.at != numbers[slot].sign)) slot++;
    return slot;
}

/* A number of any length; one that is too large for a uint64_t is the largest of them. */
static int read_number(struct span word, uint64_t *number) {
    const char *at = word.at;
    for (*number = 0; at < word.end && *at >= '0' && *at <= '9'; at++)
        *number = *number > (UINT64_MAX - 9) / 10 ? UINT64_MAX : *number * 10 + (uint64_t)(*at - '0');
    return word.at < at && at == word.end;
}

/* What stands in a text, for a complaint: not too much of it, and nothing that a terminal would obey. */
enum { QUOTED = 72, QUOTE_ROOM = QUOTED + 6 };

static const char *quote(struct span s, char to[QUOTE_ROOM]) {
    char *end = to;
    if (s.at == s.end) return "the end";
    *end++ = '`';
    for (; s.at < s.end && end <= to + QUOTED; s.at++) *end++ = *s.at < ' ' || *s.at > '~' ? '?' : *s.at;
    strcpy(end, s.at < s.end ? "...`" : "`");
    return to;
}

/* ---- pack ---- */

struct counts {
    size_t bytes, types, members;
};

/* A text so far. It is read twice: first everything is counted and every fault found, then the bytes go where they belong. */
struct pack {
    struct span line;
    size_t number; /* of the line, from 1 */
    struct counts have, most;
    uint32_t form;
    int trailer;                            /* a text of nothing but bytes is those bytes, and has none */
    size_t form_line, named_line, far_line; /* the lines of the form, of the first name, of the first byte that no start can say; or 0 */
    uint8_t *bytes, *type, *member;         /* where the next ones go; null while they are counted */
};

static int fail_line(const struct pack *p, const char *format, ...) {
    char line[QUOTE_ROOM], fault[256];
    va_list with;
    va_start(with, format);
    vsnprintf(fault, sizeof fault, format, with);
    va_end(with);
    return fail("line %zu: %s: %s", p->number, quote(p->line, line), fault);
}

/* A line along the words of a shape, as far as it follows them: how many, its numbers, and what is next on both sides. */
struct fit {
    size_t words;
    uint64_t n[SLOTS];
    struct span wanted, found;
};

static struct fit fit_line(struct span line, const struct shape *s) {
    struct span words = span_of(s->words);
    for (struct fit f = {0};; f.words++) {
        f.wanted = next_word(&words);
        f.found = next_word(&line);
        int slot = slot_of(f.wanted);
        if (!length(f.wanted) || !(slot < SLOTS ? read_number(f.found, &f.n[slot]) : same(f.found, f.wanted))) return f;
    }
}

static int fail_fit(const struct pack *p, const struct fit *f, const struct shape *s) {
    char word[QUOTE_ROOM];
    int slot = slot_of(f->wanted);
    if (!f->words) return fail_line(p, "no line begins with %s; lepugaso(5) has the words", quote(f->found, word));
    if (!length(f->wanted)) return fail_line(p, "expected nothing from %s on, as in `%s`", quote(f->found, word), s->example);
    return fail_line(p, "expected %s, as in `%s`", slot < SLOTS ? numbers[slot].what : quote(f->wanted, word), s->example);
}

/* The shape that the line follows furthest, and its numbers, none too large for its field. */
static int read_line(const struct pack *p, int *shape, struct fit *f) {
    for (int k = 0; k < SHAPES; k++) {
        struct fit other = fit_line(p->line, &shapes[k]);
        if (k && other.words <= f->words) continue;
        *f = other;
        *shape = k;
    }
    if (length(f->wanted) || length(f->found)) return fail_fit(p, f, &shapes[*shape]);
    for (int k = 0; k < SLOTS; k++) {
        uint64_t most = UINT64_MAX >> (64 - 8 * numbers[k].width);
        if (f->n[k] > most) return fail_line(p, "expected %s, at most %" PRIu64, numbers[k].what, most);
    }
    return GOOD;
}

/* The bytes that a word says, as 00 or 00*65537: which, and how many. */
static int read_bytes(struct span word, uint8_t *byte, uint64_t *count) {
    /* A digit's value and 1, or 0 for what is no digit. */
    static const uint8_t of[256] = {['0'] = 1, 2, 3, 4, 5, 6, 7, 8, 9, 10, ['A'] = 11, 12, 13, 14, 15, 16, ['a'] = 11, 12, 13, 14, 15, 16};
    int high = length(word) < 2 ? 0 : of[(uint8_t)word.at[0]], low = length(word) < 2 ? 0 : of[(uint8_t)word.at[1]];
    if (!high || !low) return 0;
    *byte = (uint8_t)((high - 1) * 16 + low - 1);
    *count = 1;
    return length(word) == 2 || (word.at[2] == '*' && read_number((struct span){word.at + 3, word.end}, count));
}

static int take_bytes(struct pack *p, struct span rest) {
    char text[QUOTE_ROOM];
    if (p->have.types || p->have.members) return fail_line(p, "expected bytes before the first type or member");
    do {
        struct span word = next_word(&rest);
        uint8_t byte;
        uint64_t count;
        if (!read_bytes(word, &byte, &count))
            return fail_line(p, "expected a byte at %s, as in `bytes 00 ff 00*65537`", quote(word, text));
        if (count > p->most.bytes - p->have.bytes) return fail_line(p, "expected fewer bytes than %s", quote(word, text));
        /* The room is 0 already, and takes no memory where it stays so. */
        if (p->bytes && byte) memset(p->bytes + p->have.bytes, byte, (size_t)count);
        p->have.bytes += (size_t)count;
    } while (rest.at < rest.end);
    if (p->have.bytes > UINT32_MAX && !p->far_line) p->far_line = p->number;
    return GOOD;
}

static int take_form(struct pack *p, const struct fit *f) {
    if (p->form_line) return fail_line(p, "expected one form, which line %zu has", p->form_line);
    p->form_line = p->number;
    if (!p->bytes) p->form = (uint32_t)f->n[FORM];
    return GOOD;
}

static void put_fields(uint8_t **to, const uint64_t n[SLOTS], int from, int last) {
    for (int k = from; *to && k <= last; k++)
        for (unsigned byte = 0; byte < numbers[k].width; byte++) *(*to)++ = (uint8_t)(n[k] >> 8 * byte);
}

static int take_member(struct pack *p, int shape, struct fit *f) {
    if (p->have.members++ == p->most.members) return fail_line(p, "expected at most %zu members", p->most.members);
    if (shape % NAMED != ANY_FLAGS) f->n[FLAGS] = (uint64_t)(shape % NAMED);
    if (shape >= NAMED && !p->named_line) p->named_line = p->number;
    put_fields(&p->member, f->n, TYPE, p->form == 2 ? NAME : ALIGN);
    return GOOD;
}

static int take_type(struct pack *p, int shape, struct fit *f) {
    if (p->have.types++ == p->most.types) return fail_line(p, "expected at most %zu types", p->most.types);
    if (shape == STRUCT || shape == ONE_MEMBER) {
        uint64_t first = f->n[REFERENCE], last = shape == STRUCT ? f->n[LAST] : first, most = first + UINT32_MAX - 1;
        if (last < first || last > most) return fail_line(p, "expected a last member from %" PRIu64 " to %" PRIu64, first, most);
        f->n[COUNT] = last - first + 1;
    }
    if (shape != ANY_TYPE) f->n[KIND] = shape == ONE_MEMBER ? STRUCT : (uint64_t)shape;
    put_fields(&p->type, f->n, KIND, COUNT);
    return GOOD;
}

static int take_line(struct pack *p) {
    struct span rest = p->line;
    struct fit f;
    int shape;
    if (same(next_word(&rest), span_of("bytes"))) return take_bytes(p, rest);
    p->trailer = 1;
    if (read_line(p, &shape, &f)) return FAILED;
    if (shape == THE_FORM) return take_form(p, &f);
    return shape < MEMBER ? take_type(p, shape, &f) : take_member(p, shape - MEMBER, &f);
}

static int take_text(struct pack *p, const struct region *bytes) {
    struct span text = {(const char *)bytes->at, (const char *)bytes->at + bytes->len};
    int status = GOOD;
    while (status == GOOD && text.at < text.end) {
        p->line = next_line(&text);
        p->number++;
        if (length(p->line)) status = take_line(p);
    }
    return status;
}

/* What only the whole text shows. */
static int check_text(const struct pack *p) {
    if (p->named_line && p->form != 2)
        return fail("line %zu: form %" PRIu32 " has no room for a name: expected a line `form 2`", p->named_line, p->form);
    if (p->far_line && p->trailer) return fail("line %zu: expected at most 4294967295 bytes before the types", p->far_line);
    return GOOD;
}

/* A text that changes between the readings is held to what was counted. */
static int put_file(const struct pack *counted, const struct region *text) {
    struct counts have = counted->have;
    size_t members_at = have.bytes + TYPE_LENGTH * have.types, end = members_at + (counted->form == 2 ? 16 : 12) * have.members;
    size_t len = counted->trailer ? end + TRAILER_LENGTH : end;
    uint8_t *file = calloc(len + 1, 1), *trailer = file ? file + end : NULL;
    if (!file) return fail("no memory for %zu bytes", len);

    struct pack p = {.most = have, .form = counted->form, .bytes = file, .type = file + have.bytes, .member = file + members_at};
    uint64_t n[SLOTS] = {[TYPES] = have.types, [MEMBERS] = have.members, [START] = have.bytes, [FORM] = counted->form};
    int status = take_text(&p, text);
    if (counted->trailer) put_fields(&trailer, n, TYPES, FORM);
    if (status == GOOD) status = put_bytes(file, len);
    free(file);
    return status;
}

int run_pack(int argc, char **argv) {
    if (argc > 1) return usage("pack", "one file of lines at a time");
    struct region text;
    struct pack p = {.most = {SIZE_MAX / 2, UINT16_MAX, UINT16_MAX}, .form = 1};
    int status = load(argc ? argv[0] : "-", &text);
    if (status) return status;
    status = take_text(&p, &text);
    if (status == GOOD) status = check_text(&p);
    if (status == GOOD) status = put_file(&p, &text);
    drop(&text);
    return status;
}

/* ---- unpack ---- */

/* Bytes, sixteen in a row; more than that of the same one after the other are a row of their own. */
static void print_bytes(const uint8_t *at, const uint8_t *end) {
    static const char digits[] = "0123456789abcdef";
    for (const uint8_t *next = at; at < end; at = next) {
        while (next < end && *next == *at) next++;
        if (next - at > 16) {
            fprintf(cli.out, "bytes %02x*%zu\n", *at, (size_t)(next - at));
            continue;
        }
        fputs("bytes", cli.out);
        for (next = at; next < end && next - at < 16; next++) {
            fputc(' ', cli.out);
            fputc(digits[*next >> 4], cli.out);
            fputc(digits[*next & 15], cli.out);
        }
        fputc('\n', cli.out);
    }
}

/* A line of that shape, and behind it the number of its entry. */
static void print_line(const struct shape *s, const uint64_t n[SLOTS], uint32_t number) {
    struct span words = span_of(s->words), word;
    int column = 0;
    while (length(word = next_word(&words))) {
        int slot = slot_of(word);
        if (column) column += fprintf(cli.out, " ");
        column += slot < SLOTS ? fprintf(cli.out, "%" PRIu64, n[slot]) : fprintf(cli.out, "%.*s", (int)length(word), word.at);
    }
    fprintf(cli.out, "%*s# %" PRIu32, column < 30 ? 30 - column : 1, "", number);
}

/* The shape that says a type: that of its kind, if what the kind does not use is 0. */
static int type_shape(const struct entry *e) {
    int refers = e->kind >= VECTOR && e->kind <= STRUCT, counts = e->kind == ARRAY || e->kind == STRUCT;
    int has_rows = e->kind == VECTOR || e->kind == MATRIX;
    if (e->kind >= KINDS || e->zero || e->zeros || (e->columns && e->kind != MATRIX) || (e->rows && !has_rows)) return ANY_TYPE;
    if ((e->reference && !refers) || (e->count && !counts) || (e->kind == STRUCT && !e->count)) return ANY_TYPE;
    return e->kind == STRUCT && e->count == 1 ? ONE_MEMBER : (int)e->kind;
}

static void print_type(const struct table *t, uint32_t number, int good) {
    char name[NAME_ROOM];
    struct entry e = entry_at(t, number);
    uint64_t n[SLOTS] = {e.kind, e.columns, e.rows, e.zero, e.reference, e.zeros, e.count};
    n[LAST] = (uint64_t)e.reference + e.count - 1;
    print_line(&shapes[type_shape(&e)], n, number);
    if (good) name_type(t, number, name);
    fprintf(cli.out, "%s%s\n", good ? ": " : "", good ? name : "");
}

static void print_member(const struct table *t, uint32_t number) {
    struct member m = member_at(t, number);
    uint64_t n[SLOTS] = {[TYPE] = m.type, [FLAGS] = m.flags, [SIZE] = m.size, [ALIGN] = m.align, [NAME] = m.name};
    int plain = m.flags < ANY_FLAGS && (m.flags & SIZE_GIVEN || !m.size) && (m.flags & ALIGN_GIVEN || !m.align);
    print_line(&shapes[MEMBER + (plain ? (int)m.flags : ANY_FLAGS) + (m.name ? NAMED : 0)], n, number);
    fputc('\n', cli.out);
}

static void print_table(const struct table *t) {
    int good = !lepugaso_check(t->file, t->len).refusal;
    if (t->form != 1) fprintf(cli.out, "form %" PRIu32 "\n", t->form);
    print_bytes(t->file, t->file + t->start);
    for (uint32_t k = 0; k < t->types; k++) print_type(t, k, good);
    if (t->members) fprintf(cli.out, "\n# members\n");
    for (uint32_t k = 0; k < t->members; k++) print_member(t, k);
}

int run_unpack(int argc, char **argv) {
    if (argc != 1) return usage("unpack", "one layout file at a time");
    struct region file;
    struct table t;
    int status = load(argv[0], &file);
    if (status) return status;
    if (read_trailer(file.at, file.len, &t) && t.types)
        print_table(&t);
    else
        print_bytes(file.at, file.at + file.len);
    drop(&file);
    return GOOD;
}
