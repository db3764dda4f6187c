/* Bytes from lines of text. Each line is a scalar, in the order of `read`: a value, a path and a value, or all that `read` writes, which
 * then has to agree. */
#include <stdlib.h>
#include <string.h>

#include "cli.h"

/* Lines of text, and the words that they gave. */
struct lines {
    const struct job *j;
    struct region text;
    size_t at, number, values;
    char line[NAME_ROOM], *fields[6];
    int count;
    uint32_t *words;
    size_t words_len, room;
};
enum { NO_LINE = -1 };

/* Up to the next line that has something on it but a comment. Answers whether there is one. */
static int find_line(struct lines *l) {
    while (l->at < l->text.len) {
        const char *from = (const char *)l->text.at + l->at, *end = memchr(from, '\n', l->text.len - l->at);
        size_t len = end ? (size_t)(end - from) : l->text.len - l->at, blanks = 0;
        while (blanks < len && strchr(" \t\r", from[blanks]) && from[blanks]) blanks++;
        if (blanks < len && from[blanks] != '#') return 1;
        l->at += len + (end != NULL);
        l->number++;
    }
    return 0;
}

/* The next line, as fields; `NO_LINE` if there is none. */
static int next_line(struct lines *l) {
    if (!find_line(l)) return NO_LINE;
    const char *from = (const char *)l->text.at + l->at, *end = memchr(from, '\n', l->text.len - l->at);
    size_t len = end ? (size_t)(end - from) : l->text.len - l->at;
    l->at += len + (end != NULL);
    l->number++;
    if (len >= sizeof l->line || memchr(from, '\0', len)) return fail("line %zu is no line of text", l->number);
    memcpy(l->line, from, len);
    l->line[len] = '\0';
    l->line[strcspn(l->line, "#")] = '\0';
    l->count = 0;
    for (char *field = strtok(l->line, " \t\r"); field && l->count < 6; field = strtok(NULL, " \t\r")) l->fields[l->count++] = field;
    return GOOD;
}

static int lines_have(struct walk *w, uint32_t element) {
    (void)element;
    return find_line(w->with);
}

static int push(struct lines *l, uint32_t word) {
    if (l->words_len == l->room) {
        size_t room = l->room ? 2 * l->room : 1024;
        uint32_t *grown = realloc(l->words, room * sizeof *grown);
        if (!grown) return fail("no memory for %zu words", room);
        l->words = grown;
        l->room = room;
    }
    l->words[l->words_len++] = word;
    return GOOD;
}

/* The path that a line names has to be the one that comes next. */
static int agree_path(const struct lines *l, const struct walk *w, const char *text) {
    struct path path;
    if (!read_path(text, &path)) return fail("line %zu: %s is no path", l->number, text);
    int same = path.len == w->depth && !memcmp(path.steps, w->steps, path.len * sizeof *path.steps);
    free(path.steps);
    if (same) return GOOD;
    fprintf(cli.err, "lepugaso: line %zu: %s, but ", l->number, text);
    print_path(cli.err, w->steps, w->depth);
    fprintf(cli.err, " comes next\n");
    return FAILED;
}

static int agree_offset(const struct lines *l, const struct walk *w, const char *text) {
    const uint8_t *space = nowhere(), *part;
    size_t part_len;
    char *end;
    if (!space) return FAILED;
    lepugaso_answer at = lepugaso_view(w->t->file, w->t->len, l->j->entry, w->steps, w->depth, space, LONGEST, &part, &part_len);
    int status = refused(at, &l->j->asked);
    if (status || (strtoull(text, &end, 10) == at.value && !*end)) return status;
    return fail("line %zu: offset %s, but it is %" PRIu64, l->number, text, at.value);
}

/* What a line says beside its value has to be so. */
static int agree(const struct lines *l, const struct walk *w, uint32_t scalar, uint64_t bits) {
    char type[NAME_ROOM];
    char *end;
    int status = l->count > 1 ? agree_path(l, w, l->fields[l->count > 2]) : GOOD;
    if (status || l->count < 4) return status;
    name_type(w->t, scalar, type);
    if (strcmp(type, l->fields[2])) return fail("line %zu: type %s, but it is %s", l->number, l->fields[2], type);
    status = agree_offset(l, w, l->fields[0]);
    if (status || l->count < 5) return status;
    if (strtoull(l->fields[4], &end, 16) == bits && !*end) return GOOD;
    return fail("line %zu: bits %s, but %s is 0x%0*" PRIx64 ": leave out the bits to write the value", l->number, l->fields[4],
                l->fields[3], 2 * (int)kind_width(scalar_kind(w->t, scalar)), bits);
}

static int take_value(struct walk *w, uint32_t scalar) {
    struct lines *l = w->with;
    char where[32];
    uint64_t bits;
    uint32_t kind = scalar_kind(w->t, scalar);
    int status = next_line(l);
    if (status) return status;
    if (l->count == 3 || l->count > 5)
        return fail("line %zu: a line is a value, a path and a value, or offset, path, type, value and bits", l->number);
    snprintf(where, sizeof where, "line %zu", l->number);
    status = parse_value(l->fields[l->count < 3 ? l->count - 1 : 3], kind, where, &bits);
    if (!status) status = agree(l, w, scalar, bits);
    if (!status) status = push(l, (uint32_t)bits);
    if (!status && kind_width(kind) == 8) status = push(l, (uint32_t)(bits >> 32));
    l->values++;
    progress("reading lines", l->at, l->text.len);
    return status;
}

/* All lines; where there are more than scalars, a word for each, so that the library refuses their number. */
static int take_lines(struct lines *l) {
    struct walk w = {.t = &l->j->t, .more = lines_have, .each = take_value, .with = l};
    int status = walk_entry(&w, l->j->entry);
    while (!status && (status = next_line(l)) == GOOD) {
        l->values++;
        status = push(l, 0);
    }
    progress_over();
    return status == NO_LINE ? GOOD : status;
}

/* The words as bytes. How many bytes an open type takes is found by asking: a buffer that is too short is refused before it is touched. */
static int write_words(struct job *j, const struct lines *l) {
    lepugaso_answer size = lepugaso_size(j->t.file, j->t.len, j->entry);
    uint64_t room = size.refusal ? 4096 : size.value;
    for (;; room = room < LONGEST / 2 ? 2 * room : LONGEST) {
        uint8_t *buf = calloc(1, room);
        if (!buf) return fail("no memory for %" PRIu64 " bytes", room);
        lepugaso_answer filled = lepugaso_write(j->t.file, j->t.len, j->entry, l->words, l->words_len, buf, room);
        int longer = filled.refusal == LEPUGASO_REFUSED_SHORT_BUFFER && room < LONGEST, status = GOOD;
        if (!longer) {
            j->asked.words = l->words_len;
            j->asked.values = l->values;
            j->asked.buf_len = room;
            status = refused(filled, &j->asked);
            if (!status) status = put_bytes(buf, filled.value);
        }
        free(buf);
        if (!longer) return status;
    }
}

int run_write(int argc, char **argv) {
    if (argc < 2 || argc > 3) return usage("write", "%s", argc < 2 ? "which file and entry?" : "too many arguments");
    struct job j;
    struct lines l = {.j = &j};
    int status = begin_job(&j, argv[0], argv[1], NULL);
    if (status) return status;
    /* Of no words a writer refuses by what comes before them, or by their number. */
    lepugaso_answer none = lepugaso_write(j.t.file, j.t.len, j.entry, NULL, 0, NULL, 0);
    status = none.refusal == LEPUGASO_REFUSED_WORDS ? GOOD : refused(none, &j.asked);
    if (!status) status = load(argc > 2 ? argv[2] : "-", &l.text);
    if (!status) status = take_lines(&l);
    if (!status) status = write_words(&j, &l);
    free(l.words);
    drop(&l.text);
    end_job(&j);
    return status;
}
