/* The map as a picture: rows of 16 bytes, each scalar a box in the colour of the member that it belongs to, gaps hatched. Several entries
 * stand below each other. Lengths are in the picture's own units, which whoever shows it scales. */
#include <stdlib.h>
#include <string.h>

#include "map.h"

enum {
    BYTE = 44,  /* how wide a byte is */
    HIGH = 42,  /* how high a row is */
    APART = 6,  /* two rows */
    BREAK = 34, /* where rows are left out */
    MARGIN = 28,
    LINE = 22,     /* of text */
    BETWEEN = 44,  /* two entries */
    DIGIT = 8,     /* of an offset */
    MOST_KEYS = 32 /* colours that are explained */
};
/* How wide letters are, in hundredths: of a path, of a title, of what is smaller. */
enum { WIDE = 785, WIDEST = 1150, NARROW = 665 };
#define ELLIPSIS "\xE2\x80\xA6"

struct picture {
    struct map *m;
    struct finder f;
    struct strip strips[MOST_STRIPS];
    size_t count; /* of strips */
    struct part whole;
    struct totals all;
    const char *why;
    int left, y; /* where the rows begin, and where the next is */
};

/* Pastels of which any two neighbours stay apart for those who see no red, no green or no blue. */
static const char *const colours[] = {"#bcd0f7", "#f4ae9f", "#9fdde4", "#fcc98a", "#c3b1e6", "#8fd0b5", "#f4ec9c"};
enum { COLOURS = sizeof colours / sizeof colours[0] };
#define GROUND "#f1f3f5" /* of gaps */

static const char style[] =
    "<style>text{fill:#1f2937;font-family:Menlo,Consolas,'DejaVu Sans Mono',monospace;font-size:13px;text-anchor:middle}"
    ".heading{font-size:19px;font-weight:bold;text-anchor:start}.heading tspan{font-weight:normal;fill:#6b7280}"
    ".totals,.key{font-size:12px;fill:#4b5563;text-anchor:start}.byte,.type,.label{font-size:11px;fill:#4b5563}.byte{fill:#6b7280}"
    ".offset{font-size:12px;fill:#6b7280;text-anchor:end}.scalar,.gap{stroke:#fff;stroke-width:2px}.gap{fill:url(#hatch)}"
    ".rest{stroke:#9ca3af;stroke-width:1.5px;stroke-dasharray:2 5}</style>\n"
    "<defs><pattern id=\"hatch\" width=\"8\" height=\"8\" patternUnits=\"userSpaceOnUse\" patternTransform=\"rotate(45)\">"
    "<path d=\"M0 0h8v8h-8z\" fill=\"" GROUND "\"/><path d=\"M0 0v8\" stroke=\"#c3c9d1\" stroke-width=\"3\"/></pattern></defs>\n";

/* ---- text ---- */

static void put_escaped(FILE *to, const char *text, size_t most) {
    for (size_t k = 0; text[k] && k < most; k++) {
        char c = text[k];
        const char *as = c == '<' ? "&lt;" : c == '>' ? "&gt;" : c == '&' ? "&amp;" : c == '"' ? "&quot;" : NULL;
        if (k + 1 == most && text[k + 1]) as = ELLIPSIS;
        if (as)
            fputs(as, to);
        else
            fputc(c, to);
    }
}

/* How many letters there is room for in so many bytes, the edges left free. */
static size_t letters(uint64_t bytes, int wide) { return (size_t)(BYTE * bytes - 10) * 100 / (size_t)wide; }

static size_t step_length(uint32_t step) {
    size_t length = step >> 31 ? 2 : 3;
    for (step &= 0x7FFFFFFF; step > 9; step /= 10) length++;
    return length;
}

/* The path, or as many of its last steps as there is room for. */
static void put_path(struct map *m, size_t room) {
    size_t from = 0, length = 0;
    for (size_t k = 0; k < m->depth; k++) length += step_length(m->steps[k]);
    while (from < m->depth && length + (from > 0) > room) length -= step_length(m->steps[from++]);
    if (from) fputs(ELLIPSIS, m->out);
    if (from < m->depth || !m->depth) print_path(m->out, m->steps + from, m->depth - from);
}

/* A line of text on a ground of its own, which hides what is under it. */
static void put_label(const struct picture *p, int x, int y, const char *ground, const char *text) {
    int wide = (int)strlen(text) * NARROW / 100 + 12;
    fprintf(p->m->out,
            "<rect x=\"%d\" y=\"%d\" width=\"%d\" height=\"18\" rx=\"4\" fill=\"%s\"/><text class=\"label\" x=\"%d\" y=\"%d\">%s</text>",
            x - wide / 2, y - 9, wide, ground, x, y + 4, text);
}

/* ---- rows ---- */

static int start(const struct picture *p, uint64_t offset) { return p->left + (int)(offset % ROW) * BYTE; }
static int middle(const struct picture *p, uint64_t from, uint64_t to) { return start(p, from) + (int)(to - from) * BYTE / 2; }

/* By the first member on the path, or else its first index. */
static const char *colour(const struct map *m) {
    size_t k = 0;
    while (k < m->depth && !(m->steps[k] >> 31)) k++;
    return colours[(k < m->depth ? m->steps[k] & 0x7FFFFFFF : m->depth ? m->steps[0] : 0) % COLOURS];
}

static void put_box(const struct picture *p, const char *class, uint64_t from, uint64_t to) {
    fprintf(p->m->out,
            "<rect class=\"%s\" x=\"%d\" y=\"%d\" width=\"%d\" height=\"%d\" rx=\"5\" data-offset=\"%" PRIu64 "\" data-size=\"%" PRIu64
            "\"",
            class, start(p, from), p->y, (int)(to - from) * BYTE, HIGH, from, to - from);
}

static void put_scalar(const struct picture *p, const struct span *s) {
    struct map *m = p->m;
    const char *type = map_type(m, &p->f.parts[m->depth]);
    uint64_t bytes = s->to - s->from;
    int x = middle(p, s->from, s->to);
    fprintf(m->out, "<g><title>offset %" PRIu64 ", %" PRIu64 " bytes: ", s->from, bytes);
    print_path(m->out, m->steps, m->depth);
    fputc(' ', m->out);
    put_escaped(m->out, type, NAME_ROOM);
    fputs("</title>", m->out);
    put_box(p, "scalar", s->from, s->to);
    fprintf(m->out, " fill=\"%s\" data-path=\"", colour(m));
    print_path(m->out, m->steps, m->depth);
    fputs("\" data-type=\"", m->out);
    put_escaped(m->out, type, NAME_ROOM);
    fprintf(m->out, "\"/><text class=\"path\" x=\"%d\" y=\"%d\">", x, p->y + 19);
    put_path(m, letters(bytes, WIDE));
    fprintf(m->out, "</text><text class=\"type\" x=\"%d\" y=\"%d\">", x, p->y + 34);
    put_escaped(m->out, type, letters(bytes, NARROW));
    fputs("</text></g>\n", m->out);
}

/* What of a gap lies in a row. Where the gap begins it says how long it is. */
static void put_gap(const struct picture *p, const struct span *s, uint64_t from, uint64_t to) {
    FILE *out = p->m->out;
    char text[64];
    fprintf(out, "<g><title>offset %" PRIu64 ", %" PRIu64 " bytes: gap after ", s->from, s->to - s->from);
    print_path(out, p->m->steps, p->m->depth);
    fputs("</title>", out);
    put_box(p, "gap", from, to);
    fputs("/>", out);
    if (from == s->from && sprintf(text, "gap, %" PRIu64 " bytes", s->to - s->from) > (int)letters(to - from, NARROW)) strcpy(text, "gap");
    if (from == s->from) put_label(p, middle(p, from, to), p->y + HIGH / 2, GROUND, text);
    fputs("</g>\n", out);
}

static int put_row(struct picture *p, const struct strip *row) {
    struct span s;
    fprintf(p->m->out, "<text class=\"offset\" x=\"%d\" y=\"%d\">%" PRIu64 "</text>\n", p->left - 12, p->y + HIGH / 2 + 4, row->from);
    for (uint64_t from = row->from, to; from < row->to; from = to) {
        int status = map_find(&p->f, from, &s);
        if (status) return status;
        to = s.to < row->to ? s.to : row->to;
        if (s.gap)
            put_gap(p, &s, from, to);
        else
            put_scalar(p, &s);
    }
    p->y += HIGH + APART;
    return GOOD;
}

static void put_break(struct picture *p, const struct strip *rest) {
    int y = p->y + (BREAK - APART) / 2;
    char text[80];
    sprintf(text, "bytes %" PRIu64 " to %" PRIu64 " are not drawn", rest->from, rest->to - 1);
    fprintf(p->m->out, "<g class=\"break\" data-from=\"%" PRIu64 "\" data-to=\"%" PRIu64 "\"><path class=\"rest\" d=\"M%d %dh%d\"/>",
            rest->from, rest->to, p->left, y, ROW * BYTE);
    put_label(p, p->left + ROW * BYTE / 2, y, "#fff", text);
    fputs("</g>\n", p->m->out);
    p->y += BREAK;
}

/* ---- entries ---- */

/* What is known of an entry before it is drawn. */
static int prepare(struct picture *p, uint32_t entry) {
    int status = map_turn(p->m, entry, &p->whole, &p->why);
    p->count = 0;
    p->f.extent = 0;
    if (status || p->why) return status;
    status = map_totals(p->m, &p->whole, &p->all);
    if (!status) status = map_find_in(&p->f, p->m, &p->whole, &p->all);
    return status ? status : map_strips(&p->f, p->strips, &p->count);
}

/* The name, the totals, in two lines of an open type, and the numbers of the bytes. */
static int head_height(const struct picture *p) { return p->why ? 2 * LINE : 82 + (p->all.open ? LINE - 4 : 0); }

static void put_head(struct picture *p) {
    FILE *out = p->m->out;
    char between[64];
    fprintf(out, "<text class=\"heading\" x=\"%d\" y=\"%d\">", p->left, p->y + 18);
    put_escaped(out, map_type(p->m, &p->whole), letters(ROW - 3, WIDEST));
    fprintf(out, "<tspan>, entry %" PRIu32 "</tspan></text>\n<text class=\"totals\" x=\"%d\" y=\"%d\">", p->whole.entry, p->left,
            p->y + 42);
    sprintf(between, "</text>\n<text class=\"totals\" x=\"%d\" y=\"%d\">", p->left, p->y + 38 + LINE);
    if (p->why)
        fputs(p->why, out);
    else
        map_print_totals(out, &p->whole, &p->all, between);
    if (!p->why && p->all.open) fputs(p->all.most > 1 ? "; two are drawn" : "; one is drawn", out);
    fputs("</text>\n", out);
    p->y += head_height(p);
    for (int k = 0; !p->why && k < ROW; k++)
        fprintf(out, "<text class=\"byte\" x=\"%d\" y=\"%d\">%d</text>\n", middle(p, (uint64_t)k, (uint64_t)k + 1), p->y - 8, k);
}

/* A member, in the colour of its scalars. Answers how wide that is. */
static int put_key(struct picture *p, uint32_t member, uint32_t type, int x, int y, int draw) {
    FILE *out = p->m->out;
    size_t most = letters(ROW / 2, NARROW), length;
    name_type(p->m->t, type, p->m->name);
    length = strlen(p->m->name);
    if (draw) {
        fprintf(out, "<rect x=\"%d\" y=\"%d\" width=\"14\" height=\"14\" rx=\"4\" fill=\"%s\"/>", x + 1, y - 11, colours[member % COLOURS]);
        fprintf(out, "<text class=\"key\" x=\"%d\" y=\"%d\">%" PRIu32 ": ", x + 22, y, member);
        put_escaped(out, p->m->name, most);
        fputs("</text>\n", out);
    }
    return 48 + (int)((length < most ? length : most) + step_length(member)) * 73 / 10;
}

/* What the colours stand for: the members of the mapped struct, or of the one that a mapped array is of. Answers how high that is. */
static int put_keys(struct picture *p, int draw) {
    struct entry e = p->whole.e;
    int x = 0, high = LINE + 10;
    while (e.kind == ARRAY || e.kind == RUNTIME_ARRAY) e = entry_at(p->m->t, e.reference);
    if (p->why || e.kind != STRUCT || e.count > MOST_KEYS) return 0;
    for (uint32_t k = 0; k < e.count; k++) {
        uint32_t type = member_at(p->m->t, e.reference + k).type;
        if (x && x + put_key(p, k, type, 0, 0, 0) > ROW * BYTE + 24) {
            x = 0;
            high += LINE;
        }
        x += put_key(p, k, type, p->left + x, p->y + high - 10, draw);
    }
    if (draw) p->y += high;
    return high;
}

static int height(struct picture *p) {
    int high = head_height(p) + put_keys(p, 0);
    for (size_t k = 0; k < p->count; k++) high += p->strips[k].left_out ? BREAK : HIGH + APART;
    return high;
}

static int put_entry(struct picture *p, uint32_t entry) {
    int status = prepare(p, entry);
    if (status) return status;
    fprintf(p->m->out, "<g class=\"map\" data-entry=\"%" PRIu32 "\" data-extent=\"%" PRIu64 "\">\n", entry, p->f.extent);
    put_head(p);
    for (size_t k = 0; !status && k < p->count; k++) {
        if (p->strips[k].left_out)
            put_break(p, &p->strips[k]);
        else
            status = put_row(p, &p->strips[k]);
    }
    put_keys(p, 1);
    fputs("</g>\n", p->m->out);
    return status;
}

static int put_picture(struct picture *p) {
    int status = GOOD, high = 2 * MARGIN - APART, digits = 1;
    for (uint32_t k = 0; !status && k < p->m->count; k++) {
        status = prepare(p, p->m->entries[k]);
        high += height(p) + (k ? BETWEEN : 0);
        int longest = 1;
        for (uint64_t rest = p->f.extent; rest > 9; rest /= 10) longest++;
        if (longest > digits) digits = longest;
    }
    if (status) return status;
    p->left = MARGIN + digits * DIGIT + 12;
    p->y = MARGIN;
    int wide = p->left + ROW * BYTE + MARGIN;
    fprintf(p->m->out,
            "<svg xmlns=\"http://www.w3.org/2000/svg\" width=\"%d\" height=\"%d\" viewBox=\"0 0 %d %d\">\n"
            "<rect width=\"%d\" height=\"%d\" fill=\"#fff\"/>\n%s",
            wide, high, wide, high, wide, high, style);
    for (uint32_t k = 0; !status && k < p->m->count; k++) {
        if (k) p->y += BETWEEN;
        status = put_entry(p, p->m->entries[k]);
    }
    fputs("</svg>\n", p->m->out);
    return status;
}

int map_svg(struct map *m) {
    struct picture *p = calloc(1, sizeof *p);
    if (!p) return fail("no memory for a picture");
    p->m = m;
    int status = put_picture(p);
    free(p);
    return status;
}
