/* What is asked of a layout file alone: check, list, uniform, order, form, rank, common. And convert, of no file. */
#include <stdlib.h>
#include <string.h>

#include "cli.h"

int run_check(int argc, char **argv) {
    if (argc != 1) return usage("check", "%s", argc ? "one file at a time" : "which file?");
    struct region file;
    struct table t;
    int status = load_table(argv[0], &file, &t);
    if (status) return status;
    fprintf(cli.out, "good: %" PRIu32 " types, %" PRIu32 " members, form %" PRIu32 "\n", t.types, t.members, t.form);
    drop(&file);
    return GOOD;
}

static void print_column(uint64_t number) {
    if (number == LEPUGASO_ABSENT)
        fputs(" -", cli.out);
    else
        fprintf(cli.out, " %" PRIu64, number);
}

int run_list(int argc, char **argv) {
    if (argc != 1) return usage("list", "%s", argc ? "one file at a time" : "which file?");
    struct region file;
    struct table t;
    int status = load_table(argv[0], &file, &t);
    if (status) return status;
    fprintf(cli.out, "entries %" PRIu32 "\n", t.types);
    for (uint32_t k = 0; !status && k < t.types; k++) {
        lepugaso_layout of;
        status = refused(lepugaso_layout_of(t.file, t.len, k, &of), &(struct question){.t = &t, .entry = k});
        if (status) break;
        fprintf(cli.out, "%" PRIu32, k);
        print_column(of.size);
        print_column(of.align);
        print_column(of.stride);
        fputc('\n', cli.out);
    }
    drop(&file);
    return status;
}

int run_uniform(int argc, char **argv) {
    if (argc != 2) return usage("uniform", "%s", argc < 2 ? "which file and entry?" : "too many arguments");
    struct region file;
    struct table t;
    uint32_t entry;
    int status = parse_entry(argv[1], &entry);
    if (!status) status = load_table(argv[0], &file, &t);
    if (status) return status;
    struct question q = {.t = &t, .entry = entry, .wanted = "fixed size"};
    status = refused(lepugaso_uniform(t.file, t.len, entry), &q);
    if (!status) {
        char name[NAME_ROOM];
        name_type(&t, entry, name);
        fprintf(cli.out, "%s may live in a uniform buffer\n", name);
    }
    drop(&file);
    return status;
}

/* ---- order ---- */

static int print_end(const struct table *t, uint32_t entry, uint64_t end) {
    lepugaso_answer now = lepugaso_size(t->file, t->len, entry);
    if (now.refusal)
        fprintf(cli.out, "the runtime array would start at %" PRIu64 "\n", end);
    else
        fprintf(cli.out, "%" PRIu64 " bytes for %" PRIu64 "\n", end, now.value);
    return GOOD;
}

static int planned(struct question *q, uint32_t *order) {
    lepugaso_answer plan = lepugaso_plan_order(q->t->file, q->t->len, q->entry, order, MOST_MEMBERS);
    int status = refused(plan, q);
    if (status) return status;
    for (size_t k = 0; k < plan.value; k++) fprintf(cli.out, "%s%" PRIu32, k ? " " : "", order[k]);
    fputc('\n', cli.out);
    q->list = order;
    q->list_len = plan.value;
    return GOOD;
}

static int given(struct question *q, uint32_t *order, int argc, char **argv) {
    int status = GOOD;
    for (int k = 0; !status && k < argc; k++) {
        uint64_t position;
        status = parse_number(argv[k], "a position", UINT32_MAX, &position);
        order[k] = (uint32_t)position;
    }
    q->list = order;
    q->list_len = (size_t)argc;
    return status;
}

int run_order(int argc, char **argv) {
    if (argc < 2) return usage("order", "which file and entry?");
    struct region file;
    struct table t;
    uint32_t entry;
    int status = parse_entry(argv[1], &entry);
    if (!status) status = load_table(argv[0], &file, &t);
    if (status) return status;
    struct question q = {.t = &t, .entry = entry, .wanted = "members"};
    uint32_t *order = malloc((MOST_MEMBERS + (size_t)argc) * sizeof *order);
    if (!order) {
        status = fail("no memory for an order");
    } else {
        status = argc > 2 ? given(&q, order, argc - 2, argv + 2) : planned(&q, order);
        lepugaso_answer end = {0, 0, 0};
        if (!status) end = lepugaso_check_order(t.file, t.len, entry, order, q.list_len);
        if (!status) status = refused(end, &q);
        if (!status) status = print_end(&t, entry, end.value);
    }
    free(order);
    drop(&file);
    return status;
}

/* ---- form ---- */

int run_form(int argc, char **argv) {
    if (argc != 2) return usage("form", "%s", argc < 2 ? "which file, and which form?" : "too many arguments");
    if (strcmp(argv[1], "1") && strcmp(argv[1], "2")) return usage("form", "there is no form %s", argv[1]);
    int to_2 = argv[1][0] == '2';
    struct region file;
    int status = load(argv[0], &file);
    if (status) return status;
    /* A file of form 1 grows by 4 bytes a member. */
    size_t room = file.len + 4 * MOST_MEMBERS;
    uint8_t *out = malloc(room);
    if (!out) {
        status = fail("no memory for %zu bytes", room);
    } else {
        lepugaso_answer moved = to_2 ? lepugaso_to_form_2(file.at, file.len, out, room) : lepugaso_to_form_1(file.at, file.len, out, room);
        status = refused(moved, &(struct question){.file = file.at, .file_len = file.len, .form = to_2 ? 2 : 1});
        if (!status) status = put_bytes(out, moved.value);
    }
    free(out);
    drop(&file);
    return status;
}

/* ---- ranks and common types ---- */

int run_rank(int argc, char **argv) {
    if (argc != 3) return usage("rank", "%s", argc < 3 ? "which file, and from which entry to which?" : "too many arguments");
    struct region file;
    struct table t;
    struct question q = {.t = &t};
    int status = parse_entry(argv[1], &q.entry);
    if (!status) status = parse_entry(argv[2], &q.to);
    if (!status) status = load_table(argv[0], &file, &t);
    if (status) return status;
    lepugaso_answer rank = lepugaso_rank(t.file, t.len, q.entry, q.to);
    status = refused(rank, &q);
    if (!status) fprintf(cli.out, "%" PRIu64 "\n", rank.value);
    drop(&file);
    return status;
}

int run_common(int argc, char **argv) {
    if (argc < 1) return usage("common", "which file and entries?");
    struct region file;
    struct table t;
    uint32_t *entries = malloc((size_t)argc * sizeof *entries);
    if (!entries) return fail("no memory for a list");
    struct question q = {.t = &t, .list = entries, .list_len = (size_t)argc - 1};
    int status = GOOD;
    for (int k = 1; !status && k < argc; k++) status = parse_entry(argv[k], &entries[k - 1]);
    if (!status) status = load_table(argv[0], &file, &t);
    if (!status) {
        lepugaso_answer common = lepugaso_common(t.file, t.len, entries, q.list_len);
        status = refused(common, &q);
        if (!status) {
            char name[NAME_ROOM];
            name_type(&t, (uint32_t)common.value, name);
            fprintf(cli.out, "%" PRIu64 " %s\n", common.value, name);
        }
        drop(&file);
    }
    free(entries);
    return status;
}

/* ---- literals ---- */

static uint32_t kind_of(const char *name) {
    for (uint32_t kind = 0; kind < KINDS; kind++)
        if (is_scalar(kind) && !strcmp(name, kind_name(kind))) return kind;
    return KINDS;
}

int run_convert(int argc, char **argv) {
    if (argc != 3) return usage("convert", "%s", argc < 3 ? "from which kind, which value, to which kind?" : "too many arguments");
    uint32_t from = kind_of(argv[0]), to = kind_of(argv[2]);
    uint64_t bits;
    if (from == KINDS || to == KINDS) return usage("convert", "%s is no kind of scalar", argv[from == KINDS ? 0 : 2]);
    int status = parse_value(argv[1], from, NULL, &bits);
    if (status) return status;
    lepugaso_answer found = lepugaso_convert(from, bits, to);
    status = refused(found, &(struct question){.value = argv[1], .kind = to, .from = from});
    if (status) return status;
    char text[VALUE_ROOM];
    print_value(text, to, found.value);
    fprintf(cli.out, "%s  0x%0*" PRIx64 "\n", text, 2 * (int)kind_width(to), found.value);
    return GOOD;
}
