/* The command: which subcommand, its options that all have, its help. */
#include <stdarg.h>
#include <string.h>

#include "cli.h"

struct streams cli;

const struct command commands[] = {
    {"check", "check FILE", "Is FILE a good layout file? Says how many entries it has.", run_check},
    {"list", "list FILE", "A line for each entry: its number, size, alignment and stride, - for one that it does not have.", run_list},
    {"map", "map FILE [ENTRY] [--json | --svg OUT]",
     "Where the members of an entry lie, and the gaps between them. Without ENTRY, of every entry that no other is made of. --json for\n"
     "scripts, --svg a picture of its bytes.",
     run_map},
    {"read", "read FILE ENTRY [BUFFER]", "A line for each scalar of the entry in BUFFER (standard input): offset, path, type, value, bits.",
     run_read},
    {"write", "write FILE ENTRY [LINES]",
     "The bytes of an entry from LINES (standard input): lines as read writes them, or a path and a value, or a value alone on each, in\n"
     "the order of read. Bytes that hold no scalar are 0.",
     run_write},
    {"get", "get FILE ENTRY PATH [BUFFER]", "The scalar at PATH, as read writes it; of a path to more, all scalars there.", run_get},
    {"set", "set FILE ENTRY PATH VALUE BUFFER", "Stores VALUE in the scalar at PATH, in place. No other byte changes.", run_set},
    {"bits",
     "bits FILE ENTRY PATH OFFSET COUNT BUFFER [VALUE]\n"
     "bits i32|u32 NUMBER OFFSET COUNT [VALUE]",
     "The field of COUNT bits from bit OFFSET on of the i32 or u32 at PATH, or of NUMBER. With VALUE its low bits become the field, in\n"
     "place.",
     run_bits},
    {"uniform", "uniform FILE ENTRY", "May the entry live in a uniform buffer?", run_uniform},
    {"clean", "clean FILE ENTRY BUFFER", "Makes 0 every byte of the entry that holds no scalar, in place. Says how many changed.",
     run_clean},
    {"order", "order FILE ENTRY [POSITION...]",
     "Would the struct be smaller with its members in that order? Without one, in the order that the planner offers.", run_order},
    {"form", "form FILE 1|2", "The layout file in form 1 or 2.", run_form},
    {"site",
     "site fresh FILE ENTRY FACTORY SITE\n"
     "site inheriting FILE ENTRY\n"
     "site member FILE ENTRY MASK MEMBER FACTORY SITE\n"
     "site set FILE ENTRY MASK MEMBER PATH VALUE FACTORY SITE\n"
     "site clear FILE ENTRY MASK MEMBER",
     "A factory sheet and a site block of one struct. MASK says which members are the site's own: bit k is member k. fresh makes SITE a\n"
     "copy of FACTORY, inheriting an empty block; member shows a member as the block has it; set stores VALUE at PATH in MEMBER, in SITE;\n"
     "clear gives the member back to the factory. All but member write the new mask.",
     run_site},
    {"convert", "convert KIND VALUE KIND",
     "A literal as one of another kind, as WGSL converts it by itself. The kinds: bool, i32, u32, f32, f16, i64, u64, f64, abstract-int,\n"
     "abstract-float.",
     run_convert},
    {"rank", "rank FILE FROM TO", "How far WGSL's automatic conversion from entry FROM to entry TO is.", run_rank},
    {"common", "common FILE ENTRY...", "The entry that all entries of a list convert to.", run_common},
    {"pack", "pack [LINES]", "The layout file that LINES (standard input) describe in words; lepugaso(5) has the words.", run_pack},
    {"unpack", "unpack FILE", "A layout file as lines of words; pack gives the same bytes.", run_unpack},
    {NULL, NULL, NULL, NULL},
};

static const struct command *running;

/* ---- complaints ---- */

int fail(const char *format, ...) {
    va_list with;
    va_start(with, format);
    fflush(cli.out);
    fputs("lepugaso: ", cli.err);
    vfprintf(cli.err, format, with);
    fputc('\n', cli.err);
    va_end(with);
    return FAILED;
}

static const struct command *command_of(const char *name) {
    for (const struct command *c = commands; c->name; c++)
        if (!strcmp(c->name, name)) return c;
    return NULL;
}

/* The lines that show how a command is called. */
static void print_usage(FILE *to, const char *first, const char *next, const char *lines) {
    for (const char *before = first; *lines; before = next) {
        int len = (int)strcspn(lines, "\n");
        fprintf(to, "%slepugaso %.*s\n", before, len, lines);
        lines += len + (lines[len] != '\0');
    }
}

int usage(const char *command, const char *format, ...) {
    va_list with;
    va_start(with, format);
    fputs("lepugaso: ", cli.err);
    vfprintf(cli.err, format, with);
    va_end(with);
    const struct command *c = command ? command_of(command) : running;
    fputc('\n', cli.err);
    print_usage(cli.err, "usage: ", "       ", c ? c->usage : "COMMAND ..., where lepugaso --help lists the commands");
    return USAGE;
}

/* ---- help ---- */

static int print_help(const struct command *c) {
    if (c) {
        print_usage(cli.out, "usage: ", "       ", c->usage);
        fprintf(cli.out, "\n%s\n\n-o OUT writes to OUT what would go to standard output: all of it or nothing.\n", c->help);
        return GOOD;
    }
    fprintf(cli.out, "Lays out, fills and reads the buffers that WGSL shaders share with a host.\n\n");
    for (c = commands; c->name; c++) print_usage(cli.out, "    ", "    ", c->usage);
    fprintf(
        cli.out,
        "\nlepugaso COMMAND --help says more of each, lepugaso(1) all. FILE is a layout file, ENTRY a number of its types from 0, PATH\n"
        "as .1[2]: member 1, then index 2. Status: 0; 1, refused, or a file that cannot be had; 2, wrong usage. Version " LEPUGASO_VERSION
        ".\n");
    return GOOD;
}

/* ---- all of it ---- */

/* Takes `-o OUT` out of the arguments; what follows `--` is no option. */
static int take_output(int *argc, char **argv, const char **out) {
    int kept = 0;
    for (int k = 0; k < *argc; k++) {
        if (!strcmp(argv[k], "--")) {
            while (++k < *argc) argv[kept++] = argv[k];
        } else if (strcmp(argv[k], "-o")) {
            argv[kept++] = argv[k];
        } else if (*out || k + 1 == *argc) {
            return 0;
        } else {
            *out = argv[++k];
        }
    }
    *argc = kept;
    return 1;
}

int lepugaso_command(int argc, char **argv) {
    running = NULL;
    if (argc < 2) return usage(NULL, "which command?");
    if (!strcmp(argv[1], "--help") || !strcmp(argv[1], "-h") || !strcmp(argv[1], "help"))
        return print_help(argc > 2 ? command_of(argv[2]) : NULL);
    if (!strcmp(argv[1], "--version")) {
        fprintf(cli.out, "lepugaso " LEPUGASO_VERSION "\n");
        return GOOD;
    }
    const struct command *c = running = command_of(argv[1]);
    if (!c) return usage(NULL, "there is no command %s", argv[1]);
    for (int k = 2; k < argc && strcmp(argv[k], "--"); k++)
        if (!strcmp(argv[k], "--help")) return print_help(c);

    const char *out = NULL;
    argc -= 2;
    argv += 2;
    if (!take_output(&argc, argv, &out)) return usage(c->name, "-o takes one file");
    if (!out || !strcmp(out, "-")) return c->run(argc, argv);

    struct whole_file to;
    int status = open_whole(out, &to);
    if (status) return status;
    FILE *before = cli.out;
    cli.out = to.file;
    status = c->run(argc, argv);
    cli.out = before;
    return close_whole(&to, status);
}

#ifndef LEPUGASO_NO_MAIN
int main(int argc, char **argv) {
    cli = (struct streams){stdin, stdout, stderr};
    guard_interrupts();
    int status = lepugaso_command(argc, argv);
    /* A full disk shows when the last bytes go out. */
    if ((fflush(stdout) || ferror(stdout)) && status == GOOD) status = fail("standard output: it cannot be written");
    return status;
}
#endif
