/* Damaged layout files, buffers and lines through every subcommand, in one process, under the sanitizers. Every run ends; what is not
 * answered says so in one clear line, or two of wrong usage, and changes no file.
 *
 * damaged COUNT SEED, in a folder of its own. */
#include <stdarg.h>

#include "generated.h"

static uint8_t file[MOST_BYTES], buf[MOST_BYTES], before[MOST_BYTES];
static uint64_t runs, answered, seen[32];
static const char *command_line[16];

static void complain(const char *what, const struct said *s) {
    fprintf(stderr, "damaged: %s:", what);
    for (int k = 0; command_line[k]; k++) fprintf(stderr, " %s", command_line[k]);
    fprintf(stderr, "\nstatus %d, said: %s", s->status, s->err);
    exit(1);
}

/* A clear error is a line that begins with the command's name, and a refusal has its number; wrong usage shows the right one. */
static void judge(const struct said *s) {
    unsigned number;
    const char *line = s->err;
    runs++;
    if (s->status == GOOD) {
        answered++;
        if (s->err_len) complain("answered, and complains", s);
        return;
    }
    if (s->status != FAILED && s->status != USAGE) complain("no such status", s);
    if (strncmp(line, "lepugaso: ", 10) || s->err_len < 20 || s->err[s->err_len - 1] != '\n') complain("no clear error", s);
    size_t lines = 0;
    for (size_t k = 0; k < s->err_len; k++) lines += s->err[k] == '\n';
    if (s->status == FAILED && lines != 1) complain("not one line", s);
    if (s->status == USAGE && !strstr(line, "\nusage: lepugaso ")) complain("no usage", s);
    const char *refused = strstr(line, "refused ");
    if (refused && sscanf(refused, "refused %u", &number) == 1 && number < 32) seen[number]++;
    if (strstr(line, "no words here")) complain("no words", s);
}

/* One run; a file that it may change stays as it was if it fails. */
static void try(const char *in_place, ...) {
    const char *argv[16] = {"lepugaso"};
    int argc = 1;
    va_list with;
    va_start(with, in_place);
    while ((argv[argc] = va_arg(with, const char *))) argc++;
    va_end(with);
    memcpy(command_line, argv, sizeof command_line);
    size_t len = in_place ? file_bytes(in_place, before, sizeof before) : 0;
    struct said s = run(argc, argv);
    judge(&s);
    if (in_place && s.status != GOOD) {
        static uint8_t after[MOST_BYTES];
        if (file_bytes(in_place, after, sizeof after) != len || (len != SIZE_MAX && memcmp(before, after, len)))
            complain("changed a file", &s);
    }
    forget(&s);
}

/* ---- arguments by chance ---- */

static const char *some_path(char text[64]) {
    uint32_t steps = chance(4);
    size_t at = 0;
    strcpy(text, steps || chance(2) ? "" : ".");
    for (uint32_t k = 0; k < steps; k++) at += (size_t)sprintf(text + at, chance(2) ? ".%u" : "[%u]", (unsigned)chance(5));
    return text;
}

static const char *some_value(void) {
    static const char *const values[] = {"0",    "1",           "-1",   "2.5", "65504",      "1e30", "nan",
                                         "-inf", "nan(0x7c01)", "true", "x",   "4294967296", ""};
    return values[chance(sizeof values / sizeof values[0])];
}

static const char *some_number(char text[16], uint32_t below) {
    sprintf(text, "%u", (unsigned)(chance(20) ? chance(below) : chance(UINT32_MAX)));
    return text;
}

/* Whether a map of this file may be long: structs within structs within structs. */
static int short_map(const uint8_t *bytes, size_t len) {
    struct table t;
    if (lepugaso_check(bytes, len).refusal) return 1;
    read_trailer(bytes, len, &t);
    for (uint32_t k = 0; k < t.types; k++)
        if (count_scalars(&t, k).fixed > 20000 && entry_at(&t, k).kind == STRUCT) return 0;
    return 1;
}

static void try_all(size_t len) {
    char entry[16], other[16], path[64], offset[16], count[16], mask[16], member[16];
    some_number(entry, chance(2) ? SOME_TYPES : 1 + (len > TRAILER_LENGTH ? file[len - TRAILER_LENGTH] : 0));
    some_number(other, SOME_TYPES);
    some_path(path);
    some_number(offset, 34);
    some_number(count, 34);
    some_number(mask, 64);
    some_number(member, 7);
    try(NULL, "check", "file", NULL);
    try(NULL, "list", "file", NULL);
    if (short_map(file, len)) {
        try(NULL, "map", "file", NULL);
        try(NULL, "map", "file", entry, "--json", NULL);
        try("picture", "map", "file", entry, "--svg", "picture", NULL);
    }
    try(NULL, "read", "file", entry, "buf", NULL);
    try(NULL, "read", "file", entry, NULL);
    try("out", "write", "file", entry, "lines", "-o", "out", NULL);
    try(NULL, "get", "file", entry, path, "buf", NULL);
    try("buf", "set", "file", entry, path, some_value(), "buf", NULL);
    try(NULL, "bits", "file", entry, path, offset, count, "buf", NULL);
    try("buf", "bits", "file", entry, path, offset, count, "buf", some_value(), NULL);
    try(NULL, "bits", chance(2) ? "i32" : "u32", some_value(), offset, count, NULL);
    try(NULL, "uniform", "file", entry, NULL);
    try("buf", "clean", "file", entry, "buf", NULL);
    try(NULL, "order", "file", entry, NULL);
    try(NULL, "order", "file", entry, other, offset, "0", NULL);
    try("out", "form", "file", chance(2) ? "1" : "2", "-o", "out", NULL);
    try("site", "site", "fresh", "file", entry, "buf", "site", NULL);
    try(NULL, "site", "inheriting", "file", entry, NULL);
    try(NULL, "site", "member", "file", entry, mask, member, "buf", "site", NULL);
    try("site", "site", "set", "file", entry, mask, member, path, some_value(), "buf", "site", NULL);
    try(NULL, "site", "clear", "file", entry, mask, member, NULL);
    try(NULL, "convert", kind_name(chance(KINDS)), some_value(), kind_name(chance(KINDS)), NULL);
    try(NULL, "rank", "file", entry, other, NULL);
    try(NULL, "common", "file", entry, other, chance(2) ? NULL : entry, NULL);
    try("out", "pack", "words", "-o", "out", NULL);
    try(NULL, "pack", "file", NULL);
    try(NULL, "unpack", "file", NULL);
    try(NULL, "unpack", "buf", NULL);
}

/* A member more, which no struct names. */
static size_t stray(size_t len) {
    struct table t;
    read_trailer(file, len, &t);
    uint8_t *trailer = file + len - TRAILER_LENGTH;
    memmove(trailer + t.member_length, trailer, TRAILER_LENGTH);
    memset(trailer, 0, t.member_length);
    put16(trailer + t.member_length + 2, t.members + 1);
    return len + t.member_length;
}

/* Every refusal that such a run can give has to come, or the files are not damaged enough: 16 cannot, since a value is converted first, and
 * 17 needs a longer buffer. */
static void judge_all(void) {
    for (uint32_t number = LEPUGASO_REFUSED_SHORT_FILE; number <= LEPUGASO_REFUSED_CONVERSION; number++) {
        if (seen[number] || number == LEPUGASO_REFUSED_F16_WORD || number == LEPUGASO_REFUSED_LONG_BUFFER || number == 22) continue;
        fprintf(stderr, "damaged: nothing was refused by %u\n", (unsigned)number);
        exit(1);
    }
}

/* Lines as `read` and words as `unpack` writes them, damaged. */
static void fill_text(const char *path, const struct said *s) {
    static uint8_t text[MOST_BYTES];
    size_t len = s->out_len < sizeof text / 2 ? s->out_len : sizeof text / 2;
    memcpy(text, s->out, len);
    if (chance(8)) len = damage(text, len, sizeof text);
    fill_file(path, text, len);
}

int main(int argc, char **argv) {
    uint64_t files = argc > 1 ? strtoull(argv[1], NULL, 10) : 1000;
    chance_state = argc > 2 ? strtoull(argv[2], NULL, 10) : 1;
    for (uint64_t k = 0; k < files; k++) {
        char entry[16];
        size_t len = good_file(file), buf_len = chance(4) ? chance(300) : chance(4000);
        for (size_t j = 0; j < buf_len; j++) buf[j] = (uint8_t)(chance(3) ? chance(256) : 0);
        fill_file("file", file, len);
        fill_file("buf", buf, buf_len);
        fill_file("site", buf, buf_len);
        fill_file("stdin", buf, buf_len);
        some_number(entry, file[len - TRAILER_LENGTH]);
        struct said lines = RUN("lepugaso", "read", "file", entry, "buf"), words = RUN("lepugaso", "unpack", "file");
        fill_text("lines", &lines);
        fill_text("words", &words);
        forget(&lines);
        forget(&words);
        /* One in eight files is left as it is: its buffer, lines and words are damaged, and its arguments are by chance. */
        if (!chance(40))
            len = stray(len);
        else if (chance(8))
            len = damage(file, len, sizeof file);
        fill_file("file", file, len);
        try_all(len);
    }
    if (files >= 10000) judge_all();
    printf("%" PRIu64 " damaged files, %" PRIu64 " runs, %" PRIu64 " of them answered, every refusal among the others\n", files, runs,
           answered);
    return 0;
}
