/* Generated files, there and back: read and write give the bytes, unpack and pack the file; and what a map says of gaps is what cleaning
 * finds.
 *
 * round COUNT SEED, in a folder of its own; round files COUNT SEED writes so many files there, and does nothing else. */
#include "generated.h"

static uint8_t file[MOST_BYTES], buf[1 << 16], back[1 << 16];
static uint64_t buffers, files, maps;

static void complain(const char *what, uint32_t entry, const struct said *s) {
    fprintf(stderr, "round: %s, entry %u of the file: status %d, said: %s\n", what, (unsigned)entry, s ? s->status : 0, s ? s->err : "");
    exit(1);
}

/* A run that is answered, with its output in a file. */
static void answered(const char *what, uint32_t entry, struct said s, const char *path) {
    if (s.status || s.err_len) complain(what, entry, &s);
    if (path) fill_file(path, (const uint8_t *)s.out, s.out_len);
    forget(&s);
}

/* The lines of `read` with their value alone, or with path and value, or all but the bits. */
static void cut_lines(const char *from, const char *to) {
    FILE *in = fopen(from, "r"), *out = fopen(to, "w");
    char offset[64], path[4096], type[64], value[VALUE_ROOM], bits[64];
    if (!in || !out) exit(2);
    while (fscanf(in, "%63s %4095s %63s %63s %63s", offset, path, type, value, bits) == 5) {
        uint32_t how = chance(4);
        if (how == 0) fprintf(out, "%s # %s\n", value, path);
        if (how == 1) fprintf(out, "\t%s %s\r\n\n", path, value);
        if (how == 2) fprintf(out, "%s %s %s %s\n", offset, path, type, value);
        if (how == 3) fprintf(out, "%s %s %s %s %s\n", offset, path, type, value, bits);
    }
    fclose(in);
    fclose(out);
}

/* Any bytes with clean gaps, as long as they are to be written: what is read of them writes them. */
static void round_buffer(const struct table *t, uint32_t entry) {
    char number[16];
    uint64_t first, size = chance(2000);
    lepugaso_answer fixed = lepugaso_size(t->file, t->len, entry);
    if (!fixed.refusal) size = fixed.value;
    if (size > sizeof buf) return;
    for (uint64_t k = 0; k < size; k++) buf[k] = (uint8_t)(chance(4) ? chance(256) : 255 * chance(2));
    if (lepugaso_clean(t->file, t->len, entry, buf, size, &first).refusal) return;
    /* Clean already: what is told is how many bytes the entry has. */
    if (lepugaso_clean(t->file, t->len, entry, buf, size, &first).value) exit(2);
    buffers++;
    sprintf(number, "%u", (unsigned)entry);
    fill_file("buf", buf, size);
    answered("read", entry, RUN("lepugaso", "read", "file", number, "buf"), "lines");
    cut_lines("lines", "cut");
    answered("write", entry, RUN("lepugaso", "write", "file", number, "lines", "-o", "out"), NULL);
    if (file_bytes("out", back, sizeof back) != first || memcmp(buf, back, first)) complain("read and write differ", entry, NULL);
    answered("write", entry, RUN("lepugaso", "write", "file", number, "cut"), "out");
    if (file_bytes("out", back, sizeof back) != first || memcmp(buf, back, first)) complain("read, cut and write differ", entry, NULL);
}

/* The bytes of gaps, by the map and by cleaning a buffer of ones. */
static void round_map(const struct table *t, uint32_t entry) {
    char number[16];
    uint64_t first;
    lepugaso_answer size = lepugaso_size(t->file, t->len, entry);
    if (size.refusal || size.value > sizeof buf) return;
    memset(buf, 255, size.value);
    lepugaso_answer gaps = lepugaso_clean(t->file, t->len, entry, buf, size.value, &first);
    if (gaps.refusal) return;
    maps++;
    sprintf(number, "%u", (unsigned)entry);
    struct said s = RUN("lepugaso", "map", "file", number, "--json");
    /* The entry's own numbers are the last. */
    const char *at = NULL;
    for (const char *next = s.out; (next = strstr(next, "\"gap_bytes\":")); next++) at = next;
    if (s.status || !at || strtoull(at + 12, NULL, 10) != gaps.value) complain("the map's gaps are not those that are cleaned", entry, &s);
    forget(&s);
}

static void round_file(size_t len) {
    fill_file("file", file, len);
    answered("unpack", 0, RUN("lepugaso", "unpack", "file"), "words");
    answered("pack", 0, RUN("lepugaso", "pack", "words"), "out");
    if (file_bytes("out", back, sizeof back) != len || memcmp(file, back, len)) complain("unpack and pack differ", 0, NULL);
    files++;
}

/* Files for other tests. */
static int write_files(uint64_t count) {
    for (uint64_t k = 0; k < count; k++) {
        char name[32];
        size_t len = good_file(file);
        sprintf(name, "%" PRIu64 ".layout", k);
        fill_file(name, file, len);
    }
    return 0;
}

int main(int argc, char **argv) {
    if (argc > 3 && !strcmp(argv[1], "files")) {
        chance_state = strtoull(argv[3], NULL, 10);
        return write_files(strtoull(argv[2], NULL, 10));
    }
    uint64_t times = argc > 1 ? strtoull(argv[1], NULL, 10) : 1000;
    chance_state = argc > 2 ? strtoull(argv[2], NULL, 10) : 1;
    fill_file("stdin", buf, 0);
    for (uint64_t k = 0; k < times; k++) {
        struct table t;
        size_t len = good_file(file);
        round_file(len);
        read_trailer(file, len, &t);
        for (uint32_t entry = 0; entry < t.types; entry++) {
            round_buffer(&t, entry);
            round_map(&t, entry);
        }
        round_file(damage(file, len, sizeof file));
    }
    printf("%" PRIu64 " files unpacked and packed, %" PRIu64 " buffers read and written, the gaps of %" PRIu64 " maps cleaned\n", files,
           buffers, maps);
    return 0;
}
