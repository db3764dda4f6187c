/* Layout files and buffers by chance, for the tests of the command. */
#ifndef GENERATED_H
#define GENERATED_H

#include <stdint.h>
#include <stdio.h>
#include <stdlib.h>
#include <string.h>

#include "cli.h"

static uint64_t chance_state;

static uint32_t chance(uint32_t below) {
    chance_state = chance_state * UINT64_C(6364136223846793005) + UINT64_C(1442695040888963407);
    return below ? (uint32_t)((chance_state >> 33) % below) : 0;
}

static void put16(uint8_t *at, uint32_t n) {
    at[0] = (uint8_t)n;
    at[1] = (uint8_t)(n >> 8);
}

static void put32(uint8_t *at, uint32_t n) {
    put16(at, n);
    put16(at + 2, n >> 16);
}

enum { MOST_BYTES = 8192, SOME_TYPES = 14, SOME_MEMBERS = 40 };

/* A type of a lower number, of one of the kinds in the set. */
static uint32_t lower(const uint8_t *types, uint32_t k, uint32_t set) {
    for (int tries = 0; tries < 50; tries++) {
        uint32_t j = chance(k);
        if (set >> types[12 * j] & 1) return j;
    }
    return chance(k);
}

/* One type entry, which may be a bad one. */
static void put_type(uint8_t *types, uint32_t k, uint32_t *members) {
    static const uint8_t scalars[] = {U32, F32, I32, F16, U64, F64, I64, BOOL, ABSTRACT_INT, ABSTRACT_FLOAT};
    enum { STORED = 1 << I32 | 1 << U32 | 1 << F32 | 1 << F16 | 1 << I64 | 1 << U64 | 1 << F64, ANY = 0xFFFF & ~(1 << RUNTIME_ARRAY) };
    uint8_t *e = types + 12 * k;
    memset(e, 0, 12);
    uint32_t kind = k < 3 ? 100 : 6 + chance(9);
    if (kind < VECTOR || kind > STRUCT) kind = 100;
    e[0] = (uint8_t)kind;
    if (kind == 100) {
        e[0] = scalars[chance(k < 3 ? 4 : chance(8) ? 7 : 10)];
    } else if (kind == VECTOR) {
        e[2] = (uint8_t)(2 + chance(3));
        put16(e + 4, lower(types, k, STORED));
    } else if (kind == MATRIX) {
        e[1] = (uint8_t)(2 + chance(3));
        e[2] = (uint8_t)(2 + chance(3));
        put16(e + 4, lower(types, k, 1 << F32 | 1 << F16));
    } else if (kind == ARRAY || kind == RUNTIME_ARRAY) {
        put16(e + 4, lower(types, k, ANY));
        if (kind == ARRAY) put32(e + 8, 1 + chance(5));
    } else if (kind == ATOMIC) {
        put16(e + 4, lower(types, k, 1 << I32 | 1 << U32));
    } else {
        uint32_t count = 1 + chance(6);
        put16(e + 4, *members);
        put32(e + 8, count);
        *members += count;
    }
}

static void put_member(uint8_t *m, const uint8_t *types, uint32_t owner, int last, uint32_t form) {
    uint32_t flags = chance(4) ? 0 : chance(4);
    memset(m, 0, form == 2 ? 16 : 12);
    put16(m, lower(types, owner, last ? 0xFFFF : 0xFFFF & ~(1 << RUNTIME_ARRAY)));
    put16(m + 2, flags);
    if (flags & 1) put32(m + 4, 4 * (1 + chance(60)));
    if (flags & 2) put32(m + 8, UINT32_C(1) << (2 + chance(5)));
    if (form == 2 && chance(2)) put32(m + 12, chance(1000));
}

/* A file by chance, good or not; answers its length. */
static size_t any_file(uint8_t *file) {
    uint32_t types = 1 + chance(SOME_TYPES), members = 0, form = 1 + !chance(3), start = chance(3) ? 0 : chance(20);
    for (uint32_t k = 0; k < start; k++) file[k] = (uint8_t)chance(256);
    uint8_t *at = file + start, *m;
    for (uint32_t k = 0; k < types; k++) put_type(at, k, &members);
    m = at + 12 * types;
    for (uint32_t k = 0; k < types; k++) {
        uint32_t count = at[12 * k] == STRUCT ? at[12 * k + 8] : 0;
        for (uint32_t j = 0; j < count; j++, m += form == 2 ? 16 : 12) put_member(m, at, k, j + 1 == count, form);
    }
    put16(m, types);
    put16(m + 2, members);
    put32(m + 4, start);
    put16(m + 8, form);
    return (size_t)(m + 10 - file);
}

static size_t good_file(uint8_t *file) {
    for (;;) {
        size_t len = any_file(file);
        if (!lepugaso_check(file, len).refusal) return len;
    }
}

/* A few bytes changed, cut off, put in, or all of it something else. */
static size_t damage(uint8_t *bytes, size_t len, size_t room) {
    uint32_t how = chance(8), times = 1 + chance(4);
    if (how == 0) return chance((uint32_t)len + 1);
    if (how == 1) {
        size_t more = len + 1 + chance(40) < room ? len + 1 + chance(40) : room;
        for (size_t k = len; k < more && k < room; k++) bytes[k] = (uint8_t)chance(256);
        return more < room ? more : room;
    }
    if (how == 2) {
        len = chance(200);
        for (size_t k = 0; k < len; k++) bytes[k] = (uint8_t)chance(256);
        return len;
    }
    for (uint32_t k = 0; len && k < times; k++) {
        /* Most often near the end, where a layout file's trailer and members are, or one bit. */
        size_t at = chance(3) ? chance((uint32_t)len) : len - 1 - chance(len < 10 ? (uint32_t)len : 10);
        bytes[at] = chance(2) ? (uint8_t)(bytes[at] ^ 1 << chance(8)) : (uint8_t)chance(256);
    }
    return len;
}

/* ---- the command, in this process ---- */

static void fill_file(const char *path, const uint8_t *bytes, size_t len) {
    FILE *to = fopen(path, "wb");
    if (!to || fwrite(bytes, 1, len, to) != len || fclose(to)) {
        perror(path);
        exit(2);
    }
}

static size_t file_bytes(const char *path, uint8_t *bytes, size_t room) {
    FILE *from = fopen(path, "rb");
    if (!from) return SIZE_MAX;
    size_t len = fread(bytes, 1, room, from);
    fclose(from);
    return len;
}

/* What one run said. */
struct said {
    int status;
    char *out, *err;
    size_t out_len, err_len;
};

static struct said run(int argc, const char *const *given) {
    struct said s = {0};
    char *argv[64], copies[64][256];
    for (int k = 0; k < argc; k++) {
        snprintf(copies[k], sizeof copies[k], "%s", given[k]);
        argv[k] = copies[k];
    }
    argv[argc] = NULL;
    cli.in = fopen("stdin", "rb");
    cli.out = open_memstream(&s.out, &s.out_len);
    cli.err = open_memstream(&s.err, &s.err_len);
    if (!cli.in || !cli.out || !cli.err) exit(2);
    s.status = lepugaso_command(argc, argv);
    fclose(cli.in);
    fclose(cli.out);
    fclose(cli.err);
    return s;
}

static void forget(struct said *s) {
    free(s->out);
    free(s->err);
}

#define RUN(...) run((int)(sizeof((const char *[]){__VA_ARGS__}) / sizeof(const char *)), (const char *[]){__VA_ARGS__})

#endif
