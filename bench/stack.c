/* How much stack each call takes at the most of three tables of 256 entries, each within the next: nested arrays, nested structs, and both
 * in turn, for a block the last a struct in any case, and for an order one of three members; views, sets and bit fields go by a path
 * through all of them, what is cleaned is a gap within all of them, what moves to form 1 is the table in form 2, and what is converted is
 * the abstract float after 1. The call runs in a thread whose stack was painted before; what is no longer paint was used, the thread's own
 * start included. Ends with 1 where a call takes more than the header says (LEPUGASO_STACK). */
#include <pthread.h>
#include <stdio.h>
#include <stdlib.h>
#include <string.h>

#include "lepugaso.h"

enum { ENTRIES = 256, STACK = 1 << 20, PAINT = 0xa5 };

static uint8_t file[12 * ENTRIES + 12 * ENTRIES + 10], form_2[12 * ENTRIES + 16 * ENTRIES + 10], moved[sizeof form_2], buf[16];
static size_t file_len, form_2_len;
static uint8_t site[sizeof buf];
static uint64_t mask, first;
static uint32_t words[3] = {1, 2, 3}, order[3];
static const uint32_t seven = 7;
static uint32_t path[ENTRIES - 1];
static enum {
    CHECK, SIZE, ALIGN, MIN_SIZE, LAYOUT_OF, UNIFORM, RANK, COMMON, TO_FORM_2, TO_FORM_1, WRITE, READ, CLEAN, VIEW, SET, INSERT,
    EXTRACT, SITE_FRESH, SITE_INHERITING, SITE_MEMBER, SITE_CLEAR, SITE_SET, PLAN_ORDER, CHECK_ORDER, CONVERT, CALLS
} way;
static const char *const names[CALLS] = {
    "check",           "size",        "align",      "min_size", "layout_of",  "uniform",     "rank",        "common",       "to_form_2",
    "to_form_1",       "write",       "read",       "clean",    "view",       "set",         "insert_bits", "extract_bits", "site_fresh",
    "site_inheriting", "site_member", "site_clear", "site_set", "plan_order", "check_order",  "convert",
};
enum { ARRAYS, STRUCTS, BOTH, TABLES };
static lepugaso_answer answer;

static void put(uint8_t *at, uint8_t kind, uint8_t rows, uint8_t reference, uint8_t count) {
    at[0] = kind, at[2] = rows, at[4] = reference, at[8] = count;
}

/* An i32, a vec3 of it, a struct of that; then each entry an array of one, or a struct, of the one before. */
static void nest(int table) {
    int members = 0;
    uint8_t types[ENTRIES];
    memset(file, 0, sizeof file);
    put(file, 1, 0, 0, 0);
    put(file + 12, 7, 3, 0, 0);
    for (int k = 2; k < ENTRIES; k++) {
        int is_struct = k == 2 || table == STRUCTS || (table == BOTH && k % 2 == 0) || (way >= SITE_FRESH && k == ENTRIES - 1);
        if (is_struct) {
            /* Between two i32 the one before takes 48 bytes, and 32 in front of them. */
            int between = way >= PLAN_ORDER && k == ENTRIES - 1;
            put(file + 12 * k, 12, 0, (uint8_t)members, between ? 3 : 1);
            if (between) types[members++] = 0;
            types[members++] = (uint8_t)(k - 1);
            if (between) types[members++] = 0;
        } else {
            put(file + 12 * k, 9, 0, (uint8_t)(k - 1), 1);
        }
        /* A step into each entry but the first, an i32. */
        path[ENTRIES - 1 - k] = is_struct ? LEPUGASO_MEMBER(0) : 0;
    }
    path[ENTRIES - 2] = 2;
    uint8_t *end = file + 12 * ENTRIES;
    for (int m = 0; m < members; m++, end += 12) end[0] = types[m];
    end[1] = 1, end[2] = (uint8_t)members, end[3] = (uint8_t)(members >> 8), end[8] = 1;
    file_len = (size_t)(end - file) + 10;
    form_2_len = (size_t)lepugaso_to_form_2(file, file_len, form_2, sizeof form_2).value;
}

static void *call(void *unused) {
    const uint8_t *part;
    size_t part_len;
    lepugaso_layout layout;
    const uint32_t last = ENTRIES - 1, list[2] = {last, last};
    switch (way) {
    case CHECK: answer = lepugaso_check(file, file_len); break;
    case SIZE: answer = lepugaso_size(file, file_len, last); break;
    case ALIGN: answer = lepugaso_align(file, file_len, last); break;
    case MIN_SIZE: answer = lepugaso_min_size(file, file_len, last); break;
    case LAYOUT_OF: answer = lepugaso_layout_of(file, file_len, last, &layout); break;
    case UNIFORM: answer = lepugaso_uniform(file, file_len, last); break;
    case RANK: answer = lepugaso_rank(file, file_len, last, last); break;
    case COMMON: answer = lepugaso_common(file, file_len, list, 2); break;
    case TO_FORM_2: answer = lepugaso_to_form_2(file, file_len, moved, sizeof moved); break;
    case TO_FORM_1: answer = lepugaso_to_form_1(form_2, form_2_len, moved, sizeof moved); break;
    case WRITE: answer = lepugaso_write(file, file_len, last, words, 3, buf, sizeof buf); break;
    case READ: answer = lepugaso_read(file, file_len, last, buf, sizeof buf, words, 3); break;
    case CLEAN:
        memset(buf + 12, 1, 4);
        answer = lepugaso_clean(file, file_len, last, buf, sizeof buf, &first);
        break;
    case VIEW: answer = lepugaso_view(file, file_len, last, path, ENTRIES - 1, buf, sizeof buf, &part, &part_len); break;
    case SET: answer = lepugaso_set(file, file_len, last, path, ENTRIES - 1, &seven, 1, buf, sizeof buf); break;
    case INSERT: answer = lepugaso_insert_bits(file, file_len, last, path, ENTRIES - 1, 1, 3, 12, buf, sizeof buf); break;
    case EXTRACT: answer = lepugaso_extract_bits(file, file_len, last, path, ENTRIES - 1, buf, sizeof buf, 0, 12); break;
    case SITE_FRESH: answer = lepugaso_site_fresh(file, file_len, last, buf, sizeof buf, site, sizeof site, &mask); break;
    case SITE_INHERITING: answer = lepugaso_site_inheriting(file, file_len, last, &mask); break;
    case SITE_MEMBER:
        answer = lepugaso_site_member(file, file_len, last, 0, mask, buf, sizeof buf, site, sizeof site, &part, &part_len);
        break;
    case SITE_CLEAR: answer = lepugaso_site_clear(file, file_len, last, 0, &mask); break;
    case SITE_SET:
        /* The first step of the path is the member; its bit is clear, so that it is copied. */
        mask = 0;
        answer = lepugaso_site_set(file, file_len, last, 0, path + 1, ENTRIES - 2, &seven, 1, buf, sizeof buf, site, sizeof site, &mask);
        break;
    case PLAN_ORDER: answer = lepugaso_plan_order(file, file_len, last, order, 3); break;
    case CHECK_ORDER: answer = lepugaso_check_order(file, file_len, last, order, 3); break;
    default: answer = lepugaso_convert(6, 0x3ff0000000000001, 3);
    }
    return unused;
}

/* The bytes of stack of one call on one table. */
static size_t used(int table) {
    unsigned char *stack = aligned_alloc(4096, STACK);
    pthread_attr_t attributes;
    pthread_t thread;
    size_t clean = 0;
    nest(table);
    if (!stack) exit(2);
    memset(stack, PAINT, STACK);
    if (pthread_attr_init(&attributes) || pthread_attr_setstack(&attributes, stack, STACK)) exit(2);
    if (pthread_create(&thread, &attributes, call, NULL) || pthread_join(thread, NULL)) exit(2);
    while (clean < STACK && stack[clean] == PAINT) clean++;
    free(stack);
    /* What a path leads to lies at 8; the field is what the set before put there, 7, and a bit inserted. The gap is the vec3's. */
    int at_path = (way >= VIEW && way <= EXTRACT) || way == SITE_SET;
    if (answer.refusal || (at_path && answer.value != (way == EXTRACT ? 15 : 8))) exit(1);
    if (way == CLEAN && (answer.value != 4 || first != 12)) exit(1);
    /* All 16 bytes are copied, of the one member. */
    if (way == SITE_FRESH && (mask != 1 || memcmp(site, buf, sizeof site))) exit(1);
    if ((way == PLAN_ORDER || way == CHECK_ORDER) && (answer.value != (way == PLAN_ORDER ? 3 : 32) || order[0] != 1)) exit(1);
    if (way == CONVERT && answer.value != 0x3f800000) exit(1);
    return STACK - clean;
}

int main(void) {
    printf("%-15s %8s %8s %8s %8s\n", "stack of", "arrays", "structs", "both", "most");
    for (way = CHECK; way < CALLS; way++) {
        size_t most = 0, each[TABLES];
        for (int table = 0; table < TABLES; table++) {
            each[table] = used(table);
            if (each[table] > most) most = each[table];
        }
        printf("%-15s %8zu %8zu %8zu %8zu\n", names[way], each[ARRAYS], each[STRUCTS], each[BOTH], most);
        if (most > LEPUGASO_STACK) return 1;
    }
    return 0;
}
