/* Memory for what a test lends: it ends with a page, and the page after that cannot be touched. Included before anything else. */
#ifndef PAGES_H
#define PAGES_H

#define _GNU_SOURCE /* MAP_ANONYMOUS, under -std=c99 */
#include <stdint.h>
#include <stdlib.h>
#include <string.h>
#include <sys/mman.h>

enum { PAGE = 4096 };

/* `length` bytes, all 0. */
static uint8_t *fresh(size_t length) {
    size_t room = (length / PAGE + 1) * PAGE;
    uint8_t *pages = mmap(NULL, room + 2 * PAGE, PROT_NONE, MAP_PRIVATE | MAP_ANONYMOUS, -1, 0);
    if (pages == MAP_FAILED || mprotect(pages + PAGE, room, PROT_READ | PROT_WRITE)) exit(2);
    return pages + PAGE + room - length;
}

/* `length` bytes of `fresh`, from now on to be read and not written. Of no bytes nothing is asked: qemu 7.2 refuses to protect none. */
static const uint8_t *sealed(uint8_t *bytes, size_t length) {
    size_t before = (uintptr_t)bytes % PAGE;
    if (length && mprotect(bytes - before, before + length, PROT_READ)) exit(2);
    return bytes;
}

/* A copy of `length` bytes that can be read and not written. */
static const uint8_t *lent(const void *bytes, size_t length) {
    uint8_t *copy = fresh(length);
    if (length) memcpy(copy, bytes, length);
    return sealed(copy, length);
}

#endif
