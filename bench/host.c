/* One call of the library for a program on another processor: the call and what it is lent on standard input, the answer and what was lent
 * to be written, or the part that is viewed, on standard output (bench/src/lepugaso.rs). Numbers as this processor has them, little-
 * endian. */
#include <stdio.h>
#include <stdlib.h>

#include "lepugaso.h"

static void *take(size_t length) {
    void *bytes = malloc(length ? length : 1);
    if (!bytes || fread(bytes, 1, length, stdin) != length) exit(2);
    return bytes;
}

int main(void) {
    enum { WRITE, READ, VIEW, SET };
    uint32_t *call = take(2 * sizeof *call), entry = call[1];
    uint64_t *lengths = take(3 * sizeof *lengths), count = lengths[1], length = lengths[2];
    uint8_t *file = take(lengths[0]);
    uint32_t *words = take(count * sizeof *words);
    uint8_t *buf = take(length);
    const void *out = buf;
    const uint8_t *part;
    size_t out_len = length;
    lepugaso_answer answer;
    switch (call[0]) {
    case WRITE:
        answer = lepugaso_write(file, lengths[0], entry, words, count, buf, length);
        break;
    case READ:
        answer = lepugaso_read(file, lengths[0], entry, buf, length, words, count);
        out = words, out_len = count * sizeof *words;
        break;
    case VIEW:
        answer = lepugaso_view(file, lengths[0], entry, words, count, buf, length, &part, &out_len);
        out = part;
        break;
    case SET: /* the word, then the path */
        answer = lepugaso_set(file, lengths[0], entry, words + 1, count - 1, words, 1, buf, length);
        break;
    default:
        return 2;
    }
    fwrite(&answer, sizeof answer, 1, stdout);
    fwrite(out, 1, out_len, stdout);
    return fflush(stdout) != 0;
}
