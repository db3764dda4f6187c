/* A file that is refused, put to every call that takes one. */
#ifndef REFUSED_H
#define REFUSED_H

#include "test.h"

/* Every call refuses it alike, asked for this entry, be there such a one or not, and leaves all that it is lent. But a move between the two
 * forms first refuses a file that is not of the one it starts from. `line` is where the file stands in the test. */
static void refused_by_all(const char *source, int line, const uint8_t *file, size_t length, uint32_t entry, uint32_t refusal,
                           uint32_t place) {
#define ALIKE(call) expect(source, line, #call, (call), refusal, place, 0)
#define LEFT(fact) hold(source, line, #fact, (fact))
    static const uint8_t bytes[] = {1, 2, 3, 4};
    const uint32_t list[] = {entry};
    lepugaso_layout out = {1, 2, 3, 4};
    uint32_t word = 5;
    uint64_t mask = 5, first = 5;
    uint8_t buf[] = {6, 7, 8, 9};
    const uint8_t *part = NULL;
    size_t part_len = 5;
    ALIKE(lepugaso_check(file, length));
    ALIKE(lepugaso_size(file, length, entry));
    ALIKE(lepugaso_align(file, length, entry));
    ALIKE(lepugaso_min_size(file, length, entry));
    ALIKE(lepugaso_layout_of(file, length, entry, &out));
    LEFT(out.size == 1 && out.align == 2 && out.min_size == 3 && out.stride == 4);
    ALIKE(lepugaso_rank(file, length, entry, 0));
    ALIKE(lepugaso_rank(file, length, 0, entry));
    ALIKE(lepugaso_common(file, length, list, 1));
    ALIKE(lepugaso_common(file, length, NULL, 0));
    ALIKE(lepugaso_write(file, length, entry, list, 1, buf, sizeof buf));
    ALIKE(lepugaso_read(file, length, entry, bytes, sizeof bytes, &word, 1));
    ALIKE(lepugaso_view(file, length, entry, NULL, 0, bytes, sizeof bytes, &part, &part_len));
    LEFT(part == bytes && part_len == 0);
    ALIKE(lepugaso_set(file, length, entry, NULL, 0, list, 1, buf, sizeof buf));
    ALIKE(lepugaso_extract_bits(file, length, entry, NULL, 0, bytes, sizeof bytes, 0, 12));
    ALIKE(lepugaso_insert_bits(file, length, entry, NULL, 0, 1, 0, 12, buf, sizeof buf));
    ALIKE(lepugaso_uniform(file, length, entry));
    ALIKE(lepugaso_site_fresh(file, length, entry, bytes, sizeof bytes, buf, sizeof buf, &mask));
    ALIKE(lepugaso_site_inheriting(file, length, entry, &mask));
    part = NULL, part_len = 5;
    ALIKE(lepugaso_site_member(file, length, entry, 0, 5, bytes, sizeof bytes, buf, sizeof buf, &part, &part_len));
    LEFT(part == bytes && part_len == 0);
    ALIKE(lepugaso_site_set(file, length, entry, 0, NULL, 0, list, 1, bytes, sizeof bytes, buf, sizeof buf, &mask));
    ALIKE(lepugaso_site_clear(file, length, entry, 0, &mask));
    ALIKE(lepugaso_clean(file, length, entry, buf, sizeof buf, &first));
    ALIKE(lepugaso_plan_order(file, length, entry, &word, 1));
    ALIKE(lepugaso_check_order(file, length, entry, list, 1));

    uint32_t form = length < 10 ? 0 : file[length - 2] + 256u * file[length - 1];
    uint32_t other = length < 10 ? LEPUGASO_REFUSED_SHORT_FILE : LEPUGASO_REFUSED_FORM;
    lepugaso_answer on = lepugaso_to_form_2(file, length, buf, sizeof buf), back = lepugaso_to_form_1(file, length, buf, sizeof buf);
    expect(source, line, "lepugaso_to_form_2", on, form == 1 ? refusal : other, form == 1 ? place : 0, 0);
    expect(source, line, "lepugaso_to_form_1", back, form == 2 ? refusal : other, form == 2 ? place : 0, 0);
    LEFT(word == 5 && mask == 5 && first == 5 && buf[0] == 6 && buf[1] == 7 && buf[2] == 8 && buf[3] == 9);
#undef ALIKE
#undef LEFT
}

#endif
