/* The block of a receiver board whose members stand badly:
 *
 *     struct Receiver { on: u32, position: vec3<f32>, window: vec2<f32>, board: u32, heaters: vec4<f32>, frost: f32 }
 *
 * Where are its gaps? What order is planned for its members, how large would it be, and where would they lie? Another order, by hand, is
 * better still; asked about that, the planner offers one that is worse, and its own offer is refused.
 */
#include <inttypes.h>
#include <stdio.h>
#include <string.h>

#include "layout_file.h"
#include "lepugaso.h"

static const uint8_t receiver[] = {
    U32,          /* 0 */
    F32,          /* 1 */
    VECTOR(2, 1), /* 2: vec2<f32> */
    VECTOR(3, 1), /* 3: vec3<f32> */
    VECTOR(4, 1), /* 4: vec4<f32> */
    STRUCT(0, 6), /* 5: Receiver */
    MEMBER(0), MEMBER(3), MEMBER(2), MEMBER(0), MEMBER(4), MEMBER(1),
    TRAILER(6, 6),
};
enum { RECEIVER = 5, MEMBERS = 6, FIRST = 12 * 6, ENTRY = 12, MOST = 80 };

static const struct {
    const char *name, *type;
    uint32_t entry;
} members[MEMBERS] = {{"on", "u32", 0},    {"position", "vec3<f32>", 3}, {"window", "vec2<f32>", 2},
                      {"board", "u32", 0}, {"heaters", "vec4<f32>", 4},  {"frost", "f32", 1}};

/* A layout file, and which member of `members` is each of its own. */
struct block {
    uint8_t file[sizeof receiver];
    uint32_t which[MEMBERS];
};

/* The same block with its members in another order. */
static struct block reordered(const struct block *b, const uint32_t *order) {
    struct block other = *b;
    for (uint32_t k = 0; k < MEMBERS; k++) {
        memcpy(other.file + FIRST + ENTRY * k, b->file + FIRST + ENTRY * order[k], ENTRY);
        other.which[k] = b->which[order[k]];
    }
    return other;
}

static void print_gap(size_t from, size_t to, const char *where, const char *name) {
    if (from < to) printf("%6zu  %4zu         (gap %s%s)\n", from, to - from, where, name);
}

/* Where the members lie; 0 if the library answers everything. */
static int print_layout(const struct block *b) {
    static const uint8_t bytes[MOST];
    lepugaso_layout whole;
    size_t end = 0;
    if (lepugaso_layout_of(b->file, sizeof b->file, RECEIVER, &whole).refusal || whole.size > MOST) return 1;
    printf("offset  size  align  member\n");
    for (uint32_t k = 0; k < MEMBERS; k++) {
        uint32_t path[] = {LEPUGASO_MEMBER(k)}, which = b->which[k];
        const uint8_t *part;
        size_t length;
        lepugaso_answer place = lepugaso_view(b->file, sizeof b->file, RECEIVER, path, 1, bytes, sizeof bytes, &part, &length);
        lepugaso_answer align = lepugaso_align(b->file, sizeof b->file, members[which].entry);
        if (place.refusal || align.refusal) return 1;
        print_gap(end, place.value, "before ", members[which].name);
        printf("%6" PRIu64 "  %4zu  %5" PRIu64 "  %s: %s\n", place.value, length, align.value, members[which].name, members[which].type);
        end = place.value + length;
    }
    print_gap(end, whole.size, "at the end", "");
    printf("        %4" PRIu64 "  %5" PRIu64 "  struct Receiver\n\n", whole.size, whole.align);
    return 0;
}

/* An order, what the checker says of it, and the size with it beside the size without; 0 if these fit. */
static int print_order(const char *whose, const struct block *b, const uint32_t *order) {
    struct block other = reordered(b, order);
    lepugaso_answer end = lepugaso_check_order(b->file, sizeof b->file, RECEIVER, order, MEMBERS);
    lepugaso_answer size = lepugaso_size(other.file, sizeof other.file, RECEIVER), old = lepugaso_size(b->file, sizeof b->file, RECEIVER);
    if (size.refusal || old.refusal) return 1;
    printf("%s", whose);
    for (uint32_t k = 0; k < MEMBERS; k++) printf(" %s", members[other.which[k]].name);
    printf("\n  %" PRIu64 " bytes for %" PRIu64 ": ", size.value, old.value);
    if (end.refusal) {
        printf("refused %" PRIu32 "%s\n", end.refusal, end.refusal == LEPUGASO_REFUSED_ORDER ? " (LEPUGASO_REFUSED_ORDER)" : "");
        return size.value < old.value;
    }
    printf("accepted, the new end %" PRIu64 "\n", end.value);
    return end.value != size.value;
}

int main(void) {
    /* The frost limit has room behind the position: then there is no gap, and every other order is as large or larger. */
    static const uint32_t by_hand[MEMBERS] = {1, 5, 4, 2, 0, 3};
    struct block given = {{0}, {0, 1, 2, 3, 4, 5}};
    uint32_t order[MEMBERS];
    memcpy(given.file, receiver, sizeof receiver);
    if (print_layout(&given)) return 1;
    if (lepugaso_plan_order(given.file, sizeof given.file, RECEIVER, order, MEMBERS).refusal) return 1;
    if (print_order("planned:", &given, order)) return 1;
    struct block planned = reordered(&given, order);
    if (print_layout(&planned)) return 1;

    if (print_order("by hand:", &given, by_hand)) return 1;
    struct block better = reordered(&given, by_hand);
    if (lepugaso_plan_order(better.file, sizeof better.file, RECEIVER, order, MEMBERS).refusal) return 1;
    return print_order("planned, from there:", &better, order);
}
