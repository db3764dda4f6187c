/* Scalars as text, and back. A number in text is a literal of WGSL's, abstract int or abstract float, and the library converts it; what is
 * written is the shortest text that the library converts back to the same bits. */
#include <errno.h>
#include <math.h>
#include <stdlib.h>
#include <string.h>

#include "cli.h"

uint32_t kind_width(uint32_t kind) {
    switch (kind) {
    case F16:
        return 2;
    case I64:
    case U64:
    case F64:
    case ABSTRACT_INT:
    case ABSTRACT_FLOAT:
        return 8;
    default:
        return 4;
    }
}

static uint64_t bits_of(double number) {
    uint64_t bits;
    memcpy(&bits, &number, sizeof bits);
    return bits;
}

static double number_of(uint64_t bits) {
    double number;
    memcpy(&number, &bits, sizeof number);
    return number;
}

/* The formats of floats: bits of the fraction, bits of all, and the digits that may be enough to tell two apart. */
struct format {
    uint32_t fraction, width;
    int fewest, most;
};

static const struct format *format_of(uint32_t kind) {
    static const struct format half = {10, 16, 3, 5}, single = {23, 32, 6, 9}, twice = {52, 64, 15, 17};
    return kind == F16 ? &half : kind == F32 ? &single : kind == F64 || kind == ABSTRACT_FLOAT ? &twice : NULL;
}

/* ---- text to bits ---- */

/* A NaN by its bits, `nan(0x7fc00001)`, or the quiet one, or an infinity: what no literal says. Answers whether it is one. */
static int parse_special(const char *text, const struct format *f, uint64_t *bits) {
    uint64_t one = 1, top = one << (f->width - 1), fraction = (one << f->fraction) - 1, infinite = (top - 1) & ~fraction;
    if (!strncmp(text, "nan(0x", 6)) {
        char *end;
        errno = 0;
        *bits = strtoull(text + 6, &end, 16);
        /* What strtoull takes beside digits, as a sign, is not what we write. */
        if (strspn(text + 6, "0123456789abcdefABCDEF") != (size_t)(end - text - 6) || strcmp(end, ")") || errno) return 0;
        return *bits <= (top | (top - 1)) && (*bits & infinite) == infinite && (*bits & fraction);
    }
    uint64_t sign = text[0] == '-' ? top : 0;
    if (text[0] == '-' || text[0] == '+') text++;
    *bits = sign | infinite;
    if (!strcmp(text, "inf")) return 1;
    *bits |= one << (f->fraction - 1);
    return !strcmp(text, "nan");
}

/* An integer as text, decimal or hexadecimal: its sign and its size. Answers whether it is one. */
static int parse_integer(const char *text, int *negative, uint64_t *size) {
    *negative = text[0] == '-';
    if (text[0] == '-' || text[0] == '+') text++;
    int hexadecimal = text[0] == '0' && (text[1] == 'x' || text[1] == 'X');
    const char *digits = hexadecimal ? text + 2 : text;
    if (!*digits || strspn(digits, hexadecimal ? "0123456789abcdefABCDEF" : "0123456789") != strlen(digits)) return 0;
    errno = 0;
    *size = strtoull(digits, NULL, hexadecimal ? 16 : 10);
    return !errno;
}

/* A literal and what the library makes of it. */
static lepugaso_answer convert(const char *text, uint32_t kind) {
    static const lepugaso_answer no = {LEPUGASO_REFUSED_CONVERSION, 0, 0};
    int negative;
    uint64_t size;
    if (parse_integer(text, &negative, &size)) {
        uint64_t number = negative ? 0 - size : size;
        int in_64 = size <= (uint64_t)INT64_MAX + (uint64_t)negative;
        if (kind == U64) return !negative || !size ? (lepugaso_answer){0, 0, size} : no;
        if (kind == I64) return in_64 ? (lepugaso_answer){0, 0, number} : no;
        /* The abstract int -0 is 0, and of a float -0 keeps its sign. */
        if (in_64 && (size || !negative || !format_of(kind)))
            return kind == F64 ? lepugaso_convert(ABSTRACT_INT, number, ABSTRACT_FLOAT) : lepugaso_convert(ABSTRACT_INT, number, kind);
    }
    /* A float, or an integer that no abstract int holds; an integer's type takes no float. */
    char *end;
    double number = strtod(text, &end);
    if (*end || isnan(number) || isinf(number) || !format_of(kind)) return no;
    return kind == F64 ? (lepugaso_answer){0, 0, bits_of(number)} : lepugaso_convert(ABSTRACT_FLOAT, bits_of(number), kind);
}

/* Whether it is a number at all, be it one of that kind or not. */
static int is_number(const char *text) {
    char *end;
    const char *digits = text[0] == '-' || text[0] == '+' ? text + 1 : text;
    if ((digits[0] < '0' || digits[0] > '9') && (digits[0] != '.' || digits[1] < '0' || digits[1] > '9')) return 0;
    strtod(text, &end);
    return !*end;
}

int parse_value(const char *text, uint32_t kind, const char *where, uint64_t *bits) {
    const char *before = where ? where : "", *colon = where ? ": " : "";
    const struct format *f = format_of(kind);
    if (kind == BOOL && (!strcmp(text, "true") || !strcmp(text, "false"))) {
        *bits = text[0] == 't';
        return GOOD;
    }
    if (f && parse_special(text, f, bits)) return GOOD;
    if (!is_number(text) || kind == BOOL) return fail("%s%s%s is no value of type %s", before, colon, text, kind_name(kind));
    lepugaso_answer found = convert(text, kind);
    *bits = found.value;
    if (!found.refusal) return GOOD;
    return fail("%s%srefused %" PRIu32 ": %s is outside the numbers of type %s", before, colon, found.refusal, text, kind_name(kind));
}

/* ---- bits to text ---- */

/* The number that a float's bits say, as a double; NaN and infinity aside. */
static double widened(const struct format *f, uint64_t bits) {
    if (f->width == 64) return number_of(bits);
    uint64_t one = 1, fraction = bits & ((one << f->fraction) - 1);
    int exponent = (int)(bits >> f->fraction & ((one << (f->width - 1 - f->fraction)) - 1));
    int bias = (1 << (f->width - 2 - f->fraction)) - 1;
    double size = exponent ? ldexp((double)(fraction | one << f->fraction), exponent - bias - (int)f->fraction)
                           : ldexp((double)fraction, 1 - bias - (int)f->fraction);
    return bits >> (f->width - 1) & 1 ? -size : size;
}

static void print_float(char text[VALUE_ROOM], const struct format *f, uint32_t kind, uint64_t bits) {
    uint64_t one = 1, fraction = bits & ((one << f->fraction) - 1), exponents = (one << (f->width - 1 - f->fraction)) - 1;
    if ((bits >> f->fraction & exponents) == exponents) {
        char digits[17];
        snprintf(digits, sizeof digits, "%016" PRIx64, bits);
        if (fraction)
            snprintf(text, VALUE_ROOM, "nan(0x%s)", digits + 16 - f->width / 4);
        else
            strcpy(text, bits >> (f->width - 1) & 1 ? "-inf" : "inf");
        return;
    }
    double number = widened(f, bits);
    /* Three digits are enough for a large f16, and are not how one says 65504. */
    if (kind == F16 && number != 0 && number == (int)number) {
        snprintf(text, VALUE_ROOM, "%d", (int)number);
        return;
    }
    for (int digits = f->fewest; digits <= f->most; digits++) {
        uint32_t to = kind == ABSTRACT_FLOAT ? (uint32_t)F64 : kind;
        snprintf(text, VALUE_ROOM, "%.*g", digits, number);
        lepugaso_answer back = convert(text, to);
        if (!back.refusal && back.value == bits) return;
    }
    snprintf(text, VALUE_ROOM, "%.17g", number);
}

void print_value(char text[VALUE_ROOM], uint32_t kind, uint64_t bits) {
    const struct format *f = format_of(kind);
    if (f)
        print_float(text, f, kind, bits);
    else if (kind == BOOL)
        strcpy(text, bits ? "true" : "false");
    else if (kind == I32)
        snprintf(text, VALUE_ROOM, "%" PRId64, bits >> 31 ? (int64_t)bits - INT64_C(0x100000000) : (int64_t)bits);
    else if (kind == I64 || kind == ABSTRACT_INT)
        snprintf(text, VALUE_ROOM, bits >> 63 ? "-%" PRIu64 : "%" PRIu64, bits >> 63 ? 0 - bits : bits);
    else
        snprintf(text, VALUE_ROOM, "%" PRIu64, bits);
}
