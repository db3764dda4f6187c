/* Lepugaso: lays out, fills and reads the buffers that WGSL shaders share with a host.
 *
 * A layout file describes types as numbered entries; every call takes one, as bytes, and asks something of it, but for the four on bit
 * fields of a number and the one that converts a literal. Nothing is kept between calls, nothing is allocated, and any bytes and any
 * numbers may be passed: what cannot be answered is refused with a number. Threads may call at the same time. No call takes more than
 * LEPUGASO_STACK bytes of stack: 160 KiB to write, read or clean types that nest 256 deep, 64 KiB to view, set (also on site) or use bit
 * fields along such a path, 36 KiB to ask anything else.
 *
 * For x86-64 Linux. Link liblepugaso.a, which needs nothing but memcpy, memmove and memset, or liblepugaso.so.
 *
 * The layout file, its numbers little-endian:
 *
 *     from byte `start` on  the types, 12 bytes each: kind u8, columns u8, rows u8, 0 u8, reference u16, 0 u16, count u32
 *     then                  the members, 12 bytes each: type u16, flags u16, size u32, align u32; in form 2 16 bytes each: the same, and
 *                           name u32 (0 for none)
 *     at the end            10 bytes: number of types u16 (1 to 256), of members u16 (at most 1,024), start u32, form u16 (1 or 2)
 *
 *     kinds 0 to 6          bool, i32, u32, f32, f16, abstract int, abstract float
 *     7 vector              rows 2 to 4, reference to a kind 0 to 6 or 13 to 15
 *     8 matrix              columns and rows 2 to 4, reference to f32, f16 or abstract float
 *     9 array               reference to the element, count at least 1
 *     10 runtime array      reference to the element
 *     11 atomic             reference to i32 or u32
 *     12 struct             reference to the first member, count of members, 1 to 1,024; a runtime array may be the last
 *     kinds 13 to 15        i64, u64, f64: 8 bytes, aligned to 8
 *
 * Types and members are numbered from 0. A type refers, itself or by its members, to types of lower numbers. Every member belongs to a
 * struct, or to several, be these used or not. Flag 1 of a member says that a size is given, flag 2 an align. What is not used is 0.
 * examples/layout_file.h writes such a file as an initializer in C. A vector of three i64, u64 or f64 has 24 bytes and no alignment: no
 * struct and no runtime array holds one, and it is not written, read or viewed. Both forms get the same answers: a member's name is a
 * number for tools, and no call but lepugaso_to_form_1 looks at it.
 *
 * What is written to a buffer and read from it are words: a uint32_t for each scalar of a type, in order of offset, and two for an i64, u64
 * or f64, its low 32 bits first. An i32 or i64 is its two's complement, an f32 or f64 its bits, an f16 its bits, 0 to 65,535; an atomic is
 * the scalar that it refers to. Bits stay as they are, those of a NaN too. A struct {u32, vec3<f32>, f32} has 5 words and takes 32 bytes, a
 * struct {i64, f16, u64} has 5 and takes 24.
 *
 * A path leads from a type to a part of it, by steps of a uint32_t each: the number of a struct's member as LEPUGASO_MEMBER has it, or the
 * index of an array's element, of a vector's scalar or of a matrix's column, whose scalars have indices in turn. Both count from 0. A path
 * of no step leads to the type itself.
 */
#ifndef LEPUGASO_H
#define LEPUGASO_H

#include <stddef.h>
#include <stdint.h>

/* The version of this header and of the library under it, as a string and as numbers. The first number changes when a program that was
 * written for the older header has to be compiled anew or changed; what such programs load is named by it, liblepugaso.so.1, so that both
 * libraries can stand beside each other. The second changes when something is added, the third when a program sees no change. */
#define LEPUGASO_VERSION "1.0.0"
#define LEPUGASO_VERSION_MAJOR 1
#define LEPUGASO_VERSION_MINOR 0
#define LEPUGASO_VERSION_PATCH 0

#ifdef __cplusplus
extern "C" {
#endif

/* What a call answers. `refusal` is 0 and `value` the answer; or `refusal` is one of the numbers below, `place` where the fault lies (0
 * where the number names no place), and `value` 0. */
typedef struct lepugaso_answer {
    uint32_t refusal;
    uint32_t place;
    uint64_t value;
} lepugaso_answer;

/* The four numbers of an entry's type, in bytes; LEPUGASO_ABSENT where it has none. `stride` is how far the elements of an array of it
 * begin from each other: its size rounded up to its alignment, 16 for a vec3<f32> of 12 bytes. Of a runtime array, which has no size, it is
 * that of its own elements. The struct grew: it had 24 bytes before `stride` came, and has 32, so that a program which was compiled with
 * the older header has to be compiled anew. */
typedef struct lepugaso_layout {
    uint64_t size;
    uint64_t align;
    uint64_t min_size;
    uint64_t stride;
} lepugaso_layout;

#define LEPUGASO_ABSENT UINT64_MAX

/* The stack that a thread must have left for a call, in bytes. */
#define LEPUGASO_STACK 163840

/* The step of a path into member `number` of a struct: bit 31 tells it from an index. */
#define LEPUGASO_MEMBER(number) (UINT32_C(0x80000000) | (uint32_t)(number))

/* A pointer that cannot be right, before anything is looked at: null with a length above 0 (null with length 0 is an empty region); null
 * or misaligned where a result goes; misaligned where words, steps, positions or entry numbers are, whatever the length; a length that runs
 * past the end of the address space; a region to be written that shares a byte with another. Nothing is touched, place and value are 0. */
#define LEPUGASO_BAD_POINTER 65535u

/* The file is refused as a whole. Every call that takes one gives these, in this order. */
#define LEPUGASO_REFUSED_SHORT_FILE 1u /* fewer than 10 bytes */
#define LEPUGASO_REFUSED_FORM 2u       /* the form is neither 1 nor 2; for a move between the two, not the one it starts from */
#define LEPUGASO_REFUSED_COUNTS 3u     /* not 1 to 256 types, or more than 1,024 members */
#define LEPUGASO_REFUSED_LENGTH 4u     /* the length is not what the trailer says */

/* An entry of the file is bad: place is the lowest such entry, the number the first of these that holds of it. Every call that takes a
 * file gives these. */
#define LEPUGASO_REFUSED_RULE 5u      /* a rule for entries or their members is broken, but the two under 6 */
#define LEPUGASO_REFUSED_GIVEN 6u     /* a member's given size or align does not suit its type */
#define LEPUGASO_REFUSED_TOO_LARGE 7u /* a size, offset or other number is above 4,294,967,295 */

/* All entries of the file are good, and a member belongs to no struct: place is the lowest such member. Every call that takes a file gives
 * this, after 1 to 7 and before any number below. Before there was this number such a file was accepted. */
#define LEPUGASO_REFUSED_STRAY_MEMBER 24u /* a member that no struct names, be it used or not */

/* What was asked cannot be answered. Each call below says which of these it gives, and in which order. The place of 11 to 13 is the first
 * bad step of the path, counted from 0. */
#define LEPUGASO_REFUSED_ENTRY 8u         /* no entry has this number */
#define LEPUGASO_REFUSED_ABSENT 9u        /* the type has no such number, no layout, or no members */
#define LEPUGASO_REFUSED_NOT_STORABLE 10u /* the type holds a bool */
#define LEPUGASO_REFUSED_MEMBER_STEP 11u  /* a member step outside a struct, or no such member; place is the step */
#define LEPUGASO_REFUSED_INDEX 12u        /* an index not below the count; place is the step */
#define LEPUGASO_REFUSED_INDEX_STEP 13u   /* an index step on a struct, scalar or atomic; place is the step */
#define LEPUGASO_REFUSED_WORDS 14u        /* the wrong number of words, too short a list, no single scalar, or for bits no i32 or u32 */
#define LEPUGASO_REFUSED_SHORT_BUFFER 15u /* the buffer is below the size, or holds no whole element of a runtime array */
#define LEPUGASO_REFUSED_F16_WORD 16u     /* a word above 65,535 for an f16; place is the word */
#define LEPUGASO_REFUSED_LONG_BUFFER 17u  /* the buffer is above 4,294,967,295 bytes */
#define LEPUGASO_REFUSED_NO_RANK 18u      /* no rank, no common type, or an empty list */
#define LEPUGASO_REFUSED_UNIFORM 19u      /* a rule of uniform buffers is broken; place is the entry that breaks it */
#define LEPUGASO_REFUSED_NAMED 20u        /* a member has a name, which form 1 has no room for */
#define LEPUGASO_REFUSED_NO_SITE 21u      /* no struct of fixed size and at most 64 members, or mask bits beyond them */
#define LEPUGASO_REFUSED_ORDER 23u        /* an order of members that is not accepted: not every one once, or no smaller end */
#define LEPUGASO_REFUSED_CONVERSION 25u   /* no such conversion, or no finite result */

/* How many entries the file has. Refuses 1 to 7, 24. */
lepugaso_answer lepugaso_check(const uint8_t *file, size_t file_len);

/* The size in bytes of entry `entry`. Refuses 1 to 7, 24, then 8, then 9: a type that has no size. */
lepugaso_answer lepugaso_size(const uint8_t *file, size_t file_len, uint32_t entry);

/* The alignment in bytes of entry `entry`. Refuses 1 to 7, 24, then 8, then 9: a type that has no alignment. */
lepugaso_answer lepugaso_align(const uint8_t *file, size_t file_len, uint32_t entry);

/* The least size of a buffer for entry `entry`: of a runtime array one stride, of any other type its size. Refuses 1 to 7, 24, then 8, then
 * 9: a type that has neither, as a struct that ends in a runtime array. */
lepugaso_answer lepugaso_min_size(const uint8_t *file, size_t file_len, uint32_t entry);

/* All four numbers of entry `entry` into `out`, LEPUGASO_ABSENT for each that it has not: a struct that ends in a runtime array has an
 * alignment alone. The value is 0. Refuses 1 to 7, 24, then 8, and leaves `out` as it was. */
lepugaso_answer lepugaso_layout_of(const uint8_t *file, size_t file_len, uint32_t entry, lepugaso_layout *out);

/* How far WGSL's automatic conversion from entry `from` to entry `to` is: 0 for the same type, else 1 to 7; of two ranks the lower is
 * preferred. Refuses 1 to 7, 24, then 8 (either number), then 18: there is no such conversion. */
lepugaso_answer lepugaso_rank(const uint8_t *file, size_t file_len, uint32_t from, uint32_t to);

/* The type that all entries of a list convert to, as one of their numbers; of equal types the later. The order of the list, repeats in it
 * and asking for parts of it first and then for their answers do not change the type, though they may change which of two equal types'
 * numbers it is. Refuses 1 to 7, 24, then 8 (any of the numbers), then 18: there is no such type, or the list is empty. */
lepugaso_answer lepugaso_common(const uint8_t *file, size_t file_len, const uint32_t *entries, size_t entries_len);

/* Writes `words` as entry `entry` to the front of `buf`. The value is how many bytes that filled: the type's size. Those that hold no
 * scalar become 0, later bytes of `buf` stay. There are exactly as many words as the type has. An open type, which is a runtime array or a
 * struct that ends in one, takes the words before its array and those of one element or more, and fills up to where the next element
 * would begin.
 * Refuses 1 to 7, 24, then 8, 17 (the buffer is above 4,294,967,295 bytes), 9 (the type has no layout), 10 (it holds a bool), 14 (it has
 * another number of words), 15 (the buffer is below what is to be filled), 16 (a word above 65,535 for an f16; place is the lowest such
 * word), and leaves `buf` as it was. */
lepugaso_answer lepugaso_write(const uint8_t *file, size_t file_len, uint32_t entry, const uint32_t *words, size_t words_len, uint8_t *buf,
                               size_t buf_len);

/* Reads entry `entry` from the front of `buf` into the front of `words`. The value is how many words that filled: as many as the type has.
 * Later bytes of `buf` are not looked at, later words stay. Of an open type it reads as many elements as `buf` has whole, the room up to
 * where the next would begin included. Refuses 1 to 7, 24, then 8, 17, 9, 10 as writing does, 15 (the buffer is below the size, or has no
 * whole element), 14 (there are fewer words than that), and leaves `words` as they were. */
lepugaso_answer lepugaso_read(const uint8_t *file, size_t file_len, uint32_t entry, const uint8_t *buf, size_t buf_len, uint32_t *words,
                              size_t words_len);

/* What `path` leads to from entry `entry` at the front of `buf`, as that part of `buf`: `*part` is where it begins and `*part_len` how
 * many bytes it has, gaps included; nothing is copied. The value is its offset, so that `buf + value` is the same place. It has the bytes
 * of its type's size, whatever size a member gives; a matrix's column has those of its scalars; what is open runs to the end of its last
 * element, of which `buf` has as many as are whole. A type that holds a bool is viewed as any other.
 * Refuses 1 to 7, 24, then 8, 17 (the buffer is above 4,294,967,295 bytes), 9 (the type has no layout), 15 (the buffer is below the size,
 * or has no whole element), then 11, 12 or 13 (the first bad step; place is its number). When refused, `*part` is `buf`, null too, and
 * `*part_len` is 0; at LEPUGASO_BAD_POINTER both stay as they were. */
lepugaso_answer lepugaso_view(const uint8_t *file, size_t file_len, uint32_t entry, const uint32_t *path, size_t path_len,
                              const uint8_t *buf, size_t buf_len, const uint8_t **part, size_t *part_len);

/* Stores `words` in the one scalar, or atomic, that `path` leads to from entry `entry` at the front of `buf`: one word, or for an i64, u64
 * or f64 two, the low one first. The value is its offset. Every other byte of `buf` stays, those of gaps too. Before there were kinds 13 to
 * 15 the call took one word by value, where it takes the list now, so that a program which was written for the older header has to be
 * changed.
 * Refuses 1 to 7, 24, then 8, 17, 9 as viewing does, 10 (the type holds a bool), 15, 11 to 13 as viewing does, 14 (the path leads to no
 * single scalar, or that scalar has another number of words), 16 (the word is above 65,535 for an f16; place is 0), and leaves `buf` as it
 * was. */
lepugaso_answer lepugaso_set(const uint8_t *file, size_t file_len, uint32_t entry, const uint32_t *path, size_t path_len,
                             const uint32_t *words, size_t words_len, uint8_t *buf, size_t buf_len);

/* Bit fields of a number, which no file and no pointer goes with: WGSL's extractBits and insertBits, their arguments in WGSL's order. Any
 * numbers may be passed and nothing is refused. The field is the `count` bits from bit `offset` on, bit 0 the lowest, as far as there are
 * such bits: with o = min(offset, 32) and c = min(count, 32 - o), it is the c bits from bit o on.
 *
 * The field as a number, 0 where c is 0. Of an i32 its top bit is repeated above it: 12 bits of 4,095 are -1, of 2,048 they are -2,048, of
 * 2,047 they are 2,047. Of a u32 there is 0 above it. */
int32_t lepugaso_extract_bits_i32(int32_t e, uint32_t offset, uint32_t count);
uint32_t lepugaso_extract_bits_u32(uint32_t e, uint32_t offset, uint32_t count);

/* `e` with the low c bits of `newbits` as the field; no other bit of `e` changes, and higher bits of `newbits` are not looked at. */
int32_t lepugaso_insert_bits_i32(int32_t e, int32_t newbits, uint32_t offset, uint32_t count);
uint32_t lepugaso_insert_bits_u32(uint32_t e, uint32_t newbits, uint32_t offset, uint32_t count);

/* The field of the one i32 or u32, or atomic of one, that `path` leads to from entry `entry` at the front of `buf`. Whether it is signed is
 * said by that type, not by the caller. The value is the field in 32 bits, of an i32 its two's complement: -1 is 4,294,967,295, and
 * `(int32_t)(uint32_t)value` is the number. Refuses 1 to 7, 24, then 8, 17, 9, 10, 15, 11 to 13 as setting does, 14 (the path leads to no
 * single scalar, or to one of another type). */
lepugaso_answer lepugaso_extract_bits(const uint8_t *file, size_t file_len, uint32_t entry, const uint32_t *path, size_t path_len,
                                      const uint8_t *buf, size_t buf_len, uint32_t offset, uint32_t count);

/* Puts the low c bits of `newbits` there as the field. The value is the offset of the scalar. Every other bit of it and every other byte of
 * `buf` stay. Refuses as extracting does, and leaves `buf` as it was. */
lepugaso_answer lepugaso_insert_bits(const uint8_t *file, size_t file_len, uint32_t entry, const uint32_t *path, size_t path_len,
                                     uint32_t newbits, uint32_t offset, uint32_t count, uint8_t *buf, size_t buf_len);

/* Whether entry `entry` may live in a uniform buffer, of which WGSL asks more than of a storage buffer. The value is 0: it may. These are
 * the rules, for the entry and all that it is made of: there is no atomic; the stride of every array is a multiple of 16; in every struct,
 * a member that is a struct or an array starts at a multiple of 16, and what comes after a struct starts no earlier than that struct's
 * size, rounded up to 16, after its start, whatever size its member gives. A given size or align mends a struct; an array needs elements
 * that take a multiple of 16 bytes, as vec4<f32> does.
 * Refuses 1 to 7, 24, then 8, 9 (the type has no layout, or is open), 10 (it holds a bool), 19: place is the lowest entry at fault, of the
 * one asked for and all that it is made of. That is an atomic, an array whose stride is no multiple of 16, or a struct in which a member
 * stands wrong, and not the type of that member. */
lepugaso_answer lepugaso_uniform(const uint8_t *file, size_t file_len, uint32_t entry);

/* Writes a form 1 file as a form 2 file without names to the front of `out`. The value is the length of that: 4 bytes more for each member,
 * and so at most 4,096 more than `file_len`. It may be above 32 bits, and so may `out_len`. Bytes before `start` and the types are as they
 * were; later bytes of `out` stay. No byte of `out` may be one of the file's, not even one that would stay: a file is not moved in place.
 * Refuses 1, 2 (the form is not 1), 3 to 7, 24, then 15 (`out` is below the new length), and leaves `out` as it was. */
lepugaso_answer lepugaso_to_form_2(const uint8_t *file, size_t file_len, uint8_t *out, size_t out_len);

/* Writes a form 2 file without names as a form 1 file to the front of `out`, in the same way: lepugaso_to_form_2 undone. The value is its
 * length, 4 bytes less for each member. A name that is not 0 would be lost, so that such a file is refused.
 * Refuses 1, 2 (the form is not 2), 3 to 7, 24, then 20 (a member has a name), 15 (`out` is below the new length), and leaves `out` as it
 * was. */
lepugaso_answer lepugaso_to_form_1(const uint8_t *file, size_t file_len, uint8_t *out, size_t out_len);

/* A factory sheet and a site block: two buffers of one struct entry, of fixed size and at most 64 members, and a mask whose bit k, the k-th
 * lowest, says that member k is the site's own. A member is shown in the site buffer if its bit is set, else in the factory buffer. Its
 * bytes are those of its type's size, whatever size it is given. Only the calls that write the mask change where a member is shown; the
 * three things are the caller's to keep together. `member` is any number, counted from 0.
 *
 * A block starts in one of two ways. A fresh one is a copy, and another factory sheet changes nothing that it shows until a member is
 * cleared. An inheriting one is empty, and what was not set on site is shown as the factory sheet has it, another one too. Beside the sheet
 * that was copied, both answer the same sets and clears alike, and then show the same bytes.
 *
 * A fresh block: as many bytes of `factory` as the entry's size, gaps too, copied to the front of `site`, and the bits of all members, no
 * other, into `*mask`. The value is 0. Later bytes of `site` stay; what `*mask` held is not looked at. `site` may share no byte with
 * `factory`, nor with anything else.
 * Before there were two starts the call took the file, the entry and the mask alone, and made the mask 0, so that a program which was
 * written for the older header has to be changed: one that wants the empty mask calls lepugaso_site_inheriting, with those arguments.
 * Refuses 1 to 7, 24, then 8, 17 (a buffer is above 4,294,967,295 bytes), 9 (the type has no layout), 10 (it holds a bool), 21 (it is no
 * struct, is open, or has more than 64 members), 15 (a buffer is below the size), and leaves `site` and `*mask` as they were. */
lepugaso_answer lepugaso_site_fresh(const uint8_t *file, size_t file_len, uint32_t entry, const uint8_t *factory, size_t factory_len,
                                    uint8_t *site, size_t site_len, uint64_t *mask);

/* The mask of an inheriting block, 0, into `*mask`: every member is the factory's. The value is 0. What `*mask` held is not looked at, and
 * no buffer is. Refuses 1 to 7, 24, then 8, 9, 10, 21 as for a fresh block, and leaves `*mask` as it was. */
lepugaso_answer lepugaso_site_inheriting(const uint8_t *file, size_t file_len, uint32_t entry, uint64_t *mask);

/* What shows `member`, as that part of `site` or of `factory`: `*part` is where it begins and `*part_len` how many bytes it has; nothing is
 * copied. The value is its offset in that buffer, and in the other too. The buffers may overlap in any way.
 * Refuses 1 to 7, 24, then 8, 17 (a buffer is above 4,294,967,295 bytes), 9, 10, 21 (as for a fresh block, or the mask has bits beyond the
 * members), 15 (a buffer is below the size), 11 (there is no such member; place is 0). When refused, `*part` is `factory`, null too, and
 * `*part_len` is 0; at LEPUGASO_BAD_POINTER both stay as they were. */
lepugaso_answer lepugaso_site_member(const uint8_t *file, size_t file_len, uint32_t entry, uint32_t member, uint64_t mask,
                                     const uint8_t *factory, size_t factory_len, const uint8_t *site, size_t site_len,
                                     const uint8_t **part, size_t *part_len);

/* Stores `words` in the one scalar, or atomic, that `path` leads to from `member`'s type, in `site`, and sets the member's bit. If that was
 * clear, the member's bytes are copied from `factory` first, so that it shows what it showed but for that scalar. The value is the scalar's
 * offset in `site`. No other bit and no byte outside the member changes. `site` may share no byte with `factory`, nor with anything else.
 * Refuses as asking for a member does, then 11, 12 or 13 (the first bad step; place is its number in `path`), 14 (the path leads to no
 * single scalar, or that scalar has another number of words), 16 (the word is above 65,535 for an f16; place is 0), and leaves `site` and
 * `*mask` as they were. */
lepugaso_answer lepugaso_site_set(const uint8_t *file, size_t file_len, uint32_t entry, uint32_t member, const uint32_t *path,
                                  size_t path_len, const uint32_t *words, size_t words_len, const uint8_t *factory, size_t factory_len,
                                  uint8_t *site, size_t site_len, uint64_t *mask);

/* Drops the bit of `member`, which shows the factory's bytes again; no byte moves. The value is 0. Refuses 1 to 7, 24, then 8, 9, 10, 21,
 * 11 as asking for a member does, and leaves `*mask` as it was. */
lepugaso_answer lepugaso_site_clear(const uint8_t *file, size_t file_len, uint32_t entry, uint32_t member, uint64_t *mask);

/* Makes 0 every byte of entry `entry` at the front of `buf` that holds no scalar: after a vec3<f32> in an array, after a matrix's column of
 * three, before a member, at the end of a struct, what a given size leaves over. The value is how many bytes changed; those that were 0 do
 * not count. `*first` is the offset of the first that did. If none did, it is how many bytes the entry has in `buf`: its size, or of an
 * open type up to where the next element would begin after the last that `buf` has whole. Later bytes of `buf` stay, and all words read as
 * before: cleaned, two entries of the same words have the same bytes, and cleaning again changes 0.
 * Refuses 1 to 7, 24, then 8, 17 (the buffer is above 4,294,967,295 bytes), 9 (the type has no layout), 10 (it holds a bool), 15 (the
 * buffer is below the size, or has no whole element), and leaves `buf` and `*first` as they were.
 * A struct {u32, vec3<f32>, f32} has 12 such bytes, from 4 on: if none is 0, the value is 12 and `*first` 4; again, they are 0 and 32. */
lepugaso_answer lepugaso_clean(const uint8_t *file, size_t file_len, uint32_t entry, uint8_t *buf, size_t buf_len, uint64_t *first);

/* An order for the members of entry `entry`, a struct, that may save room: their positions by falling alignment, given or else the
 * type's, ties as they stand, a runtime array last, into the front of `order`. A position is a member's number, counted from 0. The value
 * is how many there are; later places of `order` stay. It promises that order and not a gain: lepugaso_check_order tells whether there is
 * one. A struct {u32, vec4<f32>, u32} has 48 bytes; it is offered 1, 0, 2, and would have 32. A struct {vec3<f32>, f32, vec3<f32>, f32} has
 * 32, each f32 in the room behind a vec3<f32>; it is offered 0, 2, 1, 3, and would have 48: of that lepugaso_check_order gives 23.
 * Refuses 1 to 7, 24, then 8, 9 (the type is no struct), 14 (the list is shorter than the members), and leaves `order` as it was. */
lepugaso_answer lepugaso_plan_order(const uint8_t *file, size_t file_len, uint32_t entry, uint32_t *order, size_t order_len);

/* Whether the members of entry `entry`, a struct, may stand in `order`, from whomever it comes: their positions, one after the other. It is
 * accepted if every one of them is there once, a runtime array is still last, no number is above 4,294,967,295, and the end is smaller than
 * it is now. The value is the new end: the size of the struct, or of an open one where its runtime array starts. A given size or align goes
 * with its member, and a struct may hold a bool. The file stays: one with its members in that order is the caller's to write.
 * Refuses 1 to 7, 24, then 8, 9 (the type is no struct), 23: any other order, of whatever length. */
lepugaso_answer lepugaso_check_order(const uint8_t *file, size_t file_len, uint32_t entry, const uint32_t *order, size_t order_len);

/* A literal of kind `from_kind` as one of kind `to_kind`, as WGSL converts it by itself. No file and no pointer goes with it. The kinds are
 * the scalars of a layout file: 0 bool, 1 i32, 2 u32, 3 f32, 4 f16, 5 abstract int, 6 abstract float, 13 i64, 14 u64, 15 f64. An abstract
 * int is an i64, an abstract float an f64. `bits` has the literal's bits at its low end: 1 of a bool, 16 of an f16, 32 of an i32, u32 or
 * f32, 64 of any other; higher ones are not looked at. The value has those of the result in the same way, and 0 above them.
 *
 * To its own kind each of them is unchanged, NaN and infinity too. An abstract int goes to abstract float, i32, u32, f32 and f16, an
 * abstract float to f32 and f16; nothing else is converted. To a float it is rounded once, to the nearest number, of two that are as near
 * to the one whose lowest bit is 0, among the smallest (subnormal) ones too: 2,049 is 2,048 as an f16, 16,777,217 is 16,777,216 as an f32.
 * The sign stays: negative zero is negative zero, and so is a negative number that is rounded to zero. The abstract int 0 is positive zero.
 * Refuses 25: there is no such conversion; a kind is none of these ten, to itself too; an abstract int is outside the range of the i32 or
 * u32; an abstract float to f32 or f16 is a NaN or infinite, or the result would be: to f16, 65,519 gives 65,504 and 65,520 is refused. */
lepugaso_answer lepugaso_convert(uint32_t from_kind, uint64_t bits, uint32_t to_kind);

#ifdef __cplusplus
}
#endif

#endif
