/* A layout file as the initializer of an array of bytes: types, then members, then the trailer. Entries and members are numbered from 0 in
 * the order in which they stand, and refer only to entries that stand before them. */
#ifndef LAYOUT_FILE_H
#define LAYOUT_FILE_H

#define LE16(n) (uint8_t)((n) & 255), (uint8_t)((n) >> 8 & 255)
#define LE32(n) LE16(n), LE16((n) >> 16)

/* kind, columns, rows, zero; reference; zero; count */
#define TYPE(kind, columns, rows, reference, count) (kind), (columns), (rows), 0, LE16(reference), LE16(0), LE32(count)
#define BOOL TYPE(0, 0, 0, 0, 0)
#define I32 TYPE(1, 0, 0, 0, 0)
#define U32 TYPE(2, 0, 0, 0, 0)
#define F32 TYPE(3, 0, 0, 0, 0)
#define F16 TYPE(4, 0, 0, 0, 0)
#define ABSTRACT_INT TYPE(5, 0, 0, 0, 0)
#define VECTOR(rows, scalar) TYPE(7, 0, rows, scalar, 0)
#define MATRIX(columns, rows, scalar) TYPE(8, columns, rows, scalar, 0)
#define ARRAY(element, count) TYPE(9, 0, 0, element, count)
#define RUNTIME_ARRAY(element) TYPE(10, 0, 0, element, 0)
#define ATOMIC(scalar) TYPE(11, 0, 0, scalar, 0)
#define STRUCT(first_member, members) TYPE(12, 0, 0, first_member, members)
#define I64 TYPE(13, 0, 0, 0, 0)
#define U64 TYPE(14, 0, 0, 0, 0)
#define F64 TYPE(15, 0, 0, 0, 0)

/* type; flags; size; align */
#define MEMBER(type) LE16(type), LE16(0), LE32(0), LE32(0)
#define MEMBER_SIZE(type, size) LE16(type), LE16(1), LE32(size), LE32(0)
#define MEMBER_ALIGN(type, align) LE16(type), LE16(2), LE32(0), LE32(align)

/* The same in form 2, which has a name number after each; 0 for none. */
#define NAMED(name, ...) __VA_ARGS__, LE32(name)

/* types; members; start; form */
#define TRAILER(types, members) LE16(types), LE16(members), LE32(0), LE16(1)
#define TRAILER_2(types, members) LE16(types), LE16(members), LE32(0), LE16(2)

#endif
