//! The C calls of include/lepugaso.h: they test the pointers that C lends and hand them on to the proved library, and decide nothing else.
//!
//! Nothing here can panic, so nothing unwinds into C. That is held by the linker: the object is linked without `core`, and code that could
//! panic would name a function of it (tools/shim).
#![no_std]
#![deny(missing_docs, unsafe_op_in_unsafe_fn)]

mod lent;
mod surface;

use lent::Lent;
use surface::*;

/// The four numbers of an entry, absent ones as `u64::MAX`.
#[repr(C)]
pub struct Layout {
    size: u64,
    align: u64,
    min_size: u64,
    stride: u64,
}

/// The answer where a pointer cannot be what C says it is: none of document 01's numbers, which come after it.
const BAD_POINTER: Crossing = Crossing {
    refusal: 65535,
    place: 0,
    value: 0,
};

/// How many entries the file has.
///
/// # Safety
/// Of this and every call: what a `*const` names is there to be read, and what a `*mut` names to be read and written, for the whole call,
/// and no other thread writes there meanwhile.
#[no_mangle]
pub unsafe extern "C" fn lepugaso_check(file: *const u8, file_len: usize) -> Crossing {
    match Lent::new(file, file_len) {
        // SAFETY: the caller lends the file, and its pointer has passed the tests of a slice's.
        Some(file) => unsafe { lepugaso_surface_check(file.start(), file.count()) },
        None => BAD_POINTER,
    }
}

/// The size of an entry's type.
///
/// # Safety
/// As `lepugaso_check`.
#[no_mangle]
pub unsafe extern "C" fn lepugaso_size(file: *const u8, file_len: usize, entry: u32) -> Crossing {
    match Lent::new(file, file_len) {
        // SAFETY: the caller lends the file, and its pointer has passed the tests of a slice's.
        Some(file) => unsafe { lepugaso_surface_size(file.start(), file.count(), entry) },
        None => BAD_POINTER,
    }
}

/// The alignment of an entry's type.
///
/// # Safety
/// As `lepugaso_check`.
#[no_mangle]
pub unsafe extern "C" fn lepugaso_align(file: *const u8, file_len: usize, entry: u32) -> Crossing {
    match Lent::new(file, file_len) {
        // SAFETY: the caller lends the file, and its pointer has passed the tests of a slice's.
        Some(file) => unsafe { lepugaso_surface_align(file.start(), file.count(), entry) },
        None => BAD_POINTER,
    }
}

/// The minimum size of an entry's type.
///
/// # Safety
/// As `lepugaso_check`.
#[no_mangle]
pub unsafe extern "C" fn lepugaso_min_size(file: *const u8, file_len: usize, entry: u32) -> Crossing {
    match Lent::new(file, file_len) {
        // SAFETY: the caller lends the file, and its pointer has passed the tests of a slice's.
        Some(file) => unsafe { lepugaso_surface_min_size(file.start(), file.count(), entry) },
        None => BAD_POINTER,
    }
}

/// All four numbers of an entry's type, into `out`.
///
/// # Safety
/// As `lepugaso_check`.
#[no_mangle]
pub unsafe extern "C" fn lepugaso_layout_of(
    file: *const u8,
    file_len: usize,
    entry: u32,
    out: *mut Layout,
) -> Crossing {
    match (Lent::new(file, file_len), Lent::new(out, 1)) {
        // SAFETY: as above; the caller lends `out` to be written, it has passed the tests, no byte of it is the file's, and four `u64` in
        // a row are an array of four.
        (Some(file), Some(out)) if out.is_apart_from(&file) => unsafe {
            lepugaso_surface_layout(file.start(), file.count(), entry, out.start().cast())
        },
        _ => BAD_POINTER,
    }
}

/// The rank of one entry's type to another's.
///
/// # Safety
/// As `lepugaso_check`.
#[no_mangle]
pub unsafe extern "C" fn lepugaso_rank(file: *const u8, file_len: usize, from: u32, to: u32) -> Crossing {
    match Lent::new(file, file_len) {
        // SAFETY: the caller lends the file, and its pointer has passed the tests of a slice's.
        Some(file) => unsafe { lepugaso_surface_rank(file.start(), file.count(), from, to) },
        None => BAD_POINTER,
    }
}

/// The common type of a list of entries, as one of their numbers.
///
/// # Safety
/// As `lepugaso_check`.
#[no_mangle]
pub unsafe extern "C" fn lepugaso_common(
    file: *const u8,
    file_len: usize,
    entries: *const u32,
    entries_len: usize,
) -> Crossing {
    match (Lent::new(file, file_len), Lent::new(entries, entries_len)) {
        // SAFETY: the caller lends both, and their pointers have passed the tests of a slice's. Both are only read, so they may overlap.
        (Some(file), Some(entries)) => unsafe {
            lepugaso_surface_common(file.start(), file.count(), entries.start(), entries.count())
        },
        _ => BAD_POINTER,
    }
}

/// Words as a value of an entry's type, into the front of `buf`.
///
/// # Safety
/// As `lepugaso_check`.
#[no_mangle]
pub unsafe extern "C" fn lepugaso_write(
    file: *const u8,
    file_len: usize,
    entry: u32,
    words: *const u32,
    words_len: usize,
    buf: *mut u8,
    buf_len: usize,
) -> Crossing {
    match (
        Lent::new(file, file_len),
        Lent::new(words, words_len),
        Lent::new(buf, buf_len),
    ) {
        // SAFETY: the caller lends all three, `buf` to be written, and their pointers have passed the tests of a slice's. No byte of `buf`
        // is one of the others'; those are only read, so they may overlap.
        (Some(file), Some(words), Some(buf)) if buf.is_apart_from(&file) && buf.is_apart_from(&words) => unsafe {
            lepugaso_surface_write(
                file.start(),
                file.count(),
                entry,
                words.start(),
                words.count(),
                buf.start(),
                buf.count(),
            )
        },
        _ => BAD_POINTER,
    }
}

/// The words of a value of an entry's type at the front of `buf`, into the front of `words`.
///
/// # Safety
/// As `lepugaso_check`.
#[no_mangle]
pub unsafe extern "C" fn lepugaso_read(
    file: *const u8,
    file_len: usize,
    entry: u32,
    buf: *const u8,
    buf_len: usize,
    words: *mut u32,
    words_len: usize,
) -> Crossing {
    match (
        Lent::new(file, file_len),
        Lent::new(buf, buf_len),
        Lent::new(words, words_len),
    ) {
        // SAFETY: as above, with `words` to be written.
        (Some(file), Some(buf), Some(words)) if words.is_apart_from(&file) && words.is_apart_from(&buf) => unsafe {
            lepugaso_surface_read(
                file.start(),
                file.count(),
                entry,
                buf.start(),
                buf.count(),
                words.start(),
                words.count(),
            )
        },
        _ => BAD_POINTER,
    }
}

/// What a path leads to from an entry's type at the front of `buf`, as that part of `buf`, into `part` and `part_len`.
///
/// # Safety
/// As `lepugaso_check`.
#[no_mangle]
pub unsafe extern "C" fn lepugaso_view(
    file: *const u8,
    file_len: usize,
    entry: u32,
    path: *const u32,
    path_len: usize,
    buf: *const u8,
    buf_len: usize,
    part: *mut *const u8,
    part_len: *mut usize,
) -> Crossing {
    match (
        Lent::new(file, file_len),
        Lent::new(path, path_len),
        Lent::new(buf, buf_len),
        Lent::new(part, 1),
        Lent::new(part_len, 1),
    ) {
        (Some(file), Some(path), Some(lent), Some(at), Some(count))
            if at.is_apart_from(&file)
                && at.is_apart_from(&path)
                && at.is_apart_from(&lent)
                && at.is_apart_from(&count)
                && count.is_apart_from(&file)
                && count.is_apart_from(&path)
                && count.is_apart_from(&lent) =>
        {
            let mut size = 0;
            // SAFETY: the caller lends the first three, and their pointers have passed the tests of a slice's. They are only read, so they
            // may overlap.
            let answer = unsafe {
                lepugaso_surface_view(
                    file.start(),
                    file.count(),
                    entry,
                    path.start(),
                    path.count(),
                    lent.start(),
                    lent.count(),
                    &mut size,
                )
            };
            // SAFETY: the caller lends both to be written, they have passed the tests, and no byte of either is another's. When refused the
            // value is 0 and the size was left alone: the empty part at the start of `buf`, null if that is.
            unsafe {
                at.start().write(buf.wrapping_add(answer.value as usize));
                count.start().write(size as usize);
            }
            answer
        }
        _ => BAD_POINTER,
    }
}

/// The words of the one scalar that a path leads to from an entry's type at the front of `buf`.
///
/// # Safety
/// As `lepugaso_check`.
#[no_mangle]
pub unsafe extern "C" fn lepugaso_set(
    file: *const u8,
    file_len: usize,
    entry: u32,
    path: *const u32,
    path_len: usize,
    words: *const u32,
    words_len: usize,
    buf: *mut u8,
    buf_len: usize,
) -> Crossing {
    match (
        Lent::new(file, file_len),
        Lent::new(path, path_len),
        Lent::new(words, words_len),
        Lent::new(buf, buf_len),
    ) {
        // SAFETY: as for writing; the path is only read too.
        (Some(file), Some(path), Some(words), Some(buf))
            if buf.is_apart_from(&file) && buf.is_apart_from(&path) && buf.is_apart_from(&words) =>
        unsafe {
            lepugaso_surface_set(
                file.start(),
                file.count(),
                entry,
                path.start(),
                path.count(),
                words.start(),
                words.count(),
                buf.start(),
                buf.count(),
            )
        },
        _ => BAD_POINTER,
    }
}

/// WGSL's `extractBits` of an `i32`.
#[no_mangle]
pub extern "C" fn lepugaso_extract_bits_i32(e: i32, offset: u32, count: u32) -> i32 {
    // SAFETY: of this and the next three: nothing is lent, and any numbers may be passed.
    unsafe { lepugaso_surface_extract_bits_i32(e, offset, count) }
}

/// WGSL's `extractBits` of a `u32`.
#[no_mangle]
pub extern "C" fn lepugaso_extract_bits_u32(e: u32, offset: u32, count: u32) -> u32 {
    // SAFETY: as above.
    unsafe { lepugaso_surface_extract_bits_u32(e, offset, count) }
}

/// WGSL's `insertBits` of an `i32`.
#[no_mangle]
pub extern "C" fn lepugaso_insert_bits_i32(e: i32, newbits: i32, offset: u32, count: u32) -> i32 {
    // SAFETY: as above.
    unsafe { lepugaso_surface_insert_bits_i32(e, newbits, offset, count) }
}

/// WGSL's `insertBits` of a `u32`.
#[no_mangle]
pub extern "C" fn lepugaso_insert_bits_u32(e: u32, newbits: u32, offset: u32, count: u32) -> u32 {
    // SAFETY: as above.
    unsafe { lepugaso_surface_insert_bits_u32(e, newbits, offset, count) }
}

/// A bit field of the one `i32` or `u32` that a path leads to from an entry's type at the front of `buf`.
///
/// # Safety
/// As `lepugaso_check`.
#[no_mangle]
pub unsafe extern "C" fn lepugaso_extract_bits(
    file: *const u8,
    file_len: usize,
    entry: u32,
    path: *const u32,
    path_len: usize,
    buf: *const u8,
    buf_len: usize,
    offset: u32,
    count: u32,
) -> Crossing {
    match (
        Lent::new(file, file_len),
        Lent::new(path, path_len),
        Lent::new(buf, buf_len),
    ) {
        // SAFETY: the caller lends all three, and their pointers have passed the tests of a slice's. They are only read, so they may
        // overlap.
        (Some(file), Some(path), Some(buf)) => unsafe {
            lepugaso_surface_extract_bits(
                file.start(),
                file.count(),
                entry,
                path.start(),
                path.count(),
                buf.start(),
                buf.count(),
                offset,
                count,
            )
        },
        _ => BAD_POINTER,
    }
}

/// New bits into a bit field of the one `i32` or `u32` that a path leads to from an entry's type at the front of `buf`.
///
/// # Safety
/// As `lepugaso_check`.
#[no_mangle]
pub unsafe extern "C" fn lepugaso_insert_bits(
    file: *const u8,
    file_len: usize,
    entry: u32,
    path: *const u32,
    path_len: usize,
    newbits: u32,
    offset: u32,
    count: u32,
    buf: *mut u8,
    buf_len: usize,
) -> Crossing {
    match (
        Lent::new(file, file_len),
        Lent::new(path, path_len),
        Lent::new(buf, buf_len),
    ) {
        // SAFETY: as for writing, with the path in the place of the words.
        (Some(file), Some(path), Some(buf)) if buf.is_apart_from(&file) && buf.is_apart_from(&path) => unsafe {
            lepugaso_surface_insert_bits(
                file.start(),
                file.count(),
                entry,
                path.start(),
                path.count(),
                newbits,
                offset,
                count,
                buf.start(),
                buf.count(),
            )
        },
        _ => BAD_POINTER,
    }
}

/// Whether an entry's type may live in a uniform buffer.
///
/// # Safety
/// As `lepugaso_check`.
#[no_mangle]
pub unsafe extern "C" fn lepugaso_uniform(file: *const u8, file_len: usize, entry: u32) -> Crossing {
    match Lent::new(file, file_len) {
        // SAFETY: the caller lends the file, and its pointer has passed the tests of a slice's.
        Some(file) => unsafe { lepugaso_surface_uniform(file.start(), file.count(), entry) },
        None => BAD_POINTER,
    }
}

/// A form 1 file as a form 2 file without names, into the front of `out`.
///
/// # Safety
/// As `lepugaso_check`.
#[no_mangle]
pub unsafe extern "C" fn lepugaso_to_form_2(
    file: *const u8,
    file_len: usize,
    out: *mut u8,
    out_len: usize,
) -> Crossing {
    match (Lent::new(file, file_len), Lent::new(out, out_len)) {
        // SAFETY: the caller lends both, `out` to be written, and their pointers have passed the tests of a slice's. No byte of `out` is
        // the file's.
        (Some(file), Some(out)) if out.is_apart_from(&file) => unsafe {
            lepugaso_surface_to_form_2(file.start(), file.count(), out.start(), out.count())
        },
        _ => BAD_POINTER,
    }
}

/// A form 2 file without names as a form 1 file, into the front of `out`.
///
/// # Safety
/// As `lepugaso_check`.
#[no_mangle]
pub unsafe extern "C" fn lepugaso_to_form_1(
    file: *const u8,
    file_len: usize,
    out: *mut u8,
    out_len: usize,
) -> Crossing {
    match (Lent::new(file, file_len), Lent::new(out, out_len)) {
        // SAFETY: as above.
        (Some(file), Some(out)) if out.is_apart_from(&file) => unsafe {
            lepugaso_surface_to_form_1(file.start(), file.count(), out.start(), out.count())
        },
        _ => BAD_POINTER,
    }
}

/// The factory's bytes of a block into the front of `site`, and the bits of all its members into `mask`.
///
/// # Safety
/// As `lepugaso_check`.
#[no_mangle]
pub unsafe extern "C" fn lepugaso_site_fresh(
    file: *const u8,
    file_len: usize,
    entry: u32,
    factory: *const u8,
    factory_len: usize,
    site: *mut u8,
    site_len: usize,
    mask: *mut u64,
) -> Crossing {
    match (
        Lent::new(file, file_len),
        Lent::new(factory, factory_len),
        Lent::new(site, site_len),
        Lent::new(mask, 1),
    ) {
        // SAFETY: the caller lends all, `site` and `mask` to be written, and their pointers have passed the tests. No byte of these two is
        // another's; the file and `factory` are only read, so they may overlap.
        (Some(file), Some(factory), Some(site), Some(mask))
            if site.is_apart_from(&file)
                && site.is_apart_from(&factory)
                && site.is_apart_from(&mask)
                && mask.is_apart_from(&file)
                && mask.is_apart_from(&factory) =>
        unsafe {
            lepugaso_surface_site_fresh(
                file.start(),
                file.count(),
                entry,
                factory.start(),
                factory.count(),
                site.start(),
                site.count(),
                mask.start(),
            )
        },
        _ => BAD_POINTER,
    }
}

/// The mask of an inheriting block, into `mask`.
///
/// # Safety
/// As `lepugaso_check`.
#[no_mangle]
pub unsafe extern "C" fn lepugaso_site_inheriting(
    file: *const u8,
    file_len: usize,
    entry: u32,
    mask: *mut u64,
) -> Crossing {
    match (Lent::new(file, file_len), Lent::new(mask, 1)) {
        // SAFETY: the caller lends both, `mask` to be written, and their pointers have passed the tests. No byte of `mask` is the file's.
        (Some(file), Some(mask)) if mask.is_apart_from(&file) => unsafe {
            lepugaso_surface_site_inheriting(file.start(), file.count(), entry, mask.start())
        },
        _ => BAD_POINTER,
    }
}

/// What shows a member, as a part of `site` or of `factory`, into `part` and `part_len`.
///
/// # Safety
/// As `lepugaso_check`.
#[no_mangle]
pub unsafe extern "C" fn lepugaso_site_member(
    file: *const u8,
    file_len: usize,
    entry: u32,
    member: u32,
    mask: u64,
    factory: *const u8,
    factory_len: usize,
    site: *const u8,
    site_len: usize,
    part: *mut *const u8,
    part_len: *mut usize,
) -> Crossing {
    match (
        Lent::new(file, file_len),
        Lent::new(factory, factory_len),
        Lent::new(site, site_len),
        Lent::new(part, 1),
        Lent::new(part_len, 1),
    ) {
        (Some(file), Some(made), Some(own), Some(at), Some(count))
            if at.is_apart_from(&file)
                && at.is_apart_from(&made)
                && at.is_apart_from(&own)
                && at.is_apart_from(&count)
                && count.is_apart_from(&file)
                && count.is_apart_from(&made)
                && count.is_apart_from(&own) =>
        {
            let (mut size, mut shown) = (0, 0);
            // SAFETY: the caller lends the first three, and their pointers have passed the tests of a slice's. They are only read, so they
            // may overlap.
            let answer = unsafe {
                lepugaso_surface_site_member(
                    file.start(),
                    file.count(),
                    entry,
                    member,
                    mask,
                    made.start(),
                    made.count(),
                    own.start(),
                    own.count(),
                    &mut size,
                    &mut shown,
                )
            };
            let from = if shown == 1 { site } else { factory };
            // SAFETY: the caller lends both to be written, they have passed the tests, and no byte of either is another's. When refused the
            // value is 0 and the two numbers were left alone: the empty part at the start of `factory`, null if that is.
            unsafe {
                at.start().write(from.wrapping_add(answer.value as usize));
                count.start().write(size as usize);
            }
            answer
        }
        _ => BAD_POINTER,
    }
}

/// The words of the one scalar that a path leads to from a member, in `site`, and its bit.
///
/// # Safety
/// As `lepugaso_check`.
#[no_mangle]
pub unsafe extern "C" fn lepugaso_site_set(
    file: *const u8,
    file_len: usize,
    entry: u32,
    member: u32,
    path: *const u32,
    path_len: usize,
    words: *const u32,
    words_len: usize,
    factory: *const u8,
    factory_len: usize,
    site: *mut u8,
    site_len: usize,
    mask: *mut u64,
) -> Crossing {
    match (
        Lent::new(file, file_len),
        Lent::new(path, path_len),
        Lent::new(words, words_len),
        Lent::new(factory, factory_len),
        Lent::new(site, site_len),
        Lent::new(mask, 1),
    ) {
        // SAFETY: the caller lends all, `site` and `mask` to be written, and their pointers have passed the tests. No byte of these two is
        // another's; the others are only read, so they may overlap.
        (Some(file), Some(path), Some(words), Some(factory), Some(site), Some(mask))
            if site.is_apart_from(&file)
                && site.is_apart_from(&path)
                && site.is_apart_from(&words)
                && site.is_apart_from(&factory)
                && site.is_apart_from(&mask)
                && mask.is_apart_from(&file)
                && mask.is_apart_from(&path)
                && mask.is_apart_from(&words)
                && mask.is_apart_from(&factory) =>
        unsafe {
            lepugaso_surface_site_set(
                file.start(),
                file.count(),
                entry,
                member,
                path.start(),
                path.count(),
                words.start(),
                words.count(),
                factory.start(),
                factory.count(),
                site.start(),
                site.count(),
                mask.start(),
            )
        },
        _ => BAD_POINTER,
    }
}

/// Drops the bit of a member.
///
/// # Safety
/// As `lepugaso_check`.
#[no_mangle]
pub unsafe extern "C" fn lepugaso_site_clear(
    file: *const u8,
    file_len: usize,
    entry: u32,
    member: u32,
    mask: *mut u64,
) -> Crossing {
    match (Lent::new(file, file_len), Lent::new(mask, 1)) {
        // SAFETY: as for an inheriting block.
        (Some(file), Some(mask)) if mask.is_apart_from(&file) => unsafe {
            lepugaso_surface_site_clear(file.start(), file.count(), entry, member, mask.start())
        },
        _ => BAD_POINTER,
    }
}

/// Zero into every byte of an entry's type at the front of `buf` that no scalar covers, and the offset of the first that changed into
/// `first`.
///
/// # Safety
/// As `lepugaso_check`.
#[no_mangle]
pub unsafe extern "C" fn lepugaso_clean(
    file: *const u8,
    file_len: usize,
    entry: u32,
    buf: *mut u8,
    buf_len: usize,
    first: *mut u64,
) -> Crossing {
    match (Lent::new(file, file_len), Lent::new(buf, buf_len), Lent::new(first, 1)) {
        // SAFETY: the caller lends all three, `buf` and `first` to be written, and their pointers have passed the tests. No byte of these
        // two is another's.
        (Some(file), Some(buf), Some(first))
            if buf.is_apart_from(&file) && buf.is_apart_from(&first) && first.is_apart_from(&file) =>
        unsafe {
            lepugaso_surface_clean(
                file.start(),
                file.count(),
                entry,
                buf.start(),
                buf.count(),
                first.start(),
            )
        },
        _ => BAD_POINTER,
    }
}

/// The positions of a struct's members by falling alignment, into the front of `order`.
///
/// # Safety
/// As `lepugaso_check`.
#[no_mangle]
pub unsafe extern "C" fn lepugaso_plan_order(
    file: *const u8,
    file_len: usize,
    entry: u32,
    order: *mut u32,
    order_len: usize,
) -> Crossing {
    match (Lent::new(file, file_len), Lent::new(order, order_len)) {
        // SAFETY: the caller lends both, `order` to be written, and their pointers have passed the tests of a slice's. No byte of `order`
        // is the file's.
        (Some(file), Some(order)) if order.is_apart_from(&file) => unsafe {
            lepugaso_surface_plan_order(file.start(), file.count(), entry, order.start(), order.count())
        },
        _ => BAD_POINTER,
    }
}

/// Where a struct would end with its members in another order, if that is accepted.
///
/// # Safety
/// As `lepugaso_check`.
#[no_mangle]
pub unsafe extern "C" fn lepugaso_check_order(
    file: *const u8,
    file_len: usize,
    entry: u32,
    order: *const u32,
    order_len: usize,
) -> Crossing {
    match (Lent::new(file, file_len), Lent::new(order, order_len)) {
        // SAFETY: the caller lends both, and their pointers have passed the tests of a slice's. Both are only read, so they may overlap.
        (Some(file), Some(order)) => unsafe {
            lepugaso_surface_check_order(file.start(), file.count(), entry, order.start(), order.count())
        },
        _ => BAD_POINTER,
    }
}

/// A literal of one scalar kind as one of another.
#[no_mangle]
pub extern "C" fn lepugaso_convert(from_kind: u32, bits: u64, to_kind: u32) -> Crossing {
    // SAFETY: nothing is lent, and any numbers may be passed.
    unsafe { lepugaso_surface_convert(from_kind, bits, to_kind) }
}
