//! What the Rattle archive exports (crates/surface/src/lib.rt), as it passes on x86-64: a slice is a pointer and a count of elements, an
//! array or a number lent is a pointer. No compiler holds these lines to that source; tests/declarations.rs does.

/// An answer: 0 or document 01's number, its place, the value (0 when refused).
#[repr(C)]
pub struct Crossing {
    pub refusal: u32,
    pub place: u32,
    pub value: u64,
}

extern "C" {
    pub fn lepugaso_surface_check(file: *const u8, file_len: usize) -> Crossing;
    pub fn lepugaso_surface_size(file: *const u8, file_len: usize, entry: u32) -> Crossing;
    pub fn lepugaso_surface_align(file: *const u8, file_len: usize, entry: u32) -> Crossing;
    pub fn lepugaso_surface_min_size(file: *const u8, file_len: usize, entry: u32) -> Crossing;
    pub fn lepugaso_surface_layout(file: *const u8, file_len: usize, entry: u32, out: *mut [u64; 4]) -> Crossing;
    pub fn lepugaso_surface_rank(file: *const u8, file_len: usize, from: u32, to: u32) -> Crossing;
    pub fn lepugaso_surface_common(
        file: *const u8,
        file_len: usize,
        entries: *const u32,
        entries_len: usize,
    ) -> Crossing;
    pub fn lepugaso_surface_write(
        file: *const u8,
        file_len: usize,
        entry: u32,
        words: *const u32,
        words_len: usize,
        buf: *mut u8,
        buf_len: usize,
    ) -> Crossing;
    pub fn lepugaso_surface_read(
        file: *const u8,
        file_len: usize,
        entry: u32,
        buf: *const u8,
        buf_len: usize,
        words: *mut u32,
        words_len: usize,
    ) -> Crossing;
    pub fn lepugaso_surface_view(
        file: *const u8,
        file_len: usize,
        entry: u32,
        path: *const u32,
        path_len: usize,
        buf: *const u8,
        buf_len: usize,
        size: *mut u64,
    ) -> Crossing;
    pub fn lepugaso_surface_set(
        file: *const u8,
        file_len: usize,
        entry: u32,
        path: *const u32,
        path_len: usize,
        words: *const u32,
        words_len: usize,
        buf: *mut u8,
        buf_len: usize,
    ) -> Crossing;
    pub fn lepugaso_surface_extract_bits_i32(e: i32, offset: u32, count: u32) -> i32;
    pub fn lepugaso_surface_extract_bits_u32(e: u32, offset: u32, count: u32) -> u32;
    pub fn lepugaso_surface_insert_bits_i32(e: i32, newbits: i32, offset: u32, count: u32) -> i32;
    pub fn lepugaso_surface_insert_bits_u32(e: u32, newbits: u32, offset: u32, count: u32) -> u32;
    pub fn lepugaso_surface_extract_bits(
        file: *const u8,
        file_len: usize,
        entry: u32,
        path: *const u32,
        path_len: usize,
        buf: *const u8,
        buf_len: usize,
        offset: u32,
        count: u32,
    ) -> Crossing;
    pub fn lepugaso_surface_insert_bits(
        file: *const u8,
        file_len: usize,
        entry: u32,
        path: *const u32,
        path_len: usize,
        newbits: u32,
        offset: u32,
        count: u32,
        buf: *mut u8,
        buf_len: usize,
    ) -> Crossing;
    pub fn lepugaso_surface_uniform(file: *const u8, file_len: usize, entry: u32) -> Crossing;
    pub fn lepugaso_surface_to_form_2(file: *const u8, file_len: usize, out: *mut u8, out_len: usize) -> Crossing;
    pub fn lepugaso_surface_to_form_1(file: *const u8, file_len: usize, out: *mut u8, out_len: usize) -> Crossing;
    pub fn lepugaso_surface_site_inheriting(file: *const u8, file_len: usize, entry: u32, mask: *mut u64) -> Crossing;
    pub fn lepugaso_surface_site_fresh(
        file: *const u8,
        file_len: usize,
        entry: u32,
        factory: *const u8,
        factory_len: usize,
        site: *mut u8,
        site_len: usize,
        mask: *mut u64,
    ) -> Crossing;
    pub fn lepugaso_surface_site_clear(
        file: *const u8,
        file_len: usize,
        entry: u32,
        member: u32,
        mask: *mut u64,
    ) -> Crossing;
    pub fn lepugaso_surface_site_member(
        file: *const u8,
        file_len: usize,
        entry: u32,
        member: u32,
        mask: u64,
        factory: *const u8,
        factory_len: usize,
        site: *const u8,
        site_len: usize,
        size: *mut u64,
        shown: *mut u64,
    ) -> Crossing;
    pub fn lepugaso_surface_site_set(
        file: *const u8,
        file_len: usize,
        entry: u32,
        member: u32,
        path: *const u32,
        path_len: usize,
        words: *const u32,
        words_len: usize,
        factory: *const u8,
        factory_len: usize,
        site: *mut u8,
        site_len: usize,
        mask: *mut u64,
    ) -> Crossing;
    pub fn lepugaso_surface_clean(
        file: *const u8,
        file_len: usize,
        entry: u32,
        buf: *mut u8,
        buf_len: usize,
        first: *mut u64,
    ) -> Crossing;
    pub fn lepugaso_surface_plan_order(
        file: *const u8,
        file_len: usize,
        entry: u32,
        order: *mut u32,
        order_len: usize,
    ) -> Crossing;
    pub fn lepugaso_surface_check_order(
        file: *const u8,
        file_len: usize,
        entry: u32,
        order: *const u32,
        order_len: usize,
    ) -> Crossing;
    pub fn lepugaso_surface_convert(from: u32, bits: u64, to: u32) -> Crossing;
}
