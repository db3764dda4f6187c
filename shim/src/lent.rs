//! What C lends: elements from a pointer on, and the tests of that pointer.

use core::mem::{align_of, size_of};
use core::ptr::NonNull;

/// `count` elements that lie one after the other from `start` on. An empty one has a start too, as every slice has.
pub struct Lent<T> {
    start: NonNull<T>,
    count: usize,
}

impl<T> Lent<T> {
    /// The elements that C names by a pointer and a count; `None` where no such elements can be: the pointer is null though there are
    /// elements, or is not aligned for them, or their bytes are more than an object can have or run past the end of the address space.
    pub fn new(pointer: *const T, count: usize) -> Option<Lent<T>> {
        let bytes = count.checked_mul(size_of::<T>())?;
        let end = (pointer as usize).checked_add(bytes);
        let aligned = pointer as usize % align_of::<T>() == 0;
        if bytes > isize::MAX as usize || end.is_none() || !aligned {
            return None;
        }
        match NonNull::new(pointer as *mut T) {
            Some(start) => Some(Lent { start, count }),
            None if count == 0 => Some(Lent {
                start: NonNull::dangling(),
                count,
            }),
            None => None,
        }
    }

    /// Where the first element is.
    pub fn start(&self) -> *mut T {
        self.start.as_ptr()
    }

    /// How many elements there are.
    pub fn count(&self) -> usize {
        self.count
    }

    /// Whether the two share no byte. Those that only touch do not.
    pub fn is_apart_from<U>(&self, other: &Lent<U>) -> bool {
        let (from, to) = self.bounds();
        let (other_from, other_to) = other.bounds();
        from == to || other_from == other_to || to <= other_from || other_to <= from
    }

    /// The address of the first byte, and that after the last. Neither overflows: `new` has tested it.
    fn bounds(&self) -> (usize, usize) {
        let from = self.start.as_ptr() as usize;
        (from, from.wrapping_add(self.count.wrapping_mul(size_of::<T>())))
    }
}
