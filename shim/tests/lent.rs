//! The tests of a pointer that C lends, at their edges.

#[path = "../src/lent.rs"]
mod lent;

use lent::Lent;

const LARGEST: usize = isize::MAX as usize;

fn at<T>(address: usize, count: usize) -> Option<Lent<T>> {
    Lent::new(address as *const T, count)
}

#[test]
fn null_is_an_empty_slice_or_nothing() {
    let empty = at::<u64>(0, 0).unwrap();
    assert_eq!(
        (empty.start().is_null(), empty.start() as usize % 8, empty.count()),
        (false, 0, 0)
    );
    assert!(at::<u64>(0, 1).is_none());
}

#[test]
fn a_pointer_is_handed_on_as_it_is() {
    let five = at::<u32>(4096, 5).unwrap();
    assert_eq!((five.start() as usize, five.count()), (4096, 5));
    assert_eq!(at::<u8>(1, 0).unwrap().start() as usize, 1);
}

#[test]
fn elements_are_aligned() {
    for count in 0..2 {
        for address in 64..72 {
            assert!(at::<u8>(address, count).is_some());
            assert_eq!(at::<u32>(address, count).is_some(), address % 4 == 0);
            assert_eq!(at::<u64>(address, count).is_some(), address % 8 == 0);
        }
    }
}

#[test]
fn bytes_are_within_an_object_and_the_address_space() {
    assert!(at::<u8>(8, LARGEST).is_some());
    assert!(at::<u8>(8, LARGEST + 1).is_none());
    assert!(at::<u32>(8, LARGEST / 4).is_some());
    assert!(at::<u32>(8, LARGEST / 4 + 1).is_none());
    assert!(at::<u32>(8, usize::MAX / 4 + 1).is_none());
    assert!(at::<u8>(usize::MAX, 0).is_some());
    assert!(at::<u8>(usize::MAX, 1).is_none());
    assert!(at::<u8>(usize::MAX - 1, 1).is_some());
}

#[test]
fn apart_is_to_share_no_byte() {
    let words = at::<u32>(64, 2).unwrap();
    for address in 56..80 {
        for count in 0..12 {
            let bytes = at::<u8>(address, count).unwrap();
            let shares = (address..address + count).any(|byte| (64..72).contains(&byte));
            assert_eq!(words.is_apart_from(&bytes), !shares, "{} bytes at {}", count, address);
            assert_eq!(bytes.is_apart_from(&words), !shares, "{} bytes at {}", count, address);
        }
    }
}

#[test]
fn apart_at_the_end_of_the_address_space() {
    let words = at::<u32>(usize::MAX - 7, 1).unwrap();
    assert!(words.is_apart_from(&at::<u8>(usize::MAX - 3, 3).unwrap()));
    assert!(!words.is_apart_from(&at::<u8>(usize::MAX - 4, 4).unwrap()));
    assert!(at::<u32>(usize::MAX - 3, 1).is_none());
}

#[test]
fn the_largest_regions_overlap_or_touch() {
    let low = at::<u8>(1, LARGEST).unwrap();
    let high = at::<u8>(LARGEST + 1, LARGEST).unwrap();
    assert!(low.is_apart_from(&high) && high.is_apart_from(&low));
    let words = at::<u32>(LARGEST - 3, LARGEST / 4).unwrap();
    assert!(!words.is_apart_from(&low) && !low.is_apart_from(&words));
    assert!(!words.is_apart_from(&high) && !high.is_apart_from(&words));
}
