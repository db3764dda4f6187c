//! num-traits with `f16::from_i64`, which half 1.6.0 lacks. The conversion of an abstract int to an f16 alone calls it, and is not asked for:
//! an answer from here would be none of the Rust's, so there is none.
pub use debian::ToPrimitive;

pub trait FromPrimitive: Sized {
    fn from_i64(n: i64) -> Option<Self>;
}

impl FromPrimitive for half::f16 {
    fn from_i64(_: i64) -> Option<Self> {
        unimplemented!("f16::from_i64 of half 1.6.0")
    }
}
