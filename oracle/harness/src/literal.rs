//! Converting a literal (02, E14), written from its text over whole numbers. A float is rounded without a shift: the numbers of a float type
//! grow with their patterns, so that the last one not above the literal is found by halving, and the exact distances to it and to the next
//! one decide. Distances are whole multiples of 2^-1074, the least f64 above 0.
use std::cmp::Ordering;

use crate::model::is_scalar;
use crate::question::Answer;

/// A number of so many 2^-1074, the lowest 64 bits first: of 2^1024, which follows the last f64, bit 2,098 is set.
type Whole = [u64; 33];

/// The power of two that a `Whole` counts.
const UNIT: i32 = -1074;

/// A float type: below its sign so many bits of exponent, and below them so many of mantissa.
struct Float {
    exponent: u32,
    mantissa: u32,
}

const F16: Float = Float { exponent: 5, mantissa: 10 };
const F32: Float = Float { exponent: 8, mantissa: 23 };
const F64: Float = Float { exponent: 11, mantissa: 52 };

/// 25: "no such conversion or no finite result".
const REFUSED: (u32, u64) = (25, 0);

impl Float {
    /// The pattern of infinity; those below it are the numbers, in order.
    fn infinity(&self) -> u64 {
        (2u64.pow(self.exponent) - 1) * 2u64.pow(self.mantissa)
    }

    /// The pattern of negative zero.
    fn minus(&self) -> u64 {
        2u64.pow(self.exponent + self.mantissa)
    }

    /// The number of a pattern without its sign; of infinity the one that would follow the last.
    fn number(&self, pattern: u64) -> Whole {
        let (above, below) = (pattern / 2u64.pow(self.mantissa), pattern % 2u64.pow(self.mantissa));
        let least = 2 - 2i32.pow(self.exponent - 1) - self.mantissa as i32;
        match above {
            0 => times_power(below, least),
            _ => times_power(2u64.pow(self.mantissa) + below, least + above as i32 - 1),
        }
    }

    /// "rounded to nearest, ties to even": the pattern of the number that is nearest to `n`, of two the even one; none if it is infinite.
    fn nearest(&self, n: &Whole) -> Option<u64> {
        let (mut low, mut high) = (0, self.infinity());
        if order(&self.number(high), n) != Ordering::Greater {
            return None;
        }
        // the number of `low` is not above n, that of `high` is
        while high - low > 1 {
            let middle = low + (high - low) / 2;
            match order(&self.number(middle), n) {
                Ordering::Greater => high = middle,
                _ => low = middle,
            }
        }
        let (down, up) = (less(n, &self.number(low)), less(&self.number(high), n));
        let found = match order(&down, &up) {
            Ordering::Less => low,
            Ordering::Greater => high,
            Ordering::Equal => low + low % 2,
        };
        (found < self.infinity()).then_some(found)
    }

    /// The pattern nearest to `n`, negative or not.
    fn signed(&self, is_negative: bool, n: &Whole) -> Answer {
        let found = self.nearest(n).ok_or(REFUSED)?;
        Ok(if is_negative { self.minus() + found } else { found })
    }
}

/// n times 2^power, which is a multiple of the unit.
fn times_power(n: u64, power: i32) -> Whole {
    let at = (power - UNIT) as usize;
    let wide = (n as u128) << (at % 64);
    let mut all = [0; 33];
    all[at / 64] = wide as u64;
    if wide >> 64 != 0 {
        all[at / 64 + 1] = (wide >> 64) as u64;
    }
    all
}

fn order(a: &Whole, b: &Whole) -> Ordering {
    a.iter().rev().cmp(b.iter().rev())
}

/// a - b, where b is not above a.
fn less(a: &Whole, b: &Whole) -> Whole {
    let mut borrowed = false;
    std::array::from_fn(|k| {
        let (n, first) = a[k].overflowing_sub(b[k]);
        let (n, second) = n.overflowing_sub(borrowed as u64);
        borrowed = first || second;
        n
    })
}

/// How many of a pattern's lowest bits are a scalar's.
fn width(kind: u32) -> u32 {
    match kind {
        0 => 1,
        1..=3 => 32,
        4 => 16,
        _ => 64,
    }
}

/// The kinds that 01 has a scalar for.
pub fn is_kind(kind: u32) -> bool {
    u8::try_from(kind).is_ok_and(is_scalar)
}

/// Whether an abstract float's pattern is a NaN's.
pub fn is_nan(pattern: u64) -> bool {
    pattern % F64.minus() > F64.infinity()
}

/// The pattern of a literal of kind `from` converted to kind `to`.
pub fn convert(from: u32, pattern: u64, to: u32) -> Answer {
    let int = pattern as i64;
    let whole = |float: Float| float.signed(int < 0, &times_power(int.unsigned_abs(), 0));
    let finite = |float: Float| {
        let size = pattern % F64.minus();
        if size >= F64.infinity() { Err(REFUSED) } else { float.signed(size != pattern, &F64.number(size)) }
    };
    match (from, to) {
        _ if !is_kind(from) || !is_kind(to) => Err(REFUSED),
        // "the same type unchanged"
        _ if from == to => Ok((pattern as u128 % 2u128.pow(width(from))) as u64),
        // "abstract int (i64) to abstract float (f64), i32, u32, f32, f16", "Integers out of range are refused."
        (5, 1) => i32::try_from(int).map(|n| n as u32 as u64).map_err(|_| REFUSED),
        (5, 2) => u32::try_from(int).map(u64::from).map_err(|_| REFUSED),
        (5, 6) => whole(F64),
        (5, 3) => whole(F32),
        (5, 4) => whole(F16),
        // "abstract float to f32, f16", "NaN and infinite abstract floats to f32 or f16 are refused"
        (6, 3) => finite(F32),
        (6, 4) => finite(F16),
        _ => Err(REFUSED),
    }
}
