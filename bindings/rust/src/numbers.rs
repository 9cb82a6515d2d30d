//! Signed numbers, floats and doubles as the numbers below 2^62 that a field holds, as
//! `c/rtheap_numbers.h` codes them. Each goes there and back unchanged, bit for bit.

/// The number that stands for n, if n is from -2^61 to 2^61 - 1.
///
/// ```
/// use rtheap::numbers::{from_int, to_int};
/// assert_eq!([0, -1, 1, -2].map(from_int), [Some(0), Some(1), Some(2), Some(3)]);
/// assert_eq!(from_int(i64::MIN), None);
/// assert_eq!(from_int(-7).map(to_int), Some(-7));
/// ```
#[must_use]
pub const fn from_int(n: i64) -> Option<u64> {
    if n < -(1 << 61) || n >= 1 << 61 {
        return None;
    }
    Some(((n << 1) ^ (n >> 63)) as u64)
}

/// The n of such a number.
#[must_use]
pub const fn to_int(number: u64) -> i64 {
    (number >> 1) as i64 ^ -((number & 1) as i64)
}

/// A float, in one field.
#[must_use]
pub fn from_f32(f: f32) -> u64 {
    f.to_bits().into()
}

/// The float of such a number.
#[must_use]
pub fn to_f32(number: u64) -> f32 {
    f32::from_bits(number as u32)
}

/// A double as two numbers, the higher half first.
///
/// ```
/// use rtheap::numbers::{join_f64, split_f64};
/// assert_eq!(join_f64(split_f64(-21.5)), -21.5);
/// ```
#[must_use]
pub fn split_f64(x: f64) -> [u64; 2] {
    let bits = x.to_bits();
    [bits >> 32, bits & 0xffff_ffff]
}

/// The double of such numbers.
#[must_use]
pub fn join_f64(halves: [u64; 2]) -> f64 {
    f64::from_bits(halves[0] << 32 | halves[1] & 0xffff_ffff)
}
