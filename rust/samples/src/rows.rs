//! Random rows.

use crate::Xorshift;

/// A row of bytes from `low` to `high`.
pub fn bytes(rng: &mut Xorshift, length: usize, low: usize, high: usize) -> Vec<u8> {
    (0..length).map(|_| rng.between(low, high) as u8).collect()
}

/// A row of 16-bit numbers from `low` to `high`.
pub fn words(rng: &mut Xorshift, length: usize, low: usize, high: usize) -> Vec<u16> {
    (0..length).map(|_| rng.between(low, high) as u16).collect()
}

/// The numbers below a limit, in order.
pub fn in_order(count: usize) -> Vec<u16> {
    (0..count).map(|number| number as u16).collect()
}

/// The numbers below a limit in random order.
pub fn shuffled(rng: &mut Xorshift, count: usize) -> Vec<u16> {
    let mut numbers = in_order(count);
    for place in (1..count).rev() {
        numbers.swap(place, rng.below(place + 1));
    }
    numbers
}

/// Overwrites one entry of a row, if it has any.
pub fn overwrite<T>(rng: &mut Xorshift, row: &mut [T], value: T) {
    let place = rng.below(row.len());
    if let Some(entry) = row.get_mut(place) {
        *entry = value;
    }
}
