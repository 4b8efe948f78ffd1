//! A reader of nested lengths that calls itself through the reader of arrays.
#![no_std]

mod number;

use number::number;

/// The array's bytes and what is behind them.
#[inline(never)]
fn array(bytes: &[u8]) -> Option<(&[u8], &[u8])> {
    let (value, rest) = length(bytes)?;
    rest.split_at_checked(value)
}

/// The array's length and what is behind it.
#[inline(never)]
fn length(bytes: &[u8]) -> Option<(usize, &[u8])> {
    let (&first, rest) = bytes.split_first()?;
    if first == 0x03 {
        let (digits, behind) = array(rest)?;
        return Some((number(digits), behind));
    }
    Some((first.checked_sub(0x80)? as usize, rest))
}

#[no_mangle]
pub fn bulk_bench_read(stream: &[u8]) -> usize {
    length(stream).map_or(0, |(value, _)| value)
}
