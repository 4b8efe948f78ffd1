//! A reader of nested lengths that calls itself for each.
#![no_std]

mod number;

use number::number;

/// The array's length and what is behind it.
fn length(bytes: &[u8]) -> Option<(usize, &[u8])> {
    let (&first, rest) = bytes.split_first()?;
    if first == 0x03 {
        let (value, rest) = length(rest)?;
        let (digits, behind) = rest.split_at_checked(value)?;
        return Some((number(digits), behind));
    }
    Some((first.checked_sub(0x80)? as usize, rest))
}

#[no_mangle]
pub fn bulk_bench_read(stream: &[u8]) -> usize {
    length(stream).map_or(0, |(value, _)| value)
}
