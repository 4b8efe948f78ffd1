//! A reader of nested lengths by loops, as the library's.
#![no_std]

mod number;

use number::number;

/// The array's length and what is behind it.
fn length(bytes: &[u8]) -> Option<(usize, &[u8])> {
    let depth = bytes.iter().take_while(|&&byte| byte == 0x03).count();
    let (&first, mut rest) = bytes.get(depth..)?.split_first()?;
    let mut value = first.checked_sub(0x80)? as usize;
    for _ in 0..depth {
        let (digits, behind) = rest.split_at_checked(value)?;
        (value, rest) = (number(digits), behind);
    }
    Some((value, rest))
}

#[no_mangle]
pub fn bulk_bench_read(stream: &[u8]) -> usize {
    length(stream).map_or(0, |(value, _)| value)
}
