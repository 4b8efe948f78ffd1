//! A reader of nested lengths by a loop, with more on the stack than there is for it.
#![no_std]

use core::hint::black_box;

#[no_mangle]
pub fn bulk_bench_read(stream: &[u8]) -> usize {
    let mut lengths = black_box([0_u8; 2_048]);
    for (length, &byte) in lengths.iter_mut().zip(stream) {
        *length = byte;
    }
    black_box(&lengths)
        .iter()
        .take_while(|&&byte| byte == 0x03)
        .count()
}
