//! A reader of nested lengths that is told by address what to call for each.
#![no_std]

type Reader = fn(&Readers, &[u8]) -> usize;

pub struct Readers {
    length: Reader,
}

#[no_mangle]
pub fn bulk_bench_read(readers: &Readers, stream: &[u8]) -> usize {
    match stream.split_first() {
        Some((0x03, rest)) => (readers.length)(readers, rest) + 1,
        _ => 0,
    }
}
