//! A reader of nested lengths that calls itself by a table of readers.
#![no_std]

type Reader = fn(&[u8]) -> usize;

static READERS: [Reader; 2] = [plain, bulk_bench_read];

fn plain(bytes: &[u8]) -> usize {
    bytes.first().map_or(0, |&first| first as usize & 0x3F)
}

#[no_mangle]
pub fn bulk_bench_read(stream: &[u8]) -> usize {
    match stream.split_first() {
        Some((&first, rest)) => READERS[(first == 0x03) as usize](rest) + 1,
        None => 0,
    }
}
