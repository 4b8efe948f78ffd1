//! The programs that take one stream: the streams for them, and what each prints where
//! a request for the same gets some answer.

use crate::bounds::{self, Bounds};
use crate::evaluations::random_evaluation;
use crate::known::known_streams;
use crate::limits::limits;
use crate::random::Random;
use crate::requests::{evaluate_line, read_line, unhex, write_line};
use crate::streams::{huge_streams, limit_streams, random_stream};

pub const LIST: &str = "bulk_list";
pub const WRITE: &str = "bulk_write";
pub const EVAL: &str = "bulk_eval";

/// Few, since all programs are started for each.
const RANDOM_STREAMS: usize = 300;

pub struct Single {
    pub name: &'static str,
    /// For a stream, with the sizes that the program's own buffers have.
    pub request: fn(&[u8]) -> Vec<u8>,
    /// For the answer to that request.
    pub printed: fn(&[u8]) -> Vec<u8>,
}

pub const PROGRAMS: [Single; 3] = [
    Single {
        name: LIST,
        request: |stream| read_line(stream, 4 * 4_096),
        printed: listing,
    },
    Single {
        name: WRITE,
        request: |stream| write_line(stream, 4 * 65_536, 65_536),
        printed: written,
    },
    Single {
        name: EVAL,
        request: |stream| evaluate_line(stream, DEFAULTS),
        printed: evaluated,
    },
];

/// What `bulk_eval` takes if it has no arguments.
const DEFAULTS: Bounds = Bounds {
    steps: 1_000_000,
    ..bounds::LARGE
};

/// Document 01's streams, those at the limits, and random ones.
pub fn streams(seed: u64) -> Vec<Vec<u8>> {
    let mut streams = known_streams();
    streams.extend(limit_streams());
    streams.extend(limits().into_iter().map(|limit| limit.stream));
    streams.extend(huge_streams());
    let mut random = Random::new(seed);
    streams.extend((0..RANDOM_STREAMS).map(|_| random_stream(&mut random).bytes));
    streams.extend((0..RANDOM_STREAMS).map(|_| random_evaluation(&mut random)));
    streams
}

/// A line with the number of rows, and a line for each row.
fn listing(answer: &[u8]) -> Vec<u8> {
    let words: Vec<&[u8]> = answer.split(|byte| *byte == b' ').collect();
    let [b"ok", rows, numbers @ ..] = &words[..] else {
        return line(answer);
    };
    let mut printed = line(&[b"rows ", *rows].concat());
    for row in numbers.chunks(4) {
        printed.extend(line(&row.join(&b' ')));
    }
    printed
}

/// The canonical stream's bytes alone.
fn written(answer: &[u8]) -> Vec<u8> {
    let words: Vec<&[u8]> = answer.split(|byte| *byte == b' ').collect();
    match words[..] {
        [b"ok", _, bytes] => unhex(bytes).unwrap_or_else(|| line(answer)),
        _ => line(answer),
    }
}

/// The result's bytes alone.
fn evaluated(answer: &[u8]) -> Vec<u8> {
    let words: Vec<&[u8]> = answer.split(|byte| *byte == b' ').collect();
    match words[..] {
        [b"ok", _, _, bytes] => unhex(bytes).unwrap_or_else(|| line(answer)),
        _ => line(answer),
    }
}

fn line(text: &[u8]) -> Vec<u8> {
    [text, b"\n"].concat()
}
