//! Document 01's "Streams to try", and requests for each, for each cut off at every byte, and
//! for all at once.

use crate::backlogs::Backlog;
use crate::bounds::{self, Bounds};
use crate::requests::{evaluate_line, item_line, read_line, write_line, Request};
use std::collections::BTreeSet;

const VERSION: &str = "01 20 00 81 80 02";
const NAMESPACE: &str = "01 20 06 28 00 C1 41 02";
const DEFINE: &str = "01 20 09 28 01 85 02";
const DEFINE_AGAIN: &str = "01 20 09 28 01 89 02";

const TABLES: [u64; 9] = [0, 3, 4, 8, 19, 20, 255, 256, 16_384];
const LARGE: u64 = 65_536;
/// More than any known stream needs of one bound in its evaluation, 64 forms apart.
const ENOUGH: u64 = 30;

/// Requests of every call for every known stream, and backlogs of all.
pub fn requests() -> Vec<Request> {
    let mut lines = Vec::new();
    let streams = known_streams();
    for stream in &streams {
        add_requests(stream, &mut lines);
        add_evaluations(&mut lines, |bounds| evaluate_line(stream, bounds));
        add_cut_off(stream, &mut lines);
    }
    add_evaluations(&mut lines, |bounds| Backlog::new(&streams, bounds).line());
    lines.into_iter().map(Request::new).collect()
}

/// With large bounds, and with one that is small.
fn add_evaluations(lines: &mut Vec<Vec<u8>>, line: impl Fn(Bounds) -> Vec<u8>) {
    let mut add = |change: fn(&mut Bounds, u64), size| {
        let mut changed = bounds::LARGE;
        change(&mut changed, size);
        lines.push(line(changed));
    };
    for table in TABLES {
        add(|bounds, size| bounds.table = size, table);
    }
    for size in 0..ENOUGH {
        add(|bounds, size| bounds.workspace = size, size);
        add(|bounds, size| bounds.output = size, size);
        add(|bounds, size| bounds.steps = size, size);
    }
}

fn add_requests(stream: &[u8], lines: &mut Vec<Vec<u8>>) {
    let length = stream.len() as u64;
    for table in TABLES {
        lines.push(read_line(stream, table));
        lines.push(write_line(stream, table, LARGE));
    }
    // The canonical length is at most the stream's.
    let outputs: BTreeSet<u64> = (0..3).chain(length.saturating_sub(4)..=length).collect();
    for output in outputs {
        lines.push(write_line(stream, LARGE, output));
    }
    for k in [0, 1, 2, 3, 4, u64::MAX] {
        lines.push(item_line(stream, &[], false, k));
        lines.push(item_line(&[0x02], stream, true, k));
    }
}

/// At every byte, each alone and all as one backlog.
fn add_cut_off(stream: &[u8], lines: &mut Vec<Vec<u8>>) {
    let cut_off = |end| stream[..end].to_vec();
    let streams: Vec<Vec<u8>> = (0..stream.len()).map(cut_off).collect();
    for stream in &streams {
        lines.push(read_line(stream, LARGE));
        lines.push(write_line(stream, LARGE, LARGE));
        lines.push(evaluate_line(stream, bounds::LARGE));
    }
    lines.push(Backlog::new(&streams, bounds::LARGE).line());
}

pub fn known_streams() -> Vec<Vec<u8>> {
    let mut streams: Vec<Vec<u8>> = ["", "02", "01", "04", "03 00"].map(bytes).to_vec();
    streams.extend(["7F FF 8C 1A", "7F 00 1A", "03 81 AA", "03 03 81 02 AA BB"].map(bytes));
    streams.extend(evaluated_streams());
    streams.push(joined(&[VERSION, "00"]));
    streams.push(nested_forms(64));
    streams.push(nested_forms(65));
    for size in [63, 64, 255, 256] {
        streams.extend(arrays(size));
    }
    streams
}

/// What document 01 calls N.
const N: [&str; 4] = [VERSION, NAMESPACE, DEFINE, "28 01"];

pub fn stream_i() -> Vec<u8> {
    joined(&N)
}

/// i to m.
fn evaluated_streams() -> Vec<Vec<u8>> {
    let substitution = "01 01 20 0B 81 01 20 0D 80 02 82 02 83 84 02";
    vec![
        stream_i(),
        joined(&[&N[..], &[DEFINE_AGAIN, "28 01"]].concat()),
        joined(&[VERSION, NAMESPACE, "28 01", DEFINE, "28 01"]),
        joined(&[VERSION, substitution]),
        joined(&[VERSION, "01 20 0A C1 41 81 02"]),
        joined(&[VERSION, "01 20 0A C1 41 C1 42 02"]),
    ]
}

fn nested_forms(count: usize) -> Vec<u8> {
    [vec![0x01; count], vec![0x02; count]].concat()
}

/// An array of that many bytes, with its length written in several ways.
fn arrays(size: usize) -> Vec<Vec<u8>> {
    let (high, low) = ((size >> 8) as u8, size as u8);
    let mut heads = vec![vec![0x03, 0xC2, high, low], vec![0x03, 0xC3, 0, high, low]];
    heads.push(vec![0x03, 0x03, 0x82, high, low]);
    if size < 64 {
        heads.push(vec![0xC0 | low]);
        heads.push(vec![0x03, 0x80 | low]);
    }
    if size < 256 {
        heads.push(vec![0x03, 0xC1, low]);
    }
    let content: Vec<u8> = (0..size).map(|index| index as u8).collect();
    heads
        .iter()
        .map(|head| [&head[..], &content].concat())
        .collect()
}

fn joined(parts: &[&str]) -> Vec<u8> {
    parts.iter().flat_map(|part| bytes(part)).collect()
}

fn bytes(text: &str) -> Vec<u8> {
    text.split_whitespace()
        .map(|pair| u8::from_str_radix(pair, 16).expect("two hex digits"))
        .collect()
}
