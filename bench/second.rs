//! What the second program does for a request, without the text around it. Its Write and its
//! Evaluate fill no table.

use crate::backlogs::{self, Answers};
use crate::evaluate::{self, Bounds};
use crate::tree::{self, Refusal};
use crate::{write, BYTES, ROWS};

pub fn read(stream: &[u8]) -> Result<Vec<[usize; 4]>, Refusal> {
    Ok(tree::rows(&tree::read(stream, ROWS as u64)?))
}

pub fn write(stream: &[u8]) -> Result<Vec<u8>, Refusal> {
    Ok(write::canonical(&tree::read(stream, ROWS as u64)?))
}

/// The lengths of the items; none if the stream can't be read.
pub fn items(stream: &[u8]) -> Vec<usize> {
    let list = tree::read(stream, ROWS as u64).unwrap_or_default();
    list.iter().map(|item| item.end - item.start).collect()
}

fn bounds(output: usize) -> Bounds {
    Bounds {
        rows: ROWS as u64,
        workspace: BYTES as u64,
        output: output as u64,
        steps: u64::MAX,
    }
}

/// The result and the steps taken.
pub fn evaluate(stream: &[u8]) -> Result<(Vec<u8>, u64), Refusal> {
    evaluate::evaluate(stream, bounds(BYTES))
}

/// The answers to a backlog whose ends fit, with a place for each.
pub fn backlog(buffer: &[u8], ends: &[u64], output: usize) -> Answers {
    backlogs::evaluate(buffer, ends, u64::MAX, bounds(output)).unwrap_or_default()
}
