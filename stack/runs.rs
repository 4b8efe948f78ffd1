//! Read, Write and Item on the small stack, held against the second program's answers and against
//! what the object code says that they take.

use crate::code::Functions;
use crate::object::{self, READING};
use crate::small::{Ran, Small};
use crate::streams::{self, Stream};
use crate::tree::{self, Expression};
use crate::{write, Tally};

const ROWS: usize = 65_536;

/// Runs a call on a stream. Gives the bytes of stack that it took; none if the answer is another.
type Run = fn(&mut Small, &[u8]) -> Option<usize>;

pub fn all(functions: &Functions, tally: &mut Tally) {
    let calls: [Run; 3] = [read, write, item];
    for (call, run) in READING.into_iter().zip(calls) {
        match object::most(functions, call) {
            Ok((most, line)) => {
                tally.count(call, Ok(line));
                tally.count(call, on_all(run, most));
            }
            Err(line) => tally.count(call, Err(line)),
        }
    }
}

/// On every stream, with no more bytes than that.
fn on_all(run: Run, most: usize) -> Result<String, String> {
    let mut small = Small::new().ok_or("no small stack")?;
    let streams = streams::all();
    let mut deepest = 0;
    for stream in &streams {
        let name = stream.name;
        if is_readable(stream) != stream.readable {
            return Err(format!("{name}: not as it is meant"));
        }
        let bytes = run(&mut small, &stream.bytes).ok_or(format!("{name}: another answer"))?;
        if bytes > most {
            return Err(format!("{name}: {bytes} bytes, above {most}"));
        }
        deepest = deepest.max(bytes);
    }
    Ok(format!(
        "{} streams on a stack of 64 KiB took at most {deepest} bytes of it",
        streams.len()
    ))
}

fn is_readable(stream: &Stream) -> bool {
    tree::read(&stream.bytes, ROWS as u64).is_ok()
}

/// Nothing where the stream can't be read.
fn expected(stream: &[u8]) -> Vec<Expression<'_>> {
    tree::read(stream, ROWS as u64).unwrap_or_default()
}

fn read(small: &mut Small, stream: &[u8]) -> Option<usize> {
    let mut table = vec![0; 4 * ROWS];
    let Ran { given, bytes } = small.read(stream, &mut table);
    let rows = tree::rows(&expected(stream));
    let numbers = rows.iter().flatten().map(|&number| number as u32);
    let same = given == rows.len() && numbers.eq(table[..4 * given].iter().copied());
    same.then_some(bytes)
}

fn write(small: &mut Small, stream: &[u8]) -> Option<usize> {
    let (mut table, mut output) = (vec![0; 4 * ROWS], vec![0; stream.len()]);
    let Ran { given, bytes } = small.write(stream, &mut table, &mut output);
    let same = write::canonical(&expected(stream)) == output[..given];
    same.then_some(bytes)
}

/// The first, the last, and one past the last.
fn item(small: &mut Small, stream: &[u8]) -> Option<usize> {
    let list = expected(stream);
    let mut most = 0;
    for k in [0, list.len().saturating_sub(1), list.len()] {
        let Ran { given, bytes } = small.item(stream, k);
        if given != list.get(k).map_or(0, |item| item.end - item.start) {
            return None;
        }
        most = most.max(bytes);
    }
    Some(most)
}
