//! The request lines and their answers.

use crate::backlog::{self, Answers};
use crate::evaluate::{self, Bounds};
use crate::tree::Refusal;
use crate::{tree, write};
use std::fmt::Write as _;
use std::io::{self, BufRead, BufWriter, Write};

const NUMBERS_IN_A_ROW: u64 = 4;

/// One answer line for each line; the last may lack its newline.
pub fn answer_all(mut input: impl BufRead, output: impl Write) -> io::Result<()> {
    let mut output = BufWriter::new(output);
    let mut line = Vec::new();
    while input.read_until(b'\n', &mut line)? > 0 {
        if line.last() == Some(&b'\n') {
            line.pop();
        }
        writeln!(output, "{}", answer(&line))?;
        line.clear();
    }
    output.flush()
}

fn answer(line: &[u8]) -> String {
    match request(line) {
        None => "bad request".to_string(),
        Some(Ok(answer)) => answer,
        Some(Err(refusal)) => format!("refused {} {}", refusal.number, refusal.place),
    }
}

/// None if the line is no request.
fn request(line: &[u8]) -> Option<Result<String, Refusal>> {
    let words: Vec<&[u8]> = line.split(|byte| *byte == b' ').collect();
    match words[..] {
        [b"read", stream, table] => Some(read(&bytes(stream)?, number(table)?)),
        [b"write", stream, table, output] => {
            Some(write(&bytes(stream)?, number(table)?, number(output)?))
        }
        [b"item", stream, result, which, k] => {
            let (stream, result, k) = (bytes(stream)?, bytes(result)?, number(k)?);
            match which {
                b"0" => Some(Ok(item(&stream, k))),
                b"1" => Some(Ok(item(&result, k))),
                _ => None,
            }
        }
        [call @ (b"evaluate" | b"base"), stream, table, workspace, output, steps] => {
            let evaluate = match call {
                b"base" => evaluate::evaluate_base,
                _ => evaluate::evaluate,
            };
            let bounds = bounds([table, workspace, output, steps])?;
            Some(evaluate(&bytes(stream)?, bounds).map(evaluated))
        }
        [b"backlog", buffer, ends, table, workspace, output, steps, answers] => {
            let bounds = bounds([table, workspace, output, steps])?;
            let (buffer, ends, answers) = (bytes(buffer)?, numbers(ends)?, number(answers)?);
            Some(backlog::evaluate(&buffer, &ends, answers, bounds).map(|all| answered(&all)))
        }
        [b"needs", stream] => Some(needs(&bytes(stream)?)),
        _ => None,
    }
}

fn read(stream: &[u8], table: u64) -> Result<String, Refusal> {
    let rows = tree::rows(&tree::read(stream, table / NUMBERS_IN_A_ROW)?);
    let mut answer = format!("ok {}", rows.len());
    for [kind, start, end, next] in rows {
        // Writing to a String cannot fail.
        let _ = write!(answer, " {kind} {start} {end} {next}");
    }
    Ok(answer)
}

fn write(stream: &[u8], table: u64, output: u64) -> Result<String, Refusal> {
    let written = write::canonical(&tree::read(stream, table / NUMBERS_IN_A_ROW)?);
    if written.len() as u64 > output {
        return tree::refuse(18, 0);
    }
    Ok(format!("ok {} {}", written.len(), hex(&written)))
}

/// "If that buffer can't be read (rows apart: no table is lent, so 8 can't arise) or
/// has no such item, the part is empty."
fn item(buffer: &[u8], k: u64) -> String {
    let list = tree::read(buffer, u64::MAX).unwrap_or_default();
    match usize::try_from(k).ok().and_then(|k| list.get(k)) {
        Some(item) => format!("part {} {}", item.start, item.end),
        None => "part empty".to_string(),
    }
}

fn evaluated((result, taken): (Vec<u8>, u64)) -> String {
    format!("ok {} {taken} {}", result.len(), hex(&result))
}

/// The four numbers of each stream, and all results.
fn answered(answers: &Answers) -> String {
    let mut line = "ok".to_string();
    for [number, place, length, steps] in &answers.streams {
        // Writing to a String cannot fail.
        let _ = write!(line, " {number} {place} {length} {steps}");
    }
    format!("{line} {}", hex(&answers.results))
}

/// What the comparison takes exact bounds from. The library has no such call, nor `base`.
fn needs(stream: &[u8]) -> Result<String, Refusal> {
    let needs = evaluate::needs(stream)?;
    let (rows, steps, charged) = (needs.rows, needs.steps, needs.charged);
    Ok(match needs.length {
        Some(length) => format!("accepted {rows} {steps} {charged} {length}"),
        None => format!("stopped {rows} {steps} {charged}"),
    })
}

/// A table's length, a workspace's, an output's, and a number of steps.
fn bounds([table, workspace, output, steps]: [&[u8]; 4]) -> Option<Bounds> {
    Some(Bounds {
        rows: number(table)? / NUMBERS_IN_A_ROW,
        workspace: number(workspace)?,
        output: number(output)?,
        steps: number(steps)?,
    })
}

/// Numbers parted by commas, or `-` for none.
fn numbers(word: &[u8]) -> Option<Vec<u64>> {
    match word {
        b"-" => Some(Vec::new()),
        _ => word.split(|byte| *byte == b',').map(number).collect(),
    }
}

/// One or more digits; a value above the largest counts as the largest.
fn number(word: &[u8]) -> Option<u64> {
    if word.is_empty() {
        return None;
    }
    word.iter().try_fold(0, |number: u64, digit| match digit {
        b'0'..=b'9' => Some(
            number
                .saturating_mul(10)
                .saturating_add(u64::from(digit - b'0')),
        ),
        _ => None,
    })
}

fn bytes(word: &[u8]) -> Option<Vec<u8>> {
    if word == b"-" {
        return Some(Vec::new());
    }
    if word.is_empty() || word.len() % 2 == 1 {
        return None;
    }
    word.chunks(2)
        .map(|pair| Some(hex_digit(pair[0])? << 4 | hex_digit(pair[1])?))
        .collect()
}

fn hex_digit(digit: u8) -> Option<u8> {
    match digit {
        b'0'..=b'9' => Some(digit - b'0'),
        b'a'..=b'f' => Some(digit - b'a' + 10),
        _ => None,
    }
}

fn hex(bytes: &[u8]) -> String {
    if bytes.is_empty() {
        return "-".to_string();
    }
    let digit = |value: u8| char::from(b"0123456789abcdef"[usize::from(value)]);
    let digits = |byte: &u8| [digit(byte >> 4), digit(byte & 0x0F)];
    bytes.iter().flat_map(digits).collect()
}
