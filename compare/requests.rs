//! Request lines: their spelling, random ones, and malformed ones.

use crate::backlogs;
use crate::bounds::{self, Bounds};
use crate::cuts;
use crate::evaluations::{random_evaluation, with_version};
use crate::random::Random;
use crate::streams::{huge_stream, huge_streams, random_stream, Stream};
use std::borrow::Cow;

pub const LARGE_NUMBERS: [u64; 7] = [
    16_384,
    65_536,
    262_143,
    262_144,
    1_000_000,
    1 << 32,
    u64::MAX,
];
/// Digits of values that count as the largest number, or are written unusually.
const UNUSUAL_NUMBERS: [&str; 6] = [
    "18446744073709551615",
    "18446744073709551616",
    "18446744073709551620",
    "99999999999999999999999999999999999999999",
    "00000000000000000000000000000000000000040",
    "0004",
];
const MALFORMED_WHICH: [&str; 8] = ["2", "00", "01", "10", "+0", "-", "", "a"];
const MALFORMED_WORDS: [&str; 24] = [
    "", "+4", "-4", "-", "--", "4.", "0x4", "4_0", "1e3", "2", "00", "01", "4\t", "\r", "\0",
    "4\r", "A0", "a", "0g", "aA", "٤", "list", "Read", "reads",
];

/// One random draft in so many is a backlog.
const BACKLOG_RATE: usize = 40;
/// And one in so many is a stream that is cut off.
const CUT_RATE: usize = 30;

/// A request line, and with what words its answer must begin, whatever the second program
/// answers.
pub struct Request {
    pub line: Vec<u8>,
    pub expected: Option<Cow<'static, str>>,
    /// Where its streams are cut off, for the tally.
    pub cuts: Vec<&'static str>,
}

impl Request {
    pub fn new(line: Vec<u8>) -> Request {
        Request {
            line,
            expected: None,
            cuts: Vec::new(),
        }
    }

    pub fn expecting(line: Vec<u8>, expected: impl Into<Cow<'static, str>>) -> Request {
        Request {
            expected: Some(expected.into()),
            ..Request::new(line)
        }
    }

    pub fn allows(&self, answer: &[u8]) -> bool {
        let Some(expected) = &self.expected else {
            return true;
        };
        let rest = answer.strip_prefix(expected.as_bytes());
        rest.is_some_and(|rest| matches!(rest, [] | [b' ', ..]))
    }
}

/// A random request; or a stream or several to evaluate, whose bounds wait for what they
/// need; or a stream to cut off, whose parts' answers wait for its rows.
pub enum Draft {
    Request(Request),
    Evaluation(Vec<u8>),
    Backlog(Vec<Vec<u8>>),
    Cut(Vec<u8>),
}

impl Draft {
    /// What the second program is asked for it.
    pub fn asked(&self) -> Vec<Request> {
        let needs = |stream: &Vec<u8>| bounds::needs_request(stream);
        match self {
            Draft::Request(_) => Vec::new(),
            Draft::Evaluation(stream) => vec![needs(stream)],
            Draft::Backlog(streams) => streams.iter().map(needs).collect(),
            Draft::Cut(stream) => vec![cuts::rows_request(stream)],
        }
    }
}

pub fn read_line(stream: &[u8], table: u64) -> Vec<u8> {
    format!("read {} {table}", hex(stream)).into_bytes()
}

pub fn write_line(stream: &[u8], table: u64, output: u64) -> Vec<u8> {
    format!("write {} {table} {output}", hex(stream)).into_bytes()
}

pub fn evaluate_line(stream: &[u8], bounds: Bounds) -> Vec<u8> {
    let Bounds {
        table,
        workspace,
        output,
        steps,
    } = bounds;
    format!(
        "evaluate {} {table} {workspace} {output} {steps}",
        hex(stream)
    )
    .into_bytes()
}

pub fn item_line(stream: &[u8], result: &[u8], of_result: bool, k: u64) -> Vec<u8> {
    let which = u8::from(of_result);
    format!("item {} {} {which} {k}", hex(stream), hex(result)).into_bytes()
}

pub fn hex(bytes: &[u8]) -> String {
    if bytes.is_empty() {
        return "-".to_string();
    }
    let digit = |value: u8| char::from(b"0123456789abcdef"[usize::from(value)]);
    let digits = |byte: &u8| [digit(byte >> 4), digit(byte & 0x0F)];
    bytes.iter().flat_map(digits).collect()
}

/// None if the word is not bytes in hex, nor `-`.
pub fn unhex(word: &[u8]) -> Option<Vec<u8>> {
    if word == b"-" {
        return Some(Vec::new());
    }
    let digit = |byte: u8| char::from(byte).to_digit(16);
    let byte = |pair: &[u8]| match *pair {
        [high, low] => Some((digit(high)? << 4 | digit(low)?) as u8),
        _ => None,
    };
    word.chunks(2).map(byte).collect()
}

/// Requests for every huge stream, with room for 65,536 rows and bytes, and for one less.
pub fn huge_requests() -> Vec<Request> {
    let mut lines = Vec::new();
    for stream in huge_streams() {
        lines.push(read_line(&stream, 262_144));
        lines.push(read_line(&stream, 262_143));
        lines.push(write_line(&stream, 262_144, 65_536));
        lines.push(write_line(&stream, 262_144, 65_535));
        lines.push(item_line(&stream, &[], false, 65_534));
        lines.push(item_line(&[], &stream, true, 65_535));
        lines.push(evaluate_line(&with_version(stream), bounds::LARGE));
    }
    lines.into_iter().map(Request::new).collect()
}

/// So many requests and streams to evaluate, about as many of these as of those, and a few
/// backlogs and streams to cut off; the same ones for the same seed.
pub fn random_drafts(seed: u64, count: usize) -> Vec<Draft> {
    let mut random = Random::new(seed);
    (0..count).map(|_| random_draft(&mut random)).collect()
}

fn random_draft(random: &mut Random) -> Draft {
    if random.one_in(BACKLOG_RATE) {
        return Draft::Backlog(backlogs::random_streams(random));
    }
    if random.one_in(CUT_RATE) {
        return Draft::Cut(cuts::random_whole(random));
    }
    let huge = random.one_in(2_000);
    match random.one_in(2) {
        true if huge => Draft::Evaluation(with_version(huge_stream(random).bytes)),
        true => Draft::Evaluation(random_evaluation(random)),
        false => Draft::Request(Request::new(random_request(random, huge))),
    }
}

fn random_request(random: &mut Random, huge: bool) -> Vec<u8> {
    if huge {
        let stream = huge_stream(random);
        return well_formed(random, stream);
    }
    let stream = random_stream(random);
    let line = well_formed(random, stream);
    spoiled_at_times(random, line)
}

pub fn spoiled_at_times(random: &mut Random, line: Vec<u8>) -> Vec<u8> {
    match random.below(50) {
        0 | 1 => malformed(random, line),
        2 => unusual(random, line),
        _ => line,
    }
}

/// A request for one of the calls but evaluate.
fn well_formed(random: &mut Random, stream: Stream) -> Vec<u8> {
    match random.below(10) {
        0..=3 => random_read(random, &stream),
        4..=7 => random_write(random, &stream),
        _ => random_item(random, stream),
    }
}

fn random_read(random: &mut Random, stream: &Stream) -> Vec<u8> {
    let table = random_size(random, 4 * stream.rows);
    read_line(&stream.bytes, table)
}

fn random_write(random: &mut Random, stream: &Stream) -> Vec<u8> {
    let table = match random.one_in(3) {
        true => random_size(random, 4 * stream.rows),
        false => random.pick(&LARGE_NUMBERS),
    };
    let output = random_size(random, stream.length);
    write_line(&stream.bytes, table, output)
}

/// The buffer asked for is the given stream more often than not.
fn random_item(random: &mut Random, stream: Stream) -> Vec<u8> {
    let other = random_stream(random);
    let of_result = random.one_in(2);
    let (first, second) = match of_result != random.one_in(8) {
        true => (other, stream),
        false => (stream, other),
    };
    let items = if of_result { second.items } else { first.items };
    let k = match random.below(12) {
        0 => random.pick(&LARGE_NUMBERS),
        1 => random.next(),
        2 => items as u64,
        3..=6 => 0,
        _ => random.below(items + 1) as u64,
    };
    item_line(&first.bytes, &second.bytes, of_result, k)
}

/// A length of a table or a buffer, where so much may be needed.
pub fn random_size(random: &mut Random, needed: usize) -> u64 {
    let size = match random.below(12) {
        0 => random.below(9),
        1 | 2 => needed,
        3 => needed.saturating_sub(1),
        4 => needed.saturating_sub(random.below(9)),
        5 => needed + random.below(9),
        6 => random.below(needed + 1),
        _ => return random.pick(&LARGE_NUMBERS),
    };
    size as u64
}

/// A request with a number written in an unusual way.
fn unusual(random: &mut Random, line: Vec<u8>) -> Vec<u8> {
    let mut words = words(&line);
    // All calls have a number last; write has two, evaluate four, and a backlog five, with
    // its ends before them.
    let numbers = match &words[0][..] {
        b"write" => 2,
        b"evaluate" => 4,
        b"backlog" => 6,
        _ => 1,
    };
    let from_end = random.between(1, numbers);
    let at = words.len() - from_end;
    let number = random.pick(&UNUSUAL_NUMBERS).as_bytes();
    words[at] = match from_end {
        6 => unusual_end(random, &words[at], number),
        _ => number.to_vec(),
    };
    words.join(&b' ')
}

/// With such a number for one end, or with zeros before the first.
fn unusual_end(random: &mut Random, ends: &[u8], number: &[u8]) -> Vec<u8> {
    let mut ends: Vec<&[u8]> = ends.split(|byte| *byte == b',').collect();
    let at = random.below(ends.len());
    let zeros = [b"00", ends[0]].concat();
    match random.one_in(2) {
        true => ends[at] = number,
        false => ends[0] = &zeros,
    }
    ends.join(&b',')
}

/// A request with a word or some bytes spoiled. Now and then it is one all the same.
fn malformed(random: &mut Random, line: Vec<u8>) -> Vec<u8> {
    let mut words = words(&line);
    match random.below(10) {
        0..=4 => with_spoiled_word(random, words),
        5 | 6 if words[0] == b"item" => {
            words[3] = random.pick(&MALFORMED_WHICH).as_bytes().to_vec();
            words.join(&b' ')
        }
        5..=7 if words[0] == b"backlog" => {
            spoil_ends(random, &mut words[2]);
            words.join(&b' ')
        }
        _ => with_spoiled_bytes(random, line),
    }
}

/// A comma too many, or what is no digit.
fn spoil_ends(random: &mut Random, ends: &mut Vec<u8>) {
    let at = random.below(ends.len() + 1);
    let comma = ends.iter().position(|byte| *byte == b',');
    match random.below(5) {
        0 => ends.push(b','),
        1 => ends.insert(0, b','),
        2 => ends.insert(comma.unwrap_or(at), b','),
        3 => ends.extend(b",-"),
        _ => ends.insert(at, random.pick(b"-+.;:aAfx")),
    }
}

fn words(line: &[u8]) -> Vec<Vec<u8>> {
    line.split(|byte| *byte == b' ')
        .map(|word| word.to_vec())
        .collect()
}

fn with_spoiled_word(random: &mut Random, mut words: Vec<Vec<u8>>) -> Vec<u8> {
    let at = random.below(words.len());
    let spoiled = random.pick(&MALFORMED_WORDS).as_bytes().to_vec();
    match random.below(8) {
        0 => drop(words.remove(at)),
        1 => words.insert(at, spoiled),
        2 => words.push(spoiled),
        3 => words[at].make_ascii_uppercase(),
        4 => drop(words[at].pop()),
        5 => words.swap(0, at),
        _ => words[at] = spoiled,
    }
    words.join(&b' ')
}

fn with_spoiled_bytes(random: &mut Random, mut line: Vec<u8>) -> Vec<u8> {
    let at = random.below(line.len() + 1);
    match random.below(8) {
        0 => line.clear(),
        1 => line.truncate(at),
        2 => line.push(b'\r'),
        3 => line.push(b' '),
        4 => line.insert(0, b' '),
        5 => line.insert(at, random.pick(b" \t-+,gG\r\0\xFF")),
        6 => line = (0..at).map(|_| random.byte()).collect(),
        _ => double_a_space(random, &mut line),
    }
    // A newline would make two lines of it.
    line.retain(|byte| *byte != b'\n');
    line
}

fn double_a_space(random: &mut Random, line: &mut Vec<u8>) {
    let spaces: Vec<usize> = (0..line.len()).filter(|at| line[*at] == b' ').collect();
    let space = random.pick(&spaces);
    line.insert(space, b' ');
}
