//! Backlogs: streams end to end with a list of their ends, at random.

use crate::bounds::{self, Bounds, Needs};
use crate::evaluations::{random_evaluation, with_version};
use crate::pieces::VERSION;
use crate::random::Random;
use crate::requests::{hex, random_size, spoiled_at_times, Request, LARGE_NUMBERS};
use crate::streams::huge_stream;
use std::fmt::Write;

/// As many bytes, ends and bytes of results as `bulk_calls` keeps.
pub const BUFFER_LIMIT: u64 = 196_608;
pub const ENDS_LIMIT: usize = 2_048;
pub const OUTPUT_LIMIT: u64 = 196_608;

pub const LARGE: Bounds = Bounds {
    output: OUTPUT_LIMIT,
    ..bounds::LARGE
};

const THOUSAND: usize = 1_000;
/// Of one of a thousand, so that all are within the limit.
const SMALL: usize = 190;

pub struct Backlog {
    pub buffer: Vec<u8>,
    pub ends: Vec<u64>,
    pub bounds: Bounds,
    /// How many numbers are lent for them.
    pub answers: u64,
}

impl Backlog {
    /// With the streams' ends, and no more room for answers than they need.
    pub fn new(streams: &[Vec<u8>], bounds: Bounds) -> Backlog {
        let end = |end: &mut u64, stream: &Vec<u8>| {
            *end += stream.len() as u64;
            Some(*end)
        };
        let ends = streams.iter().scan(0, end).collect();
        let buffer = streams.concat();
        Backlog::with_ends(buffer, ends, bounds)
    }

    pub fn with_ends(buffer: Vec<u8>, ends: Vec<u64>, bounds: Bounds) -> Backlog {
        Backlog {
            answers: room_for(ends.len()),
            buffer,
            ends,
            bounds,
        }
    }

    pub fn line(&self) -> Vec<u8> {
        let Bounds {
            table,
            workspace,
            output,
            steps,
        } = self.bounds;
        let numbers: Vec<String> = self.ends.iter().map(u64::to_string).collect();
        let ends = match numbers.is_empty() {
            true => "-".to_string(),
            false => numbers.join(","),
        };
        let (buffer, answers) = (hex(&self.buffer), self.answers);
        let bounds = format!("{table} {workspace} {output} {steps}");
        format!("backlog {buffer} {ends} {bounds} {answers}").into_bytes()
    }

    /// Other ends: most of them are wrong, and some part the buffer otherwise.
    fn move_ends(&mut self, random: &mut Random) {
        let length = self.buffer.len() as u64;
        let any = random.pick(&[0, 1, length, length + 1, length / 2, u64::MAX]);
        if self.ends.is_empty() {
            return self.ends.push(any);
        }
        let at = random.below(self.ends.len());
        match random.below(8) {
            0 => self.ends.clear(),
            1 => drop(self.ends.remove(at)),
            2 => self.ends.insert(at, any),
            3 => self.ends.swap(0, at),
            4 => self.ends[at] += 1,
            5 => self.ends[at] = self.ends[at].saturating_sub(1),
            6 => self.ends[at] = any,
            _ => self.ends.push(any),
        }
    }

    /// So that 23 is given, for one reason or another.
    fn make_wrong(&mut self, random: &mut Random) {
        let length = self.buffer.len() as u64;
        let beyond = random.pick(&[length + 1, u64::MAX]);
        if self.ends.pop().is_none() {
            return self.ends.push(beyond);
        }
        match random.below(5) {
            0 => self.ends.push(beyond),
            1 => self.ends.extend([beyond, length]),
            2 if length > 0 => self.ends.push(length - 1),
            3 if length > 0 => self.ends.clear(),
            _ => {
                self.ends.push(length);
                self.answers = room_for(self.ends.len()) - 1;
                return;
            }
        }
        self.answers = room_for(self.ends.len());
    }
}

/// Four numbers a stream.
fn room_for(ends: usize) -> u64 {
    4 * ends as u64
}

/// A stream, with what its evaluation takes if it can be read.
pub struct Message {
    pub stream: Vec<u8>,
    pub needs: Option<Needs>,
}

impl Message {
    /// The result's length and the steps, if it is accepted.
    fn accepted(&self) -> Option<(u64, u64)> {
        let needs = self.needs.as_ref()?;
        Some((needs.length?, needs.steps))
    }

    fn result_length(&self) -> u64 {
        self.accepted().map_or(0, |(length, _)| length)
    }
}

/// Few, many or huge ones.
pub fn random_streams(random: &mut Random) -> Vec<Vec<u8>> {
    let streams = match random.below(300) {
        0 => thousand(random),
        1..=4 => with_huge(random),
        _ => several(random),
    };
    within(streams, BUFFER_LIMIT, |stream| stream.len() as u64)
}

fn several(random: &mut Random) -> Vec<Vec<u8>> {
    let count = random.pick(&[0, 1, 2, 2, 3, 3, 4, 5, 6, 9]);
    (0..count).map(|_| random_message(random)).collect()
}

fn random_message(random: &mut Random) -> Vec<u8> {
    match random.below(14) {
        0 => Vec::new(),
        1 => VERSION.to_vec(),
        2 | 3 => cut_off(random),
        _ => random_evaluation(random),
    }
}

fn cut_off(random: &mut Random) -> Vec<u8> {
    let mut stream = random_evaluation(random);
    stream.truncate(random.below(stream.len() + 1));
    stream
}

fn with_huge(random: &mut Random) -> Vec<Vec<u8>> {
    let mut streams = several(random);
    for _ in 0..random.between(1, 2) {
        let at = random.below(streams.len() + 1);
        streams.insert(at, with_version(huge_stream(random).bytes));
    }
    streams
}

fn thousand(random: &mut Random) -> Vec<Vec<u8>> {
    let small = |stream: Vec<u8>| match stream.len() {
        0..=SMALL => stream,
        _ => VERSION.to_vec(),
    };
    let message = |_| small(random_message(random));
    (0..THOUSAND).map(message).collect()
}

/// The first that are within a limit together.
fn within<T>(all: Vec<T>, limit: u64, size: fn(&T) -> u64) -> Vec<T> {
    let mut total = 0;
    let fits = |one: &T| {
        total += size(one);
        total <= limit
    };
    all.into_iter().take_while(fits).collect()
}

/// One at random; one with an output that just suffices, or just doesn't; and at times one
/// that is refused.
pub fn requests(random: &mut Random, messages: Vec<Message>) -> Vec<Request> {
    let messages = within(messages, OUTPUT_LIMIT, Message::result_length);
    let streams: Vec<Vec<u8>> = messages.iter().map(|each| each.stream.clone()).collect();
    let mut requests = vec![
        random_request(random, &streams, &messages),
        with_tight_output(random, &streams, &messages),
    ];
    if random.one_in(3) {
        let mut backlog = Backlog::new(&streams, LARGE);
        backlog.make_wrong(random);
        requests.push(Request::expecting(backlog.line(), "refused 23 0"));
    }
    requests
}

fn random_request(random: &mut Random, streams: &[Vec<u8>], messages: &[Message]) -> Request {
    let mut backlog = Backlog::new(streams, random_bounds(random, messages));
    if random.one_in(5) {
        backlog.move_ends(random);
        backlog.bounds.output = backlog.bounds.output.min(OUTPUT_LIMIT);
    }
    backlog.answers = random_answers(random, backlog.ends.len());
    Request::new(spoiled_at_times(random, backlog.line()))
}

/// About what one of the streams needs, and an output for some of them.
fn random_bounds(random: &mut Random, messages: &[Message]) -> Bounds {
    let bounds = match messages.is_empty() {
        true => bounds::random_bounds(random, 0, None),
        false => {
            let one = &messages[random.below(messages.len())];
            bounds::random_bounds(random, one.stream.len(), one.needs.as_ref())
        }
    };
    let output = match random.one_in(3) {
        true => random_size(random, results_length(messages) as usize),
        false => random.pick(&LARGE_NUMBERS),
    };
    Bounds { output, ..bounds }
}

fn random_answers(random: &mut Random, ends: usize) -> u64 {
    let exact = room_for(ends);
    match random.below(16) {
        0 => 0,
        1 => exact.saturating_sub(1),
        2 => random.below(exact as usize + 1) as u64,
        3 => exact + random.between(1, 5) as u64,
        4 => random.pick(&LARGE_NUMBERS),
        _ => exact,
    }
}

fn results_length(messages: &[Message]) -> u64 {
    messages.iter().map(Message::result_length).sum()
}

/// What all results need, or the first so many, or one byte less.
fn with_tight_output(random: &mut Random, streams: &[Vec<u8>], messages: &[Message]) -> Request {
    let count = match random.one_in(2) {
        true => messages.len(),
        false => random.below(messages.len() + 1),
    };
    let needed = results_length(&messages[..count]);
    let bounds = Bounds {
        output: needed.saturating_sub(random.below(2) as u64),
        ..LARGE
    };
    let line = Backlog::new(streams, bounds).line();
    Request::expecting(line, expected_beginning(messages, bounds.output))
}

/// Of the answer, where only the output is scarce: up to the first stream that is refused
/// for another reason.
fn expected_beginning(messages: &[Message], output: u64) -> String {
    let mut left = output;
    let mut line = "ok".to_string();
    for (length, steps) in messages.iter().map_while(Message::accepted) {
        // Writing to a String cannot fail.
        let _ = match length <= left {
            true => write!(line, " 0 0 {length} {steps}"),
            false => write!(line, " 18 0 0 0"),
        };
        left = left.checked_sub(length).unwrap_or(left);
    }
    line
}
