//! How often each answer came and where streams were cut off, and whether every answer that
//! can arise did, and every kind of place.

use crate::cuts;
use crate::requests::Request;
use crate::single::{EVAL, LIST, WRITE};
use std::collections::{BTreeMap, BTreeSet};

/// A line that is no request, whatever it begins with.
const NO_REQUEST: &str = "no request";
/// One of the streams of a backlog that is accepted.
const IN_BACKLOG: &str = "in backlog";

/// The calls and programs, and the numbers that can arise for each; 0 is acceptance.
const NUMBERS: &[(&str, &[u8])] = &[
    ("read", &[0, 1, 2, 3, 4, 5, 6, 7, 8]),
    ("write", &[0, 1, 2, 3, 4, 5, 6, 7, 8, 18]),
    (
        "evaluate",
        &[
            0, 1, 2, 3, 4, 5, 6, 7, 8, 9, 10, 11, 12, 13, 14, 15, 16, 17, 18, 19, 22,
        ],
    ),
    ("backlog", &[0, 23]),
    (
        IN_BACKLOG,
        &[
            0, 1, 2, 3, 4, 5, 6, 7, 8, 9, 10, 11, 12, 13, 14, 15, 16, 17, 18, 19, 22,
        ],
    ),
    (LIST, &[0, 1, 2, 3, 4, 5, 6, 7, 8]),
    // It has a row and a byte of output for every byte of a stream.
    (WRITE, &[0, 1, 2, 3, 4, 5, 6, 7]),
    // And as much of each for every result.
    (
        EVAL,
        &[
            0, 1, 2, 3, 4, 5, 6, 7, 9, 10, 11, 12, 13, 14, 15, 16, 17, 19, 22,
        ],
    ),
];

/// The other answers that can arise. Item is counted by the buffer asked for.
const OTHER_ANSWERS: &[(&str, &[&str])] = &[
    ("item 0", &["part", "part empty"]),
    ("item 1", &["part", "part empty"]),
    (NO_REQUEST, &["bad request"]),
];

fn number_answer(number: u8) -> String {
    match number {
        0 => "ok".to_string(),
        _ => format!("refused {number}"),
    }
}

/// Every call with every answer that can arise for it; the programs that take one
/// stream only if they are compared.
fn expected(single: bool) -> Vec<(String, String)> {
    let numbers = NUMBERS.iter().flat_map(|(call, numbers)| {
        let pair = |number: &u8| (call.to_string(), number_answer(*number));
        numbers.iter().map(pair).collect::<Vec<_>>()
    });
    let others = OTHER_ANSWERS.iter().flat_map(|(call, answers)| {
        let pair = |answer: &&str| (call.to_string(), answer.to_string());
        answers.iter().map(pair).collect::<Vec<_>>()
    });
    let compared = |call: &str| single || ![LIST, WRITE, EVAL].contains(&call);
    let all = numbers.chain(others);
    all.filter(|(call, _)| compared(call)).collect()
}

/// Counts by call and by what came of it.
#[derive(Default)]
struct Counts(BTreeMap<(String, String), usize>);

impl Counts {
    fn add(&mut self, call: String, what: String) {
        *self.0.entry((call, what)).or_insert(0) += 1;
    }

    fn times(&self, call: &str, what: &str) -> usize {
        let key = (call.to_string(), what.to_string());
        self.0.get(&key).copied().unwrap_or(0)
    }

    /// A table, if there is any: a line for each that came, and a column for each call.
    fn print(&self, title: &str, order: fn(&str) -> usize) {
        let mut calls: Vec<&str> = self.0.keys().map(|key| key.0.as_str()).collect();
        calls.dedup();
        let lines: BTreeSet<&str> = self.0.keys().map(|key| key.1.as_str()).collect();
        let mut lines: Vec<&str> = lines.into_iter().collect();
        lines.sort_by_key(|line| order(line));
        let Some(longest) = lines.iter().map(|line| line.len()).max() else {
            return;
        };
        let width = longest + 2;
        print!("{title:<width$}");
        calls.iter().for_each(|call| print!("{call:>12}"));
        println!();
        for line in lines {
            print!("{line:<width$}");
            for call in &calls {
                print!("{:>12}", self.times(call, line));
            }
            println!();
        }
    }
}

#[derive(Default)]
pub struct Tally {
    answers: Counts,
    cuts: Counts,
}

impl Tally {
    pub fn count_cuts(&mut self, request: &Request) {
        for cut in &request.cuts {
            self.cuts.add(call(&request.line), cut.to_string());
        }
    }

    pub fn count(&mut self, request: &[u8], answer: &[u8]) {
        let class = answer_class(answer);
        let call = match class.as_str() {
            "bad request" => NO_REQUEST.to_string(),
            _ => call_class(request),
        };
        if call == "backlog" && class == "ok" {
            self.count_streams(answer);
        }
        self.answers.add(call, class);
    }

    /// By the first of each stream's four numbers.
    fn count_streams(&mut self, answer: &[u8]) {
        let words: Vec<&[u8]> = answer.split(|byte| *byte == b' ').collect();
        let [_, numbers @ .., _] = &words[..] else {
            return;
        };
        for number in numbers.iter().step_by(4) {
            let class = match *number {
                b"0" => "ok".to_string(),
                _ => format!("refused {}", String::from_utf8_lossy(number)),
            };
            self.answers.add(IN_BACKLOG.to_string(), class);
        }
    }

    /// One check for each call and answer that can arise, and for each and kind of place;
    /// tells those that never did, and how many did.
    pub fn missing(&self, single: bool) -> (Vec<String>, usize) {
        let answer = |(call, answer): (String, String)| {
            let text = format!("{call}: no answer was `{answer}`");
            (self.answers.times(&call, &answer), text)
        };
        let cut = |(call, cut): (&str, &str)| {
            let text = format!("{call}: no stream cut off was `{cut}`");
            (self.cuts.times(call, cut), text)
        };
        let answers = expected(single).into_iter().map(answer);
        let all: Vec<(usize, String)> = answers
            .chain(cuts::expected().into_iter().map(cut))
            .collect();
        let count = all.len();
        let never = all.into_iter().filter(|(times, _)| *times == 0);
        let missing: Vec<String> = never.map(|(_, text)| text).collect();
        let arisen = count - missing.len();
        (missing, arisen)
    }

    pub fn print(&self) {
        self.answers.print("answer", answer_order);
        self.cuts.print("cut off", cuts::order);
    }
}

/// Refusals in the order of their numbers.
fn answer_order(answer: &str) -> usize {
    match answer.strip_prefix("refused ") {
        Some(number) => number.parse().unwrap_or(usize::MAX),
        None if answer == "ok" => 0,
        None => usize::MAX,
    }
}

/// `ok`, `refused` with its number, `part`, `part empty`, `bad request`, or `other`.
fn answer_class(answer: &[u8]) -> String {
    let mut words = answer.split(|byte| *byte == b' ');
    match (words.next().unwrap_or(b""), words.next(), words.next()) {
        (b"ok", Some(_), _) => "ok".to_string(),
        (b"refused", Some(number), Some(_)) => {
            format!("refused {}", String::from_utf8_lossy(number))
        }
        (b"part", Some(b"empty"), None) => "part empty".to_string(),
        (b"part", Some(_), Some(_)) => "part".to_string(),
        (b"bad", Some(b"request"), None) => "bad request".to_string(),
        _ => "other".to_string(),
    }
}

/// The call; for an item, with the buffer asked for.
fn call_class(request: &[u8]) -> String {
    let words: Vec<&[u8]> = request.split(|byte| *byte == b' ').collect();
    match words[..] {
        [b"item", _, _, which, ..] => format!("item {}", String::from_utf8_lossy(which)),
        _ => call(request),
    }
}

/// The first word of a request.
fn call(request: &[u8]) -> String {
    let word = request.split(|byte| *byte == b' ').next();
    String::from_utf8_lossy(word.unwrap_or_default()).into_owned()
}
