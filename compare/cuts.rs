//! Streams that are cut off, and what a queue does with them: the bytes from the unfinished
//! expression on are held back and joined with those that follow. The rows of the whole
//! stream tell what must be answered for a part of it.

mod parts;

use crate::backlogs::{self, Backlog};
use crate::bounds::{self, Bounds};
use crate::evaluations::random_evaluation;
use crate::pieces::VERSION;
use crate::random::Random;
use crate::requests::{
    evaluate_line, item_line, random_size, read_line, write_line, Request, LARGE_NUMBERS,
};
use crate::streams;
use parts::{Cut, Part, Whole};
use std::collections::BTreeMap;
use std::fmt::Write;

/// So that 8 comes where 2 would have been next.
const A_ROW_SHORT: &str = "a row short";
const JOINED: &str = "joined with what was held back";
const HELD_BACK_AGAIN: &str = "held back again";

/// The answer to a read request, as document 01 lists the rows.
const VERSION_ROWS: &[u8] = b"ok 4 1 0 6 4 4 1 3 2 3 3 4 3 3 4 5 4";
/// In a backlog.
const VERSION_ANSWER: &str = "0 0 6 4";

/// Every call with what must be seen of it. No table is lent for an item.
pub fn expected() -> Vec<(&'static str, &'static str)> {
    let calls = ["read", "write", "evaluate", "backlog", "item"];
    let places = calls.map(|call| parts::LABELS.map(|label| (call, label)));
    let short = ["read", "write", "evaluate", "backlog"].map(|call| (call, A_ROW_SHORT));
    let queue = [JOINED, HELD_BACK_AGAIN].map(|label| ("read", label));
    [&places.concat()[..], &short, &queue].concat()
}

/// In which order the tally has them.
pub fn order(label: &str) -> usize {
    let all = expected();
    let position = all.iter().position(|(_, each)| *each == label);
    position.unwrap_or(all.len())
}

/// Most can be read.
pub fn random_whole(random: &mut Random) -> Vec<u8> {
    match random.below(10) {
        0..=2 => random_evaluation(random),
        3..=5 => streams::valid(random).bytes,
        6 => [&VERSION[..], &streams::valid(random).bytes].concat(),
        7 | 8 => streams::at_a_limit(random).bytes,
        _ => streams::random_stream(random).bytes,
    }
}

/// What asks the second program for the rows.
pub fn rows_request(stream: &[u8]) -> Request {
    Request::new(read_line(stream, bounds::LARGE.table))
}

/// With the answer to that.
pub fn requests(random: &mut Random, stream: &[u8], answer: &[u8]) -> Vec<Request> {
    let Some(whole) = Whole::new(stream, answer) else {
        return of_unreadable(random, stream);
    };
    let cuts = Cuts::new(whole.cuts());
    let mut requests = calls(random, &whole, &cuts);
    requests.push(item(random, &whole, &cuts));
    requests.push(backlog(random, &whole, &cuts));
    requests.extend(queue(random, &whole, &cuts));
    requests
}

/// Another refusal comes before 2, or is cut off.
fn of_unreadable(random: &mut Random, stream: &[u8]) -> Vec<Request> {
    let part = &stream[..random.below(stream.len() + 1)];
    let table = random_size(random, 4 * part.len());
    let lines = lines(part, table, random_bounds(random));
    lines.map(Request::new).into()
}

/// Read, write and evaluate requests.
fn lines(part: &[u8], table: u64, bounds: Bounds) -> [Vec<u8>; 3] {
    [
        read_line(part, table),
        write_line(part, table, bounds.output),
        evaluate_line(part, Bounds { table, ..bounds }),
    ]
}

/// None is too small for 2, which is given in reading.
fn random_bounds(random: &mut Random) -> Bounds {
    let mut size = || match random.one_in(3) {
        true => random.below(9) as u64,
        false => random.pick(&LARGE_NUMBERS),
    };
    Bounds {
        table: size(),
        workspace: size(),
        output: size(),
        steps: size(),
    }
}

/// The cuts of a stream, in order and by kinds of places.
struct Cuts {
    all: Vec<Cut>,
    by_place: BTreeMap<&'static str, Vec<usize>>,
}

impl Cuts {
    fn new(all: Vec<Cut>) -> Cuts {
        let mut by_place: BTreeMap<_, Vec<usize>> = BTreeMap::new();
        for cut in &all {
            by_place.entry(cut.place).or_default().push(cut.at);
        }
        Cuts { all, by_place }
    }

    /// Each kind of place is as likely as any other.
    fn pick(&self, random: &mut Random) -> &Cut {
        let kinds: Vec<&Vec<usize>> = self.by_place.values().collect();
        let places = kinds[random.below(kinds.len())];
        &self.all[random.pick(places)]
    }

    fn several(&self, random: &mut Random, most: usize) -> Vec<&Cut> {
        let count = random.between(1, most);
        (0..count).map(|_| self.pick(random)).collect()
    }
}

/// With as many rows as reading takes up to the cut, and with one less.
fn calls(random: &mut Random, whole: &Whole, cuts: &Cuts) -> Vec<Request> {
    let cut = cuts.pick(random);
    let part = whole.part(0, cut);
    let enough = part.rows();
    let mut requests = Vec::new();
    for rows in enough.saturating_sub(1)..=enough {
        let refusal = part.refusal(rows).map(refused);
        let read = read_answer(&part, rows);
        // Where it can be read, the other bounds decide what comes.
        let expected = [Some(read), refusal.clone(), refusal];
        let table = (4 * rows + random.below(4)) as u64;
        let lines = lines(part.bytes, table, random_bounds(random));
        let request = |(line, expected): (_, Option<String>)| Request {
            line,
            expected: expected.map(Into::into),
            cuts: labels(&part, rows, cut),
        };
        requests.extend(lines.into_iter().zip(expected).map(request));
    }
    requests
}

fn read_answer(part: &Part, rows: usize) -> String {
    match part.refusal(rows) {
        Some(refusal) => refused(refusal),
        None => part.listing(),
    }
}

fn refused((number, place): (u8, usize)) -> String {
    format!("refused {number} {place}")
}

/// What is seen of a part up to the cut, with so many rows.
fn labels(part: &Part, rows: usize, cut: &Cut) -> Vec<&'static str> {
    match part.refusal(rows) {
        Some((8, _)) if part.is_unfinished() && rows + 1 == part.rows() => vec![A_ROW_SHORT],
        Some((8, _)) => Vec::new(),
        _ => cut.labels().to_vec(),
    }
}

fn item(random: &mut Random, whole: &Whole, cuts: &Cuts) -> Request {
    let cut = cuts.pick(random);
    let part = whole.part(0, cut);
    let k = random.below(cut.finished + 2);
    let line = match random.one_in(2) {
        true => item_line(part.bytes, &[], false, k as u64),
        false => item_line(&[], part.bytes, true, k as u64),
    };
    Request {
        line,
        expected: Some(part.item(k).into()),
        cuts: cut.labels().to_vec(),
    }
}

/// Parts that are cut off, and at times a message of which it is known what it gives.
fn backlog(random: &mut Random, whole: &Whole, cuts: &Cuts) -> Request {
    let cuts = cuts.several(random, 4);
    let mut parts: Vec<Part> = cuts.iter().map(|cut| whole.part(0, cut)).collect();
    let rows = match random.below(3) {
        0 => parts[0].rows(),
        1 => parts[0].rows().saturating_sub(1),
        _ => backlogs::LARGE.table as usize / 4,
    };
    let seen = parts.iter().zip(&cuts);
    let labels = seen
        .flat_map(|(part, cut)| labels(part, rows, cut))
        .collect();
    if random.one_in(2) {
        parts.insert(random.below(parts.len() + 1), version());
    }
    let bounds = Bounds {
        table: (4 * rows + random.below(4)) as u64,
        ..backlogs::LARGE
    };
    let streams: Vec<Vec<u8>> = parts.iter().map(|part| part.bytes.to_vec()).collect();
    Request {
        line: Backlog::new(&streams, bounds).line(),
        expected: Some(backlog_answer(&parts, rows).into()),
        cuts: labels,
    }
}

fn version() -> Part<'static> {
    let whole = Whole::new(&VERSION, VERSION_ROWS).expect("the rows of an answer");
    whole.part(0, &whole.cuts()[VERSION.len()])
}

/// Up to the first part that can be read and is no such message.
fn backlog_answer(parts: &[Part], rows: usize) -> String {
    let mut line = "ok".to_string();
    for part in parts {
        // Writing to a String cannot fail.
        let _ = match part.refusal(rows) {
            Some((number, place)) => write!(line, " {number} {place} 0 0"),
            None if part.bytes == VERSION => write!(line, " {VERSION_ANSWER}"),
            None => break,
        };
    }
    line
}

/// A stream that comes in pieces. What is whole of each is read, and what is not is held back
/// and read again with the next; the rows are those of the whole stream.
fn queue(random: &mut Random, whole: &Whole, cuts: &Cuts) -> Vec<Request> {
    let mut ends = cuts.several(random, 3);
    ends.sort_by_key(|cut| cut.at);
    ends.dedup_by_key(|cut| cut.at);
    ends.extend(cuts.all.last());
    let mut requests = Vec::new();
    let (mut read, mut came) = (0, 0);
    for end in ends {
        let label = match read < came {
            true if end.top_level == read && end.at > read => Some(HELD_BACK_AGAIN),
            true => Some(JOINED),
            false => None,
        };
        requests.push(read_request(random, &whole.part(read, end), label));
        if end.top_level < end.at {
            let finished = whole.part(read, &cuts.all[end.top_level]);
            requests.push(read_request(random, &finished, None));
        }
        (read, came) = (end.top_level, end.at);
    }
    requests
}

/// With enough rows.
fn read_request(random: &mut Random, part: &Part, label: Option<&'static str>) -> Request {
    let more = random.pick(&[0, 1, 3, 4, bounds::LARGE.table]);
    Request {
        line: read_line(part.bytes, 4 * part.rows() as u64 + more),
        expected: Some(read_answer(part, part.rows()).into()),
        cuts: label.into_iter().collect(),
    }
}
