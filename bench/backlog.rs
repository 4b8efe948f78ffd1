//! A backlog of small messages: one call for all of them, beside an evaluation of each.

use crate::backlogs::Answers;
use crate::timing::{least, Call};
use crate::workloads::small_messages;
use crate::{library, second, BYTES, ROWS};
use std::hint::black_box;

const MESSAGES: usize = 1_000;

/// Number, place, length and steps.
const ANSWER_WIDTH: usize = 4;
const LENGTH: usize = 2;

/// Streams end to end.
struct Backlog {
    buffer: Vec<u8>,
    ends: Vec<u64>,
}

impl Backlog {
    fn of(streams: &[Vec<u8>]) -> Backlog {
        let ends = streams.iter().scan(0, |end, stream| {
            *end += stream.len() as u64;
            Some(*end)
        });
        Backlog {
            ends: ends.collect(),
            buffer: streams.concat(),
        }
    }

    fn streams(&self) -> impl Iterator<Item = &[u8]> {
        let starts = [0].iter().chain(&self.ends);
        starts
            .zip(&self.ends)
            .map(|(start, end)| &self.buffer[*start as usize..*end as usize])
    }

    fn second(&self, output: usize) -> Answers {
        second::backlog(&self.buffer, &self.ends, output)
    }

    /// The length of all results, where each is accepted.
    fn results_length(&self) -> usize {
        self.second(usize::MAX).results.len()
    }
}

/// What the library is lent.
struct Lent {
    table: Vec<u32>,
    workspace: Vec<u8>,
    output: Vec<u8>,
    answers: Vec<u64>,
}

impl Lent {
    fn new(output: usize) -> Lent {
        Lent {
            table: vec![0; 4 * ROWS],
            workspace: vec![0; BYTES],
            output: vec![0; output],
            answers: vec![0; ANSWER_WIDTH * MESSAGES],
        }
    }

    fn at_once(&mut self, backlog: &Backlog) -> usize {
        library::backlog(
            (&backlog.buffer, &backlog.ends),
            &mut self.table,
            &mut self.workspace,
            &mut self.output,
            u64::MAX,
            &mut self.answers,
        )
    }

    /// Each with the output left by those before. Of an answer only the length is told.
    fn in_turn(&mut self, backlog: &Backlog) -> usize {
        let mut used = 0;
        for (stream, answer) in backlog.streams().zip(self.answers.chunks_mut(ANSWER_WIDTH)) {
            let length = library::evaluate(
                stream,
                &mut self.table,
                &mut self.workspace,
                &mut self.output[used..],
                u64::MAX,
            );
            answer[LENGTH] = length as u64;
            used += length;
        }
        used
    }

    fn lengths(&self) -> impl Iterator<Item = &u64> {
        self.answers.iter().skip(LENGTH).step_by(ANSWER_WIDTH)
    }
}

/// Whether the call answers as an evaluation of each does, and as the second program, with an
/// output for all results and with one for some of them. Tells where it doesn't.
pub fn answers() -> bool {
    let backlog = Backlog::of(&small_messages(MESSAGES));
    let enough = backlog.results_length();
    let differing = [enough, enough / 2]
        .into_iter()
        .filter(|output| !same(&backlog, *output));
    differing
        .inspect(|output| println!("Backlog, {output} bytes of output: differs"))
        .count()
        == 0
}

fn same(backlog: &Backlog, output: usize) -> bool {
    let (mut at_once, mut in_turn) = (Lent::new(output), Lent::new(output));
    let second = backlog.second(output);
    let length = at_once.at_once(backlog);
    let as_evaluated = length == in_turn.in_turn(backlog)
        && at_once.table == in_turn.table
        && at_once.output == in_turn.output
        && at_once.lengths().eq(in_turn.lengths());
    as_evaluated
        && at_once.output[..length] == second.results
        && at_once.answers == second.streams.concat()
}

/// Messages a second.
pub fn time() {
    let backlog = &Backlog::of(&small_messages(MESSAGES));
    let output = backlog.results_length();
    let (mut at_once, mut in_turn) = (Lent::new(output), Lent::new(output));
    let mut calls: [Call; 3] = [
        Box::new(move || {
            black_box(at_once.at_once(black_box(backlog)));
        }),
        Box::new(move || {
            black_box(in_turn.in_turn(black_box(backlog)));
        }),
        Box::new(move || {
            black_box(black_box(backlog).second(output));
        }),
    ];
    let times = least(calls.iter_mut().collect());
    print(backlog.buffer.len(), &times);
}

fn print(bytes: usize, times: &[f64]) {
    let a_second = |time: &f64| format!("{:>18.0}", MESSAGES as f64 * 1.0e9 / time);
    println!(
        "\n{:<38}{:>6} |{:>18}{:>18}{:>18}",
        "messages a second", "bytes", "Backlog", "Evaluate in turn", "second program"
    );
    println!(
        "{:<38}{bytes:>6} |{}",
        format!("{MESSAGES} small messages"),
        times.iter().map(a_second).collect::<String>()
    );
}
