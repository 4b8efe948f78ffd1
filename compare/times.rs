//! Whether time is linear in a stream's bytes, the steps taken and the bytes charged, and in
//! those of all streams of a backlog: as much work in three sizes takes as much time.

use crate::backlogs::{self, Backlog};
use crate::bounds::{self, Needs};
use crate::bytecode_times;
use crate::pieces::{
    arg, array, beginning, call, define, form, function, long_length, name, nested, ns, rest, subst,
};
use crate::programs::start;
use crate::report::Report;
use crate::requests::{evaluate_line, Request};
use std::io;
use std::sync::Arc;
use std::time::{Duration, Instant};

/// The sizes of a kind are its smallest and these multiples of it.
const MULTIPLES: [usize; 3] = [1, 4, 16];
/// Of bytes, steps and charges, in one run.
const WORK: u64 = 3_000_000;
/// Were a kind quadratic, the largest would take 16 times as long as the smallest.
const MOST: u32 = 3;
/// The least time of so many rounds counts.
const ROUNDS: usize = 3;
const MOST_ROUNDS: usize = 12;

/// Of a backlog of the smallest size; of the largest, `bulk_calls` keeps all ends and bytes.
const MESSAGES: usize = 64;

/// Of each stream with as many arity lists around as there can be.
const DEEPEST_RUNS: u32 = 5;
const DEEPEST_MOST: Duration = Duration::from_millis(100);

pub struct Kind {
    pub name: &'static str,
    pub stream: fn(usize) -> Vec<u8>,
}

/// The worst stream of each kind that was thought of, for a multiple of its smallest size.
const KINDS: [Kind; 12] = [
    Kind {
        name: "a long list",
        stream: |size| after_beginning(&vec![0x00; 3_000 * size]),
    },
    Kind {
        name: "a long form",
        stream: |size| after_beginning(&nested(1, &vec![0x00; 1_500 * size])),
    },
    Kind {
        name: "deep forms",
        stream: |size| after_beginning(&nested(60, &vec![0x00; 60 * size])),
    },
    Kind {
        name: "references past 256 definitions",
        stream: |size| {
            let definitions = (0..=255).flat_map(|k| define(k, &[0x80]));
            let references = [0x29, 0x00].repeat(1_000 * size);
            after_beginning(&[definitions.collect(), references].concat())
        },
    },
    Kind {
        name: "definitions in many forms",
        stream: |size| after_beginning(&form(&[&define(0, &[0x80])]).repeat(400 * size)),
    },
    Kind {
        name: "many arguments",
        stream: |size| {
            let arguments = vec![0x00; 1_300 * size];
            after_beginning(&form(&[&subst(&rest(0)), &arguments]))
        },
    },
    Kind {
        name: "arguments handed on by 32 codes",
        stream: |size| {
            let chain = (1..32).flat_map(|k| function(k, &call(k - 1, &rest(0))));
            let functions = [function(0, &[0x00]), chain.collect()].concat();
            after_beginning(&[functions, call(31, &vec![0x00; 120 * size])].concat())
        },
    },
    Kind {
        name: "`arg` behind a large argument",
        stream: |size| {
            let large = nested(1, &vec![0x00; 500 * size]);
            let code = arg(1).repeat(500 * size);
            after_beginning(&form(&[&subst(&code), &large, &[0x00]]))
        },
    },
    Kind {
        name: "`arg` of a large argument",
        stream: |size| {
            let large = array(&vec![0xAA; 60 * size]);
            after_beginning(&form(&[&subst(&arg(0).repeat(30)), &large]))
        },
    },
    Kind {
        name: "empty `rest`s",
        stream: |size| after_beginning(&form(&[&subst(&rest(0).repeat(800 * size))])),
    },
    Kind {
        name: "64 namespaces behind many references",
        stream: |size| {
            let references = [0x21, 0x00].repeat(1_700 * size);
            let id = |k: u8| [&vec![0xAA; 63][..], &[k]].concat();
            let namespaces = (0..63).flat_map(|k| ns(0x30 + k, &id(k)));
            after_beginning(&[references, namespaces.collect()].concat())
        },
    },
    Kind {
        name: "a long length in code called often",
        stream: |size| {
            let code = function(0, &long_length(1_000 * size));
            after_beginning(&[code, call(0, &[]).repeat(500 * size)].concat())
        },
    },
];

pub fn after_beginning(rest: &[u8]) -> Vec<u8> {
    [&beginning()[..], rest].concat()
}

/// For each size the requests that are so much work.
type Sizes = Vec<Arc<Vec<Request>>>;

/// Measures every kind with the first program; the second tells how much work a stream is.
pub fn measure(first: &str, second: &str, report: &mut Report) -> io::Result<()> {
    for kind in KINDS.iter().chain(&bytecode_times::KINDS) {
        measure_sizes(kind.name, sizes(kind, second)?, first, report)?;
    }
    let backlogs = backlog_sizes(second)?;
    measure_sizes("a backlog of many messages", backlogs, first, report)?;
    measure_deepest(first, report)
}

fn measure_sizes(
    name: &str,
    sizes: Option<Sizes>,
    path: &str,
    report: &mut Report,
) -> io::Result<()> {
    let Some(sizes) = sizes else {
        report.fail(&format!("{name}: not accepted"));
        return Ok(());
    };
    let times = least_times(path, &sizes, is_linear, report)?;
    println!("{name:<40}{times:>12.1?}");
    match is_linear(&times) {
        true => report.pass(),
        false => report.fail(&format!("{name}: not linear")),
    }
    Ok(())
}

/// As many arity lists around as there can be: no three sizes, but a bound of their own.
fn measure_deepest(path: &str, report: &mut Report) -> io::Result<()> {
    for (name, stream) in bytecode_times::deepest() {
        let request = || Request::expecting(evaluate_line(&stream, bounds::LARGE), "refused 17");
        let requests = Arc::new((0..DEEPEST_RUNS).map(|_| request()).collect());
        let times = least_times(path, &[requests], is_short, report)?;
        println!("{name:<40}{:>12.1?}", times[0] / DEEPEST_RUNS);
        match is_short(&times) {
            true => report.pass(),
            false => report.fail(&format!("{name}: above {DEEPEST_MOST:?}")),
        }
    }
    Ok(())
}

/// None if a stream isn't accepted.
fn sizes(kind: &Kind, second: &str) -> io::Result<Option<Sizes>> {
    let streams = MULTIPLES.map(kind.stream);
    let asked = streams.iter().map(|stream| bounds::needs_request(stream));
    let mut told = start(second, &Arc::new(asked.collect()))?;
    let requests = streams.iter().map(|stream| {
        let needs = bounds::needs(&told.next_answer().unwrap_or_default())?;
        let line = evaluate_line(stream, bounds::LARGE);
        Some(repeated(&line, "ok", work(stream, &needs)?))
    });
    Ok(requests.collect())
}

/// The same message, more and more often.
fn backlog_sizes(second: &str) -> io::Result<Option<Sizes>> {
    let message = after_beginning(&[define(0, &[0x85]), name(0).repeat(50)].concat());
    let mut told = start(second, &Arc::new(vec![bounds::needs_request(&message)]))?;
    let needs = bounds::needs(&told.next_answer().unwrap_or_default());
    let requests = MULTIPLES.map(|size| {
        let needs = needs.as_ref()?;
        let count = MESSAGES * size;
        let backlog = Backlog::new(&vec![message.clone(); count], backlogs::LARGE);
        let answer = format!(" 0 0 {} {}", needs.length?, needs.steps);
        let expected = format!("ok{}", answer.repeat(count));
        let work = work(&message, needs)? * count as u64;
        Some(repeated(&backlog.line(), &expected, work))
    });
    Ok(requests.into_iter().collect())
}

/// Bytes, steps and charges, if it is accepted.
fn work(stream: &[u8], needs: &Needs) -> Option<u64> {
    Some(stream.len() as u64 + needs.steps_and_charges()?)
}

/// A request as often as makes so much work in all.
fn repeated(line: &[u8], expected: &str, work: u64) -> Arc<Vec<Request>> {
    let request = |_| Request::expecting(line.to_vec(), expected.to_string());
    Arc::new((0..WORK.div_ceil(work)).map(request).collect())
}

/// Some rounds, and more as long as noise may be what makes them bad.
fn least_times(
    path: &str,
    sizes: &[Arc<Vec<Request>>],
    good: fn(&[Duration]) -> bool,
    report: &mut Report,
) -> io::Result<Vec<Duration>> {
    let mut times = vec![Duration::MAX; sizes.len()];
    for round in 1..=MOST_ROUNDS {
        for (time, requests) in times.iter_mut().zip(sizes) {
            *time = run(path, requests, report)?.min(*time);
        }
        if round >= ROUNDS && good(&times) {
            break;
        }
    }
    Ok(times)
}

fn run(path: &str, requests: &Arc<Vec<Request>>, report: &mut Report) -> io::Result<Duration> {
    let began = Instant::now();
    let mut program = start(path, requests)?;
    for request in requests.iter() {
        let answer = program.next_answer().unwrap_or_default();
        if !request.allows(&answer) {
            report.fail("a stream to measure was refused");
        }
    }
    let time = began.elapsed();
    report.check_end(path, program, requests.len());
    Ok(time)
}

/// Larger streams took no longer than the smallest, but for noise.
fn is_linear(times: &[Duration]) -> bool {
    times.iter().all(|time| *time <= MOST * times[0])
}

/// Of all runs of one of the deepest.
fn is_short(times: &[Duration]) -> bool {
    times.iter().all(|time| *time < DEEPEST_MOST * DEEPEST_RUNS)
}
