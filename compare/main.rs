//! The comparison program: feeds the same requests to two programs and compares their
//! answers line by line; and runs further programs, each on one stream at a time, and
//! holds what they print against answers of the second. It knows how to make requests and
//! how an answer is printed, but no expected answer: except those at the limits, which bound
//! stops an evaluation that is given less than it needs, and what a part of a stream gets
//! whose rows are known.

mod arguments;
mod backlogs;
mod bounds;
mod bytecode_times;
mod cuts;
mod evaluations;
mod known;
mod limits;
mod notation;
mod options;
mod pieces;
mod programs;
mod random;
mod report;
mod requests;
mod single;
mod streams;
mod tally;
mod times;
mod unchanged;

use backlogs::{Backlog, Message};
use options::{Mode, Options, USAGE};
use programs::{named, start};
use random::Random;
use report::Report;
use requests::{evaluate_line, hex, Draft, Request};
use std::io::{self, Write};
use std::path::{Path, PathBuf};
use std::process::ExitCode;
use std::sync::Arc;
use std::{env, fs};

/// Fed last, since an empty line without its newline would be no line.
const LAST_REQUEST: &[u8] = b"read 00 4";

fn main() -> ExitCode {
    let Some(options) = options::options(env::args().skip(1)) else {
        eprintln!("{USAGE}");
        return ExitCode::from(2);
    };
    let mut report = Report::default();
    let done = match options.mode {
        Mode::Print => return print_requests(&options),
        Mode::Times => times::measure(&options.paths[0], &options.paths[1], &mut report),
        Mode::Unchanged => compare_unchanged(&options, &mut report),
        Mode::Compare => compare(&options, &mut report),
    };
    if let Err(error) = done {
        report.fail(&error.to_string());
    }
    report.end()
}

fn print_requests(options: &Options) -> ExitCode {
    let mut requests = Vec::new();
    if options.print_known {
        requests.extend(known::requests());
        requests.extend(limits::requests());
    }
    if options.print_random {
        let drafts = requests::random_drafts(options.seed, options.count);
        requests.extend(drafts.into_iter().map(whole));
    }
    let lines: Vec<&[u8]> = requests.iter().map(|request| &request.line[..]).collect();
    let mut text = lines.join(&b'\n');
    text.push(b'\n');
    match io::stdout().write_all(&text) {
        Ok(()) => ExitCode::SUCCESS,
        Err(_) => ExitCode::FAILURE,
    }
}

/// With no second program at hand, streams are evaluated with large bounds, and none is cut.
fn whole(draft: Draft) -> Request {
    match draft {
        Draft::Request(request) => request,
        Draft::Evaluation(stream) => Request::new(evaluate_line(&stream, bounds::LARGE)),
        Draft::Backlog(streams) => Request::new(Backlog::new(&streams, backlogs::LARGE).line()),
        Draft::Cut(stream) => cuts::rows_request(&stream),
    }
}

fn compare(options: &Options, report: &mut Report) -> io::Result<()> {
    compare_requests(options, report)?;
    if let Some(paths) = &options.single {
        compare_single(paths, options, report)?;
        check_arguments(&paths[2], report)?;
        check_too_long(&options.paths[0], report)?;
    }
    report.tally.print();
    report.check_all_arisen(options.single.is_some());
    Ok(())
}

fn compare_requests(options: &Options, report: &mut Report) -> io::Result<()> {
    let requests = Arc::new(all_requests(options)?);
    compare_answers(options, [&requests, &requests], report)
}

/// Only streams with a form headed by prefix* are evaluated otherwise than by document 01.
fn compare_unchanged(options: &Options, report: &mut Report) -> io::Result<()> {
    let drafts = unchanged::drafts(options.seed, options.count);
    let requests = Arc::new(with_bounds(drafts, options)?);
    let for_base = Arc::new(unchanged::for_base(&requests));
    compare_answers(options, [&requests, &for_base], report)?;
    report.tally.print();
    Ok(())
}

/// What the two programs answer, each to its own requests.
fn compare_answers(
    options: &Options,
    [first_requests, second_requests]: [&Arc<Vec<Request>>; 2],
    report: &mut Report,
) -> io::Result<()> {
    let (first_path, second_path) = (&options.paths[0], &options.paths[1]);
    let mut first = start(first_path, first_requests)?;
    let mut second = start(second_path, second_requests)?;
    let mut asked = first_requests.iter();
    loop {
        match (first.next_answer(), second.next_answer()) {
            (None, None) => break,
            (Some(first), Some(second)) => {
                if let Some(request) = asked.next() {
                    report.compare_answers(request, &first, &second);
                }
            }
            // Shown by the number of answers.
            _ => {}
        }
    }
    println!("{} requests", first_requests.len());
    report.check_end(first_path, first, first_requests.len());
    report.check_end(second_path, second, second_requests.len());
    Ok(())
}

fn compare_single(paths: &[String; 3], options: &Options, report: &mut Report) -> io::Result<()> {
    let streams = single::streams(options.seed);
    let requests =
        |stream: &Vec<u8>| single::PROGRAMS.map(|program| Request::new((program.request)(stream)));
    let requests = Arc::new(streams.iter().flat_map(requests).collect());
    let second_path = &options.paths[1];
    let mut second = start(second_path, &requests)?;
    for stream in &streams {
        for (program, path) in single::PROGRAMS.iter().zip(paths) {
            let output = programs::run(path, &[], stream)?;
            // A missing answer differs from any output.
            let answer = second.next_answer().unwrap_or_default();
            let expected = (program.printed)(&answer);
            let asked = format!("{} {}", program.name, hex(stream)).into_bytes();
            report.compare_output(&asked, &output, &expected, &answer);
        }
    }
    println!("{} streams", streams.len());
    report.check_end(second_path, second, requests.len());
    Ok(())
}

fn check_arguments(path: &str, report: &mut Report) -> io::Result<()> {
    for (arguments, expected) in arguments::RUNS {
        let output = programs::run(path, arguments, &known::stream_i())?;
        let asked = format!("bulk_eval {}", arguments.join(" "));
        report.check_output(asked.as_bytes(), &output, expected);
    }
    Ok(())
}

/// `bulk_calls` says so of what it cannot keep, and goes on. The second program keeps all.
fn check_too_long(path: &str, report: &mut Report) -> io::Result<()> {
    for line in limits::backlog::too_long() {
        let input = [&line[..], b"\n", LAST_REQUEST].concat();
        let output = programs::run(path, &[], &input)?;
        report.check_output(&line, &output, b"too long\nok 1 0 0 1 1\n");
    }
    Ok(())
}

/// Requests for document 01's streams, those at the limits, the files' requests, those for
/// huge streams, random ones, and the last.
fn all_requests(options: &Options) -> io::Result<Vec<Request>> {
    let mut all = known::requests();
    all.extend(limits::requests());
    for path in &options.paths[2..] {
        let path = Path::new(path);
        add_file(path, &mut all).map_err(|error| named(path, error))?;
    }
    all.extend(requests::huge_requests());
    let random = requests::random_drafts(options.seed, options.count);
    all.extend(with_bounds(random, options)?);
    all.push(Request::new(LAST_REQUEST.to_vec()));
    Ok(all)
}

/// The second program is asked what each stream to evaluate needs, and for the rows of those
/// to cut off.
fn with_bounds(drafts: Vec<Draft>, options: &Options) -> io::Result<Vec<Request>> {
    let asked = drafts.iter().flat_map(Draft::asked);
    let mut second = start(&options.paths[1], &Arc::new(asked.collect()))?;
    let mut answer = || second.next_answer().unwrap_or_default();
    let mut random = Random::new(options.seed);
    let expanded = drafts.into_iter().flat_map(|draft| match draft {
        Draft::Request(request) => vec![request],
        Draft::Evaluation(stream) => {
            bounds::requests(&mut random, &stream, bounds::needs(&answer()))
        }
        Draft::Backlog(streams) => {
            let message = |stream| Message {
                stream,
                needs: bounds::needs(&answer()),
            };
            backlogs::requests(&mut random, streams.into_iter().map(message).collect())
        }
        Draft::Cut(stream) => cuts::requests(&mut random, &stream, &answer()),
    });
    Ok(expanded.collect())
}

/// Adds the lines of a file, or of all files of a folder.
fn add_file(path: &Path, all: &mut Vec<Request>) -> io::Result<()> {
    if path.is_dir() {
        let entries: io::Result<Vec<PathBuf>> =
            fs::read_dir(path)?.map(|entry| Ok(entry?.path())).collect();
        let mut inside = entries?;
        inside.sort();
        return inside.iter().try_for_each(|path| add_file(path, all));
    }
    let text = fs::read(path)?;
    let lines = text.split_inclusive(|byte| *byte == b'\n');
    let line = |line: &[u8]| line.strip_suffix(b"\n").unwrap_or(line).to_vec();
    all.extend(lines.map(|text| Request::new(line(text))));
    Ok(())
}
