//! The programs as child processes: input fed by a thread, output read as it comes.

use crate::requests::Request;
use std::io::{self, BufRead, BufReader, BufWriter, Write};
use std::path::Path;
use std::process::{Child, ChildStdin, ChildStdout, Command, Output, Stdio};
use std::sync::Arc;
use std::thread;

/// A program that answers requests.
pub struct Program {
    process: Child,
    answers: BufReader<ChildStdout>,
    pub answers_given: usize,
}

impl Program {
    fn start(path: &str, requests: Arc<Vec<Request>>) -> io::Result<Program> {
        let (mut process, input) = spawn(path, &[])?;
        let output = process.stdout.take().expect("standard output is piped");
        // A program that stops reading shows by its missing answers.
        thread::spawn(move || feed(input, &requests));
        Ok(Program {
            process,
            answers: BufReader::new(output),
            answers_given: 0,
        })
    }

    /// The next answer line, or none after the last.
    pub fn next_answer(&mut self) -> Option<Vec<u8>> {
        let mut line = Vec::new();
        match self.answers.read_until(b'\n', &mut line) {
            Ok(count) if count > 0 => self.answers_given += 1,
            _ => return None,
        }
        if line.last() == Some(&b'\n') {
            line.pop();
        }
        Some(line)
    }

    /// Waits for the program's end; true if it succeeded.
    pub fn succeeded(&mut self) -> bool {
        self.process.wait().is_ok_and(|status| status.success())
    }
}

pub fn start(path: &str, requests: &Arc<Vec<Request>>) -> io::Result<Program> {
    Program::start(path, Arc::clone(requests))
}

pub fn named(path: &Path, error: io::Error) -> io::Error {
    io::Error::new(error.kind(), format!("{}: {error}", path.display()))
}

/// Runs a program on all of its input to its end.
pub fn run(path: &str, arguments: &[&str], input: &[u8]) -> io::Result<Output> {
    let (process, mut pipe) = spawn(path, arguments)?;
    thread::scope(|scope| {
        // A program that has seen enough stops reading, and that is no error.
        scope.spawn(move || pipe.write_all(input));
        process.wait_with_output()
    })
}

fn spawn(path: &str, arguments: &[&str]) -> io::Result<(Child, ChildStdin)> {
    let spawned = Command::new(path)
        .args(arguments)
        .stdin(Stdio::piped())
        .stdout(Stdio::piped())
        .spawn();
    let mut process = spawned.map_err(|error| named(Path::new(path), error))?;
    let input = process.stdin.take().expect("standard input is piped");
    Ok((process, input))
}

/// Writes the requests, a newline between any two and none after the last.
fn feed(input: ChildStdin, requests: &[Request]) -> io::Result<()> {
    let mut input = BufWriter::new(input);
    for (index, request) in requests.iter().enumerate() {
        if index > 0 {
            input.write_all(b"\n")?;
        }
        input.write_all(&request.line)?;
    }
    input.flush()
}
