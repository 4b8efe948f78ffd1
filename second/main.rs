//! The second program: BULK read, written and evaluated from documents 01 and 02 alone,
//! to be compared with the library. Requests come on standard input, one a line,
//! and each is answered by one line.

mod backlog;
mod bytecode;
mod evaluate;
mod names;
mod requests;
mod tree;
mod write;

use std::io;
use std::process::ExitCode;
use std::thread;

/// Room for 32 codes in progress, each with forms open that are written and made.
const STACK_BYTES: usize = 256 << 20;

fn answer_standard_input() -> io::Result<()> {
    requests::answer_all(io::stdin().lock(), io::stdout().lock())
}

fn main() -> ExitCode {
    let worker = thread::Builder::new()
        .stack_size(STACK_BYTES)
        .spawn(answer_standard_input);
    match worker.map(|thread| thread.join()) {
        Ok(Ok(Ok(()))) => ExitCode::SUCCESS,
        _ => ExitCode::FAILURE,
    }
}
