//! What passed and what failed, and the answers counted.

use crate::programs::Program;
use crate::requests::Request;
use crate::tally::Tally;
use std::process::{ExitCode, Output};

const DIFFERENCES_SHOWN: usize = 10;
const SHOWN_BYTES: usize = 200;

#[derive(Default)]
pub struct Report {
    passed: usize,
    failed: usize,
    pub tally: Tally,
}

impl Report {
    pub fn pass(&mut self) {
        self.passed += 1;
    }

    pub fn fail(&mut self, what: &str) {
        println!("failed: {what}");
        self.failed += 1;
    }

    pub fn compare_answers(&mut self, request: &Request, first: &[u8], second: &[u8]) {
        self.tally.count(&request.line, first);
        self.tally.count_cuts(request);
        if first != second {
            self.differ(&request.line, first, second);
        } else if !request.allows(first) {
            let expected = request.expected.clone().unwrap_or_default();
            self.differ(&request.line, first, expected.as_bytes());
        } else {
            self.passed += 1;
        }
    }

    /// By the second program's answer, this output is expected.
    pub fn compare_output(
        &mut self,
        asked: &[u8],
        output: &Output,
        expected: &[u8],
        answer: &[u8],
    ) {
        // The answer is counted: a canonical stream can have the very bytes of a refusal.
        self.tally.count(asked, answer);
        self.check_output(asked, output, expected);
    }

    pub fn check_output(&mut self, asked: &[u8], output: &Output, expected: &[u8]) {
        if !output.status.success() {
            self.differ(asked, output.status.to_string().as_bytes(), expected);
        } else if output.stdout == expected {
            self.passed += 1;
        } else {
            self.differ(asked, &output.stdout, expected);
        }
    }

    fn differ(&mut self, asked: &[u8], first: &[u8], second: &[u8]) {
        self.failed += 1;
        if self.failed <= DIFFERENCES_SHOWN {
            println!("difference: {}", shown(asked));
            println!("  first:  {}", shown(first));
            println!("  second: {}", shown(second));
        }
    }

    pub fn check_all_arisen(&mut self, single: bool) {
        let (missing, arisen) = self.tally.missing(single);
        self.passed += arisen;
        missing.iter().for_each(|what| self.fail(what));
    }

    pub fn check_end(&mut self, path: &str, mut program: Program, requests: usize) {
        let given = program.answers_given;
        if given != requests {
            self.fail(&format!("{path}: {given} answers to {requests} requests"));
        }
        if !program.succeeded() {
            self.fail(&format!("{path}: did not end well"));
        }
    }

    /// Prints the counts, which are the last line.
    pub fn end(&self) -> ExitCode {
        println!("{} passed, {} failed", self.passed, self.failed);
        match self.failed {
            0 => ExitCode::SUCCESS,
            _ => ExitCode::FAILURE,
        }
    }
}

/// The beginning of a line, as text.
fn shown(line: &[u8]) -> String {
    let cut = &line[..line.len().min(SHOWN_BYTES)];
    cut.escape_ascii().to_string()
}
