//! The stack that the calls take: read off the code of every program and of the library, and
//! measured on a stack of 64 KiB.

#[path = "../second/bytecode.rs"]
#[allow(dead_code)]
mod bytecode;
mod code;
mod evaluation;
mod flow;
mod frames;
mod graph;
#[path = "../bench/library.rs"]
#[allow(dead_code)]
mod library;
#[path = "../second/names.rs"]
#[allow(dead_code)]
mod names;
mod object;
#[path = "../compare/pieces.rs"]
#[allow(dead_code)]
mod pieces;
mod runs;
mod small;
mod streams;
#[path = "../second/tree.rs"]
#[allow(dead_code)]
mod tree;
mod tried;
#[path = "../second/write.rs"]
mod write;
mod written;

use object::seen;
use std::env;
use std::process::ExitCode;

#[derive(Default)]
pub struct Tally {
    passed: usize,
    failed: usize,
}

impl Tally {
    /// With a line on what was seen of something.
    pub fn count(&mut self, of: &str, seen: Result<String, String>) {
        match seen {
            Ok(line) => {
                self.passed += 1;
                println!("{of}: {line}");
            }
            Err(line) => {
                self.failed += 1;
                println!("FAILED {of}: {line}");
            }
        }
    }
}

/// The words are the library's name and the programs'.
fn main() -> ExitCode {
    let words: Vec<String> = env::args().skip(1).collect();
    if words == [small::TOO_DEEP] {
        small::take_too_much();
    }
    let Some((library, programs)) = words.split_first() else {
        return ExitCode::from(2);
    };
    let mut tally = Tally::default();
    for program in programs {
        seen(&format!("obj/{program}.o"), &mut tally);
    }
    if let Some(functions) = seen(&format!("staticlib/lib{library}.a"), &mut tally) {
        runs::all(&functions, &mut tally);
    }
    tally.count("more than 64 KiB", small::ends());
    tried::all(&mut tally);
    println!("{} passed, {} failed", tally.passed, tally.failed);
    ExitCode::from((tally.failed > 0) as u8)
}
