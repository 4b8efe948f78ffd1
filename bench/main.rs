//! The benchmark: what the library's calls take, beside the second program, a plain copy and,
//! where they are installed, msgpack-c, libcbor, msgpuck and libmpack.

mod backlog;
#[path = "../second/backlog.rs"]
mod backlogs;
#[path = "../second/bytecode.rs"]
mod bytecode;
mod documents;
#[path = "../second/evaluate.rs"]
#[allow(dead_code)]
mod evaluate;
mod goals;
mod library;
#[path = "../second/names.rs"]
mod names;
mod peers;
#[path = "../compare/pieces.rs"]
#[allow(dead_code)]
mod pieces;
mod same;
mod second;
mod table;
mod timed;
mod timing;
#[path = "../second/tree.rs"]
#[allow(dead_code)]
mod tree;
mod workloads;
#[path = "../second/write.rs"]
mod write;

use std::env;
use std::process::ExitCode;
use workloads::Workload;

/// More rows than a stream can have are not needed, nor more bytes.
pub const ROWS: usize = 65_536;
pub const BYTES: usize = 65_536;

fn main() -> ExitCode {
    let workloads = workloads::all();
    let different = workloads.iter().filter(|each| !same::answers(each)).count();
    let failed = different + usize::from(!backlog::answers());
    if !env::args().any(|word| word == "--check") {
        time_all(&workloads);
    }
    println!("{} passed, {failed} failed", workloads.len() + 1 - failed);
    ExitCode::from((failed > 0) as u8)
}

fn time_all(workloads: &[Workload]) {
    table::print_head();
    let mut all = Vec::new();
    for workload in workloads {
        let timed = timed::measure(workload);
        timed.iter().for_each(table::print);
        all.extend(timed);
    }
    backlog::time();
    goals::print(&all);
}
