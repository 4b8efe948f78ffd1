//! What the code of a program or of the library says: which functions reach themselves, and what
//! the calls take.

use crate::code::{self, Functions};
use crate::evaluation;
use crate::graph::{self, Graph};
use crate::written;
use crate::Tally;

/// Read, Write and Item, as the library has them.
pub const READING: [&str; 3] = ["bulk_bench_read", "bulk_bench_write", "bulk_bench_item"];
const MOST_BYTES: usize = 2 << 10;

/// The functions that reach themselves. Fails for any but the evaluator's run.
fn recursion(graph: &Graph) -> Result<Vec<&str>, String> {
    let recursive = graph.that_reach_themselves();
    match recursive.iter().find(|name| !evaluation::is_run(name)) {
        Some(other) => Err(format!("{other} reaches itself")),
        None => Ok(recursive),
    }
}

fn told(graph: &Graph, recursive: &[&str]) -> String {
    let names = match recursive {
        [] => "none".to_string(),
        _ => recursive.join(", "),
    };
    let size = graph.size();
    format!("of {size} functions these reach themselves: {names}")
}

/// As written it is the whole run that reaches itself, or none.
fn written(file: &str) -> Result<(bool, String), String> {
    let graph = written::calls(file)?;
    let recursive = recursion(&graph)?;
    let line = told(&graph, &recursive);
    if recursive.is_empty() || recursive.len() == evaluation::SIZE {
        Ok((!recursive.is_empty(), line))
    } else {
        Err(line)
    }
}

/// Fails for a call that can't be told, too.
pub fn functions(file: &str) -> Result<(Functions, String), String> {
    let functions = code::functions(file)?;
    let graph = Graph::of(&functions)?;
    let line = told(&graph, &recursion(&graph)?);
    Ok((functions, line))
}

/// A crate's code, as it is written and as it is compiled, with what its evaluation takes.
pub fn seen(file: &str, tally: &mut Tally) -> Option<Functions> {
    let as_written = format!("target/written/{file}");
    let written = written(&as_written);
    let evaluates = written.as_ref().is_ok_and(|(evaluates, _)| *evaluates);
    tally.count(&as_written, written.map(|(_, line)| line));
    let file = format!("target/{file}");
    let (functions, line) = match functions(&file) {
        Ok((functions, line)) => (Some(functions), Ok(line)),
        Err(line) => (None, Err(line)),
    };
    tally.count(&file, line);
    if let Some(functions) = functions.as_ref().filter(|_| evaluates) {
        tally.count(&file, evaluation::deepest(functions));
    }
    functions
}

/// A call's most bytes of stack, by its deepest path. Fails above 2 KiB.
pub fn most(functions: &Functions, call: &str) -> Result<(usize, String), String> {
    let path = graph::deepest(functions, call)?;
    let part = |(name, bytes): &(String, usize)| format!("{name} {bytes}");
    let parts: Vec<String> = path.functions.iter().map(part).collect();
    let line = format!("at most {} bytes: {}", path.bytes, parts.join(", "));
    if path.bytes > MOST_BYTES {
        return Err(format!("{line}; above {MOST_BYTES}"));
    }
    Ok((path.bytes, line))
}
