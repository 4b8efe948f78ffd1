//! What the deepest evaluation takes of the stack. Document 01 asks for an evaluation that calls
//! itself on elements and on a function's code; no other function reaches itself.

use crate::code::Functions;
use crate::frames::frame;

/// A list that is evaluated takes a level of the first, with one of each other below it that was
/// not inlined; a call whose code runs takes one of each of the second.
const OF_A_LIST: [&str; 4] = ["list", "expression", "entered", "finish"];
const OF_A_CALL: [&str; 3] = ["call", "function", "code"];
/// So many functions are the run of lists and codes.
pub const SIZE: usize = OF_A_LIST.len() + OF_A_CALL.len();

/// Most lists are open where made prefix* and prefix forms stand one inside another, in code that
/// is called in code: in the deepest stream of compare/limits/bytecode.rs, which the comparison
/// runs with a stack of 8 MiB.
const LISTS: usize = 10_879;
/// Without bytecode.
const PLAIN_LISTS: usize = 64 + 31 * 62 + 63;
const CALLS: usize = 32;

/// What 8 MiB leave beside the buffers of bulk_calls and 64 KiB for all else.
const BUFFERS: usize = 1_597_441;
const MOST: usize = (8 << 20) - BUFFERS - (64 << 10);

/// Whether it is one of the run.
pub fn is_run(function: &str) -> bool {
    let name = function.strip_prefix("evaluator::run::");
    name.is_some_and(|name| OF_A_LIST.contains(&name) || OF_A_CALL.contains(&name))
}

/// Fails above what is left.
pub fn deepest(functions: &Functions) -> Result<String, String> {
    let (list, call) = (
        levels(functions, &OF_A_LIST)?,
        levels(functions, &OF_A_CALL)?,
    );
    let bytes = |lists| lists * list + CALLS * call;
    let line = format!(
        "Evaluate {list} bytes a list and {call} a call: {} for {LISTS} lists and {CALLS} calls, {} for {PLAIN_LISTS} lists without bytecode",
        bytes(LISTS),
        bytes(PLAIN_LISTS)
    );
    if list > 0 && call > 0 && bytes(LISTS) <= MOST {
        Ok(line)
    } else {
        Err(line)
    }
}

fn levels(functions: &Functions, names: &[&str]) -> Result<usize, String> {
    let level = |name: &&str| level(functions, &format!("evaluator::run::{name}"));
    names.iter().map(level).sum()
}

/// The most that it takes where it calls one of the run; none if it was inlined.
fn level(functions: &Functions, name: &str) -> Result<usize, String> {
    let Some(instructions) = functions.get(name) else {
        return Ok(0);
    };
    let calls = frame(name, instructions)?.calls;
    let of_run = calls.iter().filter(|call| is_run(&call.function));
    Ok(of_run.map(|call| call.depth).max().unwrap_or(0))
}
