//! What a function takes of the stack, its return address among it, and how much of it where it
//! calls another.

use crate::code::Instruction;
use crate::flow::{flow, Flow};

pub const WORD: usize = 8;

pub struct Call {
    pub function: String,
    /// Without the return address that the other has of its own.
    pub depth: usize,
}

pub struct Frame {
    pub deepest: usize,
    pub calls: Vec<Call>,
}

/// Fails where the depth at an instruction can't be told.
pub fn frame(name: &str, instructions: &[Instruction]) -> Result<Frame, String> {
    let flows: Vec<Flow> = instructions
        .iter()
        .map(|each| flow(name, each))
        .collect::<Result<_, _>>()?;
    let depths = depths(name, instructions, &flows)?;
    let mut frame = Frame {
        deepest: 0,
        calls: Vec::new(),
    };
    for ((instruction, flow), depth) in instructions.iter().zip(&flows).zip(depths) {
        let Some(depth) = depth else { continue };
        let after = moved(instruction, depth).unwrap_or(depth);
        frame.deepest = frame.deepest.max(after).max(depth + below(instruction));
        // One that goes on in this one's place has its return address.
        let shared = if instruction.name == "call" { 0 } else { WORD };
        frame.calls.extend(flow.function.map(|function| Call {
            function: function.to_string(),
            depth: depth - shared,
        }));
    }
    Ok(frame)
}

/// The depth before each instruction; none where it is never reached.
fn depths(
    name: &str,
    instructions: &[Instruction],
    flows: &[Flow],
) -> Result<Vec<Option<usize>>, String> {
    let mut depths = vec![None; instructions.len()];
    let mut next = vec![(0, WORD)];
    let mut by_table = None;
    while let Some((i, depth)) = next.pop() {
        if depths
            .get(i)
            .is_none_or(|known| known.is_some_and(|known| known != depth))
        {
            return Err(format!("{name}: the depth of instruction {i}"));
        }
        if depths[i].replace(depth).is_none() {
            let after = moved(&instructions[i], depth).ok_or_else(|| instructions[i].told(name))?;
            let jump = flows[i].jump.map(|address| index(instructions, address));
            next.extend(jump.map(|to| (to, after)));
            next.extend(flows[i].on.then_some((i + 1, after)));
            if flows[i].table && *by_table.get_or_insert(after) != after {
                return Err(format!("{name}: tables at two depths"));
            }
        }
        // What nothing else leads to is reached by a table, unless it only fills up.
        if let (true, Some(depth)) = (next.is_empty(), by_table) {
            let left = (0..depths.len()).find(|&i| depths[i].is_none() && !fills(&instructions[i]));
            next.extend(left.map(|i| (i, depth)));
        }
    }
    Ok(depths)
}

/// One past the last if no instruction is there.
fn index(instructions: &[Instruction], address: u64) -> usize {
    let found = instructions.binary_search_by_key(&address, |each| each.address);
    found.unwrap_or(instructions.len())
}

fn fills(instruction: &Instruction) -> bool {
    let text = instruction.text();
    ["nop", "xchg %ax,%ax", "cs nop", "int3"]
        .iter()
        .any(|filler| text.starts_with(filler))
}

/// The depth behind an instruction; none if it moves the stack's end in another way.
fn moved(instruction: &Instruction, depth: usize) -> Option<usize> {
    let operands = &instruction.operands;
    match instruction.name.as_str() {
        "push" => return Some(depth + WORD),
        "pop" if operands != "%rsp" => return depth.checked_sub(WORD),
        "pop" | "popf" | "pushf" | "leave" | "enter" => return None,
        "cmp" | "test" => return Some(depth),
        _ => {}
    }
    let Some(from) = operands.strip_suffix(",%rsp") else {
        return Some(depth);
    };
    // A number below zero has 64 bits.
    let bytes = u64::from_str_radix(from.strip_prefix("$0x")?, 16).ok()? as isize;
    match instruction.name.as_str() {
        "sub" => depth.checked_add_signed(bytes),
        "add" => depth.checked_add_signed(-bytes),
        _ => None,
    }
}

/// How far below the stack's end it reads or writes: a function that calls none may.
fn below(instruction: &Instruction) -> usize {
    let Some((before, _)) = instruction.operands.split_once("(%rsp") else {
        return 0;
    };
    let offset = before.rsplit(',').next().unwrap_or(before);
    let number = offset.strip_prefix("-0x");
    number.map_or(0, |digits| usize::from_str_radix(digits, 16).unwrap_or(0))
}
