//! The calls of functions as they are written: off the code that Rattle's own compiler makes at
//! level 0, before any is inlined or made a loop.

use crate::code::{self, without_offset, Functions, Instruction};
use crate::flow::{flow, place};
use crate::graph::Graph;
use std::collections::BTreeSet;

/// C's start of a program. It goes on behind the constants, which stand first, and that calls the
/// program's `main`. Neither is a function that is written.
const START: &str = "main";

/// Of a crate's functions, and of those that they reach in others.
pub fn calls(object: &str) -> Result<Graph, String> {
    let mut functions = code::read(object)?;
    let first = |instructions: &Vec<Instruction>| instructions.first().map(|each| each.address);
    let constants = functions.values().filter_map(first).min();
    functions.retain(|name, instructions| name != START && first(instructions) != constants);
    if functions.is_empty() {
        return Err("no functions".to_string());
    }
    let mut graph = Graph::default();
    for (name, instructions) in &functions {
        graph.add(name);
        for instruction in before_tables(name, instructions, &functions)? {
            let called = flow(name, instruction)?.function;
            // A function of C has its name from the linker.
            match called.filter(|_| instruction.symbols.is_empty()) {
                Some(called) if !functions.contains_key(called) => {
                    return Err(instruction.told(name));
                }
                _ => called
                    .into_iter()
                    .for_each(|each| graph.add_call(name, each)),
            }
        }
    }
    Ok(graph)
}

/// A function's tables of jumps stand behind its code. Fails where it has not a table for each jump
/// by an address.
fn before_tables<'a>(
    name: &str,
    instructions: &'a [Instruction],
    functions: &Functions,
) -> Result<&'a [Instruction], String> {
    let mut tables = BTreeSet::new();
    let mut code = instructions;
    for (i, instruction) in instructions.iter().enumerate() {
        if tables
            .first()
            .is_some_and(|table| *table <= instruction.address)
        {
            code = &instructions[..i];
            break;
        }
        tables.extend(table(name, instruction, functions)?);
    }
    let by_address = |each: &&Instruction| each.operands.starts_with('*');
    let jumps: Vec<&Instruction> = code.iter().filter(by_address).collect();
    match jumps.last() {
        Some(jump) if jumps.len() != tables.len() => Err(jump.told(name)),
        None if !tables.is_empty() => Err(format!("{name} has a table and no jump by it")),
        _ => Ok(code),
    }
}

/// Where the table is that an instruction reads, if it does. All else that it may read are the
/// constants: it fails where that is a function.
fn table(
    name: &str,
    instruction: &Instruction,
    functions: &Functions,
) -> Result<Option<u64>, String> {
    let Some((address, label)) = instruction.place.as_deref().and_then(place) else {
        return Ok(None);
    };
    // The place is not known before the linker puts it in.
    if !instruction.symbols.is_empty() {
        return Err(instruction.told(name));
    }
    let function = without_offset(label);
    if function == name && instruction.address < address {
        return Ok(Some(address));
    }
    if functions.contains_key(function) {
        return Err(instruction.told(name));
    }
    Ok(None)
}
