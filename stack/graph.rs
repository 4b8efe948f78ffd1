//! Which functions reach themselves, and the most that a call takes of the stack.

use crate::code::Functions;
use crate::flow::flow;
use crate::frames::{frame, WORD};
use std::collections::{BTreeMap, BTreeSet};

/// The functions that each calls.
#[derive(Default)]
pub struct Graph(BTreeMap<String, BTreeSet<String>>);

impl Graph {
    /// Of an object's functions.
    pub fn of(functions: &Functions) -> Result<Graph, String> {
        let mut graph = Graph::default();
        for (name, instructions) in functions {
            graph.add(name);
            for instruction in instructions {
                if let Some(called) = flow(name, instruction)?.function {
                    graph.add_call(name, called);
                }
            }
        }
        Ok(graph)
    }

    pub fn add(&mut self, name: &str) {
        self.0.entry(name.to_string()).or_default();
    }

    pub fn add_call(&mut self, name: &str, called: &str) {
        let all = self.0.entry(name.to_string()).or_default();
        all.insert(called.to_string());
    }

    pub fn size(&self) -> usize {
        self.0.len()
    }

    /// Directly or through others.
    pub fn that_reach_themselves(&self) -> Vec<&str> {
        let names = self.0.keys().map(String::as_str);
        names
            .filter(|name| self.reached(name).contains(name))
            .collect()
    }

    fn reached(&self, name: &str) -> BTreeSet<&str> {
        let mut reached = BTreeSet::new();
        let mut next: Vec<&str> = self.called(name).collect();
        while let Some(name) = next.pop() {
            if reached.insert(name) {
                next.extend(self.called(name));
            }
        }
        reached
    }

    fn called(&self, name: &str) -> impl Iterator<Item = &str> {
        self.0.get(name).into_iter().flatten().map(String::as_str)
    }
}

/// A call with those below it, of which each takes so much where it calls the next.
pub struct Path {
    pub bytes: usize,
    pub functions: Vec<(String, usize)>,
}

/// Fails for a function that is not there, or reaches one that reaches itself.
pub fn deepest(functions: &Functions, name: &str) -> Result<Path, String> {
    let graph = Graph::of(functions)?;
    let recursive = graph.that_reach_themselves();
    let mut reached = graph.reached(name);
    reached.insert(name);
    match recursive.iter().find(|each| reached.contains(*each)) {
        Some(other) => Err(format!("{name} reaches {other}, which reaches itself")),
        None if !functions.contains_key(name) => Err(format!("{name} is not there")),
        None => below(functions, name),
    }
}

/// A function that is not in the object takes its return address.
fn below(functions: &Functions, name: &str) -> Result<Path, String> {
    let Some(instructions) = functions.get(name) else {
        return Ok(Path::alone(name, WORD));
    };
    let frame = frame(name, instructions)?;
    let mut most = Path::alone(name, frame.deepest);
    for call in frame.calls {
        let path = below(functions, &call.function)?;
        if most.bytes < call.depth + path.bytes {
            most = path.under(name, call.depth);
        }
    }
    Ok(most)
}

impl Path {
    fn alone(name: &str, bytes: usize) -> Path {
        Path {
            bytes,
            functions: vec![(name.to_string(), bytes)],
        }
    }

    fn under(mut self, name: &str, bytes: usize) -> Path {
        self.bytes += bytes;
        self.functions.insert(0, (name.to_string(), bytes));
        self
    }
}
