//! Evaluate requests with bounds at, below and above what a stream needs.

use crate::random::Random;
use crate::requests::{evaluate_line, hex, random_size, spoiled_at_times, Request, LARGE_NUMBERS};

/// As large as any evaluation can use.
pub const LARGE: Bounds = Bounds {
    table: 262_144,
    workspace: 65_536,
    output: 65_536,
    steps: u64::MAX,
};

#[derive(Clone, Copy)]
pub struct Bounds {
    pub table: u64,
    pub workspace: u64,
    pub output: u64,
    pub steps: u64,
}

/// What an evaluation takes up to its end or its refusal, as the second program tells.
pub struct Needs {
    rows: u64,
    pub steps: u64,
    charged: u64,
    /// The result's length, if there is one.
    pub length: Option<u64>,
}

impl Needs {
    /// Of an evaluation that is accepted.
    pub fn steps_and_charges(&self) -> Option<u64> {
        self.length.map(|_| self.steps + self.charged)
    }
}

/// What asks the second program for them.
pub fn needs_request(stream: &[u8]) -> Request {
    Request::new(format!("needs {}", hex(stream)).into_bytes())
}

/// None if the stream can't be read.
pub fn needs(answer: &[u8]) -> Option<Needs> {
    let text = std::str::from_utf8(answer).ok()?;
    let words: Vec<&str> = text.split(' ').collect();
    let (numbers, length) = match words[..] {
        ["stopped", rows, steps, charged] => ([rows, steps, charged], None),
        ["accepted", rows, steps, charged, length] => ([rows, steps, charged], Some(length)),
        _ => return None,
    };
    let number = |word: &str| word.parse().ok();
    Some(Needs {
        rows: number(numbers[0])?,
        steps: number(numbers[1])?,
        charged: number(numbers[2])?,
        length: length.and_then(number),
    })
}

/// A request with random bounds; and where the needs are known, others with exact ones.
pub fn requests(random: &mut Random, stream: &[u8], needs: Option<Needs>) -> Vec<Request> {
    let mut requests = vec![random_request(random, stream, needs.as_ref())];
    match needs {
        Some(needs) if needs.length.is_some() => requests.extend(exact(stream, &needs)),
        Some(needs) => requests.extend(exact_at_refusal(random, stream, &needs)),
        None => {}
    }
    requests
}

fn random_request(random: &mut Random, stream: &[u8], needs: Option<&Needs>) -> Request {
    let bounds = random_bounds(random, stream.len(), needs);
    Request::new(spoiled_at_times(random, evaluate_line(stream, bounds)))
}

/// For a stream of that length.
pub fn random_bounds(random: &mut Random, length: usize, needs: Option<&Needs>) -> Bounds {
    let needed = |part: fn(&Needs) -> u64| needs.map_or(length, |needs| part(needs) as usize);
    let mut size = |needed: usize| match random.one_in(3) {
        true => random_size(random, needed),
        false => random.pick(&LARGE_NUMBERS),
    };
    Bounds {
        table: size(4 * needed(|needs| needs.rows)),
        workspace: size(needed(|needs| needs.charged)),
        output: size(needed(|needs| needs.length.unwrap_or(0))),
        steps: size(needed(|needs| needs.steps)),
    }
}

/// "If they accept or refuse within the steps given, that is the answer; if they would
/// take one more, it is 16"; and so with the workspace and the output.
fn exact(stream: &[u8], needs: &Needs) -> Vec<Request> {
    let bounds = Bounds {
        table: 4 * needs.rows,
        workspace: needs.charged,
        output: needs.length.unwrap_or(0),
        steps: needs.steps,
    };
    let request = |bounds, expected| Request::expecting(evaluate_line(stream, bounds), expected);
    vec![
        request(bounds, "ok"),
        request(one_step_less(bounds), "refused 16"),
        request(one_byte_less(bounds), "refused 17"),
        request(shorter_output(bounds), "refused 18"),
    ]
}

/// What is refused is refused within the steps and the workspace that were used by then,
/// and 16 or 17 comes before it with one less.
fn exact_at_refusal(random: &mut Random, stream: &[u8], needs: &Needs) -> Option<Request> {
    let bounds = Bounds {
        table: 4 * needs.rows,
        workspace: needs.charged,
        output: 0,
        steps: needs.steps,
    };
    let (bounds, expected) = match random.below(3) {
        0 if needs.steps > 0 => (one_step_less(bounds), "refused 16"),
        1 if needs.charged > 0 => (one_byte_less(bounds), "refused 17"),
        _ => (bounds, "refused"),
    };
    Some(Request::expecting(evaluate_line(stream, bounds), expected))
}

fn one_step_less(bounds: Bounds) -> Bounds {
    Bounds {
        steps: bounds.steps - 1,
        ..bounds
    }
}

fn one_byte_less(bounds: Bounds) -> Bounds {
    Bounds {
        workspace: bounds.workspace - 1,
        ..bounds
    }
}

fn shorter_output(bounds: Bounds) -> Bounds {
    Bounds {
        output: bounds.output - 1,
        ..bounds
    }
}
