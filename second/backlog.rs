//! A backlog (document 02, "A night's backlog at once").

use crate::evaluate::{self, Bounds};
use crate::tree::{refuse, Refusal};

const NUMBERS_IN_AN_ANSWER: u64 = 4;

#[derive(Default)]
pub struct Answers {
    /// "Each one's answer, place, length and steps."
    pub streams: Vec<[u64; 4]>,
    /// "Results end to end."
    pub results: Vec<u8>,
}

/// "One evaluation after another, each with the same table, steps and workspace and the
/// output left by those before." `answers` is how many numbers are lent for them.
pub fn evaluate(
    buffer: &[u8],
    ends: &[u64],
    answers: u64,
    bounds: Bounds,
) -> Result<Answers, Refusal> {
    check(buffer, ends, answers)?;
    let mut all = Answers::default();
    let mut start = 0;
    for end in ends.iter().map(|end| *end as usize) {
        let left = Bounds {
            output: bounds.output - all.results.len() as u64,
            ..bounds
        };
        all.add(evaluate::evaluate(&buffer[start..end], left));
        start = end;
    }
    Ok(all)
}

impl Answers {
    /// Of a refused stream, length and steps are 0.
    fn add(&mut self, evaluated: Result<(Vec<u8>, u64), Refusal>) {
        let answer = match evaluated {
            Ok((result, steps)) => {
                self.results.extend(&result);
                [0, 0, result.len() as u64, steps]
            }
            Err(refusal) => [refusal.number.into(), refusal.place as u64, 0, 0],
        };
        self.streams.push(answer);
    }
}

/// "23, an end below the one before, a last end other than the buffer's length (no ends:
/// buffer not empty), or fewer places for answers than ends."
fn check(buffer: &[u8], ends: &[u64], answers: u64) -> Result<(), Refusal> {
    let falls = ends.windows(2).any(|pair| pair[1] < pair[0]);
    let last = ends.last().copied().unwrap_or(0);
    let places = answers / NUMBERS_IN_AN_ANSWER;
    if falls || last != buffer.len() as u64 || places < ends.len() as u64 {
        return refuse(23, 0);
    }
    Ok(())
}
