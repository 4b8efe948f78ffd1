//! A stream that can be read, with its rows: where it can be cut off, and what reading a part
//! of it must give.

use std::fmt::Write;

const FORM: usize = 1;
const ARRAY: usize = 2;
const REFERENCE: usize = 4;

/// The kinds of places. Those inside an atom are told apart by whether the atom is at top
/// level or in a form.
const BETWEEN_EXPRESSIONS: &str = "between expressions";
const IN_FORM: &str = "in a form";
const IN_BYTES: [&str; 2] = ["in an array's bytes", "in an array's bytes, in a form"];
const IN_LENGTH: [&str; 2] = ["in a length", "in a length, in a form"];
const IN_NESTED_LENGTH: [&str; 2] = ["in a nested length", "in a nested length, in a form"];
const IN_MARKER: [&str; 2] = ["in a marker", "in a marker, in a form"];
const BEFORE_NAME: [&str; 2] = ["before a name", "before a name, in a form"];

/// How many whole top-level expressions are in front.
const BEHIND: [&str; 3] = ["behind none", "behind one", "behind several"];

/// All of these, in the order of the tally.
pub const LABELS: [&str; 15] = [
    BETWEEN_EXPRESSIONS,
    IN_FORM,
    IN_BYTES[0],
    IN_BYTES[1],
    IN_LENGTH[0],
    IN_LENGTH[1],
    IN_NESTED_LENGTH[0],
    IN_NESTED_LENGTH[1],
    IN_MARKER[0],
    IN_MARKER[1],
    BEFORE_NAME[0],
    BEFORE_NAME[1],
    BEHIND[0],
    BEHIND[1],
    BEHIND[2],
];

#[derive(Clone, Copy)]
pub struct Cut {
    /// So many bytes are left.
    pub at: usize,
    pub place: &'static str,
    /// Where the unfinished top-level expression begins, or `at` if there is none.
    pub top_level: usize,
    /// How many whole ones are in front of it.
    pub finished: usize,
}

impl Cut {
    pub fn labels(&self) -> [&'static str; 2] {
        [self.place, BEHIND[self.finished.min(2)]]
    }
}

#[derive(Clone, Copy)]
struct Row {
    kind: usize,
    start: usize,
    end: usize,
    next: usize,
}

pub struct Whole<'s> {
    stream: &'s [u8],
    rows: Vec<Row>,
}

impl<'s> Whole<'s> {
    /// With the answer to a request that reads the stream; none if it is refused.
    pub fn new(stream: &'s [u8], answer: &[u8]) -> Option<Whole<'s>> {
        let text = std::str::from_utf8(answer.strip_prefix(b"ok ")?).ok()?;
        let numbers: Result<Vec<usize>, _> = text.split(' ').map(str::parse).collect();
        let row = |numbers: &[usize]| Row {
            kind: numbers[0],
            start: numbers[1],
            end: numbers[2],
            next: numbers[3],
        };
        let rows = numbers.ok()?[1..].chunks_exact(4).map(row).collect();
        Some(Whole { stream, rows })
    }

    /// At every byte, in order.
    pub fn cuts(&self) -> Vec<Cut> {
        let between = |at| Cut {
            at,
            place: BETWEEN_EXPRESSIONS,
            top_level: at,
            finished: 0,
        };
        let mut cuts: Vec<Cut> = (0..=self.stream.len()).map(between).collect();
        let mut first = 0;
        let mut finished = 0;
        while let Some(top) = self.rows.get(first) {
            for (inside, row) in self.rows[first..top.next].iter().enumerate() {
                for (at, place) in self.places(row, inside > 0) {
                    cuts[at].place = place;
                    cuts[at].top_level = top.start;
                    cuts[at].finished = finished;
                }
            }
            first = top.next;
            finished += 1;
            cuts[top.end].finished = finished;
        }
        cuts
    }

    /// The cuts inside an expression. Those of a form's elements come later and take their place.
    fn places(&self, row: &Row, in_form: bool) -> Vec<(usize, &'static str)> {
        let bytes = &self.stream[row.start..row.end];
        let head = head(row.kind, bytes);
        let marks = array_marks(bytes);
        let place = |at| match row.kind {
            FORM => [IN_FORM; 2],
            ARRAY if at >= head => IN_BYTES,
            ARRAY if marks > 1 => IN_NESTED_LENGTH,
            ARRAY => IN_LENGTH,
            _ if at == head => BEFORE_NAME,
            _ => IN_MARKER,
        };
        let inside = 1..bytes.len();
        let label = |at| place(at)[usize::from(in_form)];
        inside.map(|at| (row.start + at, label(at))).collect()
    }

    /// From a top-level expression's first byte up to a cut.
    pub fn part(&self, from: usize, cut: &Cut) -> Part<'s> {
        let first = self.rows.partition_point(|row| row.start < from);
        let begun = self.rows[first..].iter();
        let taken = begun
            .take_while(|row| row.start < cut.at)
            .filter(|row| row.kind == FORM || row.end <= cut.at)
            .map(|row| Row {
                start: row.start - from,
                end: row.end - from,
                next: row.next - first,
                ..*row
            });
        Part {
            bytes: &self.stream[from..cut.at],
            rows: taken.collect(),
            unfinished: (cut.top_level < cut.at).then(|| cut.top_level - from),
        }
    }
}

/// How many bytes are before an array's content, or before a name.
fn head(kind: usize, bytes: &[u8]) -> usize {
    match kind {
        ARRAY => array_head(bytes),
        REFERENCE => bytes.len() - 1,
        _ => bytes.len(),
    }
}

fn array_marks(bytes: &[u8]) -> usize {
    bytes.iter().take_while(|byte| **byte == 0x03).count()
}

/// The bytes 03, the innermost length, and the bytes of each array that is a length.
fn array_head(bytes: &[u8]) -> usize {
    let marks = array_marks(bytes);
    let innermost = bytes[marks];
    let lengths = (marks + usize::from(innermost >= 0xC0)).saturating_sub(1);
    let mut at = marks + 1;
    let mut length = usize::from(innermost & 0x3F);
    for _ in 0..lengths {
        let number = &bytes[at..at + length];
        at += length;
        length = number.iter().fold(0, |n, byte| n << 8 | usize::from(*byte));
    }
    at
}

/// What is at hand of a stream. Places are counted from its own first byte.
pub struct Part<'s> {
    pub bytes: &'s [u8],
    /// Those that reading takes: an unfinished form has one, an unfinished atom none.
    rows: Vec<Row>,
    unfinished: Option<usize>,
}

impl Part<'_> {
    pub fn rows(&self) -> usize {
        self.rows.len()
    }

    pub fn is_unfinished(&self) -> bool {
        self.unfinished.is_some()
    }

    /// Number and place, with so many rows available; none if it can be read.
    pub fn refusal(&self, rows: usize) -> Option<(u8, usize)> {
        match (self.rows.get(rows), self.unfinished) {
            (Some(row), _) => Some((8, row.start)),
            (None, Some(place)) => Some((2, place)),
            (None, None) => None,
        }
    }

    /// The answer to a read request where it can be read.
    pub fn listing(&self) -> String {
        let mut line = format!("ok {}", self.rows.len());
        for row in &self.rows {
            // Writing to a String cannot fail.
            let _ = write!(line, " {} {} {} {}", row.kind, row.start, row.end, row.next);
        }
        line
    }

    /// The answer to an item request.
    pub fn item(&self, k: usize) -> String {
        let mut row = self.rows.first();
        for _ in 0..k {
            row = row.and_then(|row| self.rows.get(row.next));
        }
        match row {
            Some(row) if !self.is_unfinished() => format!("part {} {}", row.start, row.end),
            _ => "part empty".to_string(),
        }
    }
}
