//! Streams that end too early, at every kind of place, each with the answer that document 02
//! gives: 2 at the first byte of the unfinished top-level expression, unless another refusal
//! comes first.

use super::{limit, Limit, STREAM_LIMIT};
use crate::backlogs::{self, Backlog};
use crate::bounds::{self, Bounds};
use crate::notation::spelled;
use crate::pieces::nested;
use crate::requests::{read_line, write_line, Request};

/// With number and place, the same for all calls.
type Case = (Vec<u8>, &'static str);

/// Evaluated with large bounds, or with so many rows and nothing else.
pub fn limits() -> Vec<Limit> {
    let large = |(stream, refusal)| limit(stream, bounds::LARGE, refused(refusal));
    let short = |(rows, stream, refusal): (u64, &str, &str)| {
        limit(spelled(stream), with_rows(rows), refused(refusal))
    };
    let mut all: Vec<Limit> = cases().into_iter().map(large).collect();
    all.extend(ROWS.map(short));
    all
}

/// The other calls.
pub fn requests() -> Vec<Request> {
    let table = bounds::LARGE.table;
    let mut all = Vec::new();
    for (stream, refusal) in cases() {
        all.extend(calls(&stream, table, refusal));
    }
    for (rows, stream, refusal) in ROWS {
        all.extend(calls(&spelled(stream), with_rows(rows).table, refusal));
    }
    all.push(all_in_one_backlog());
    all
}

fn refused(refusal: &str) -> String {
    format!("refused {refusal}")
}

/// The last number that makes no further row.
fn with_rows(rows: u64) -> Bounds {
    Bounds {
        table: 4 * rows + 3,
        workspace: 0,
        output: 0,
        steps: 0,
    }
}

fn calls(stream: &[u8], table: u64, refusal: &str) -> [Request; 4] {
    let bounds = Bounds {
        table,
        ..with_rows(0)
    };
    let backlog = Backlog::new(&[stream.to_vec()], bounds);
    [
        Request::expecting(read_line(stream, table), refused(refusal)),
        Request::expecting(write_line(stream, table, 0), refused(refusal)),
        Request::expecting(write_line(stream, table, 65_536), refused(refusal)),
        Request::expecting(backlog.line(), format!("ok {refusal} 0 0 -")),
    ]
}

/// Each place is counted from its own stream's first byte.
fn all_in_one_backlog() -> Request {
    let short = |(stream, _): &Case| stream.len() < 1_000;
    let cases: Vec<Case> = cases().into_iter().filter(short).collect();
    let answers = cases.iter().map(|(_, refusal)| format!(" {refusal} 0 0"));
    let expected = format!("ok{} -", answers.collect::<String>());
    let streams: Vec<Vec<u8>> = cases.into_iter().map(|(stream, _)| stream).collect();
    let backlog = Backlog::new(&streams, backlogs::LARGE);
    Request::expecting(backlog.line(), expected)
}

fn cases() -> Vec<Case> {
    let spelled = |(stream, refusal): (&str, _)| (spelled(stream), refusal);
    let mut all: Vec<Case> = Vec::new();
    all.extend(ATOMS.map(spelled));
    all.extend(BEHIND.map(spelled));
    all.extend(IN_FORMS.map(spelled));
    all.extend(OTHERS_FIRST.map(spelled));
    all.extend(many_bytes());
    all
}

/// Atoms at top level.
const ATOMS: [(&str, &str); 18] = [
    ("C1", "2 0"),
    ("C2 41", "2 0"),
    ("FF 41", "2 0"),
    ("28", "2 0"),
    ("7F", "2 0"),
    ("7F 00", "2 0"),
    ("7F FF", "2 0"),
    ("7F FF 8C", "2 0"),
    ("03", "2 0"),
    ("03 81", "2 0"),
    ("03 C1", "2 0"),
    ("03 C2 00", "2 0"),
    ("03 C1 02 41", "2 0"),
    ("03 03", "2 0"),
    ("03 03 81", "2 0"),
    ("03 03 C2 00", "2 0"),
    ("03 03 81 02 41", "2 0"),
    ("03 C8 FF FF FF FF FF FF FF FF", "2 0"),
];

/// Behind expressions that are whole.
const BEHIND: [(&str, &str); 10] = [
    ("00 C1", "2 1"),
    ("00 (", "2 1"),
    ("00 81 28", "2 2"),
    ("28 01 28", "2 2"),
    ("03 81 41 03 81", "2 3"),
    ("( ) (", "2 2"),
    ("( ( ) 00 ) ( ( )", "2 5"),
    ("V 7F FF", "2 6"),
    ("V NS 81 03 C1", "2 15"),
    ("V 81 03 03 C1", "2 7"),
];

/// However deep the end lies.
const IN_FORMS: [(&str, &str); 14] = [
    ("(", "2 0"),
    ("( (", "2 0"),
    ("( ) ( (", "2 2"),
    ("( ( )", "2 0"),
    ("( 00 81", "2 0"),
    ("( 28", "2 0"),
    ("( 00 7F FF", "2 0"),
    ("( 00 03 C1", "2 0"),
    ("( ( ( 03 03 81 02 41", "2 0"),
    ("00 ( ( C2 41", "2 1"),
    ("V ( define 28", "2 6"),
    ("V NS ( define 28 01 ( 85", "2 14"),
    ("V NS ( define 28 01 85 ) ( ( 28 01 ) ( 28 01", "2 21"),
    ("V ( prefix* ( ( 82 28 02 ) ) 28 02 81", "2 6"),
];

/// "The first that arises, in reading order."
const OTHERS_FIRST: [(&str, &str); 8] = [
    (") (", "3 0"),
    ("( ) ) (", "3 2"),
    ("( 04 28", "4 1"),
    ("( 03 00", "5 2"),
    ("00 ( 03 03 02", "5 4"),
    ("( 03 03 03 03 03 03 03 03", "2 0"),
    ("( 03 03 03 03 03 03 03 03 03", "6 9"),
    ("00 ( 03 03 03 03 03 03 03 03 03", "6 10"),
];

/// So many rows, of which an unfinished form takes one, and an unfinished atom none.
const ROWS: [(u64, &str, &str); 12] = [
    (0, "C1", "2 0"),
    (0, "7F FF", "2 0"),
    (0, "(", "8 0"),
    (1, "(", "2 0"),
    (1, "( 28", "2 0"),
    (0, "00 C1", "8 0"),
    (1, "00 C1", "2 1"),
    (3, "00 ( ( C2 41", "2 1"),
    (2, "00 ( ( C2 41", "8 2"),
    (1, "00 ( ( C2 41", "8 1"),
    (5, "V 81 03 03 C1", "2 7"),
    (4, "V 81 03 03 C1", "8 6"),
];

fn many_bytes() -> Vec<Case> {
    let forms = |count| vec![0x01; count];
    let nils = |count| vec![0x00; count];
    let marker = |last: &[u8]| [&[0x01, 0x7F][..], &[0xFF; 256], last].concat();
    vec![
        (forms(64), "2 0"),
        ([nils(1), forms(64)].concat(), "2 1"),
        (forms(65), "6 64"),
        ([nested(64, &[]), forms(64)].concat(), "2 128"),
        // 256 bytes FF and 81 are above 65,535, which counts once the name is there.
        (marker(&[0x81]), "2 0"),
        (marker(&[0x81, 0x00]), "7 1"),
        (marker(&[0x80, 0x00]), "2 0"),
        ([nils(STREAM_LIMIT - 1), forms(1)].concat(), "2 65535"),
        ([forms(1), nils(STREAM_LIMIT - 1)].concat(), "2 0"),
        ([forms(1), nils(STREAM_LIMIT)].concat(), "1 0"),
    ]
}
