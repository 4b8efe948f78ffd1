//! Backlogs, with the answers that document 02 gives: ends and room for answers at each limit,
//! what one stream leaves to the next, and as many and as large streams as there may be.

use super::{after_beginning, bytecode, deepest, longest, STREAM_LIMIT};
use crate::backlogs::{Backlog, ENDS_LIMIT, LARGE, OUTPUT_LIMIT};
use crate::bounds::Bounds;
use crate::notation::spelled;
use crate::pieces::{array, define, name, nested, ns, MARKER, VERSION};
use crate::requests::{hex, Request};
use std::borrow::Cow;

/// Document 01's i: 23 bytes, 13 rows, 8 steps, 20 charged, and a result of 15 bytes.
const I: &str = "V NS ( define 28 01 85 ) 28 01";
const RESULT_OF_I: &str = "V NS 85";
/// Document 01's m.
const M: &str = r#"V ( concat "A" 81 )"#;
const REFUSED: &str = "refused 23 0";

pub fn requests() -> Vec<Request> {
    let mut all = ends();
    all.extend(no_ends());
    all.extend(places_for_answers());
    all.extend(orders());
    all.extend(outputs());
    all.extend(other_bounds());
    all.extend(nothing_kept());
    all.push(every_number());
    all.extend(large_streams());
    all.extend(many_streams());
    all.extend(deep_streams());
    all.extend(large_results());
    all.extend(words());
    all
}

fn expecting(backlog: Backlog, expected: impl Into<Cow<'static, str>>) -> Request {
    Request::expecting(backlog.line(), expected)
}

/// With the numbers of all answers, and the results in the notation.
fn accepted(backlog: Backlog, numbers: &str, results: &str) -> Request {
    expecting(backlog, format!("ok {numbers} {}", hex(&spelled(results))))
}

fn backlog(streams: &[&str], bounds: Bounds) -> Backlog {
    let streams: Vec<Vec<u8>> = streams.iter().map(|text| spelled(text)).collect();
    Backlog::new(&streams, bounds)
}

fn with_output(output: u64) -> Bounds {
    Bounds { output, ..LARGE }
}

/// The buffer is i and V: 29 bytes.
fn ends() -> Vec<Request> {
    let buffer = || spelled(&format!("{I} V"));
    let parted = |ends: &[u64]| Backlog::with_ends(buffer(), ends.to_vec(), LARGE);
    let both = &format!("{RESULT_OF_I} V");
    let mut all = vec![
        accepted(parted(&[23, 29]), "0 0 15 8 0 0 6 4", both),
        accepted(parted(&[29]), "0 0 21 12", both),
        accepted(parted(&[0, 23, 29]), "9 0 0 0 0 0 15 8 0 0 6 4", both),
        accepted(parted(&[23, 23, 29]), "0 0 15 8 9 0 0 0 0 0 6 4", both),
        accepted(parted(&[23, 29, 29]), "0 0 15 8 0 0 6 4 9 0 0 0", both),
        accepted(parted(&[22, 29]), "2 21 0 0 2 0 0 0", ""),
        accepted(parted(&[24, 29]), "2 23 0 0 3 4 0 0", ""),
    ];
    let wrong: [&[u64]; 11] = [
        &[],
        &[23],
        &[23, 28],
        &[23, 30],
        &[23, 22, 29],
        &[24, 23, 29],
        &[29, 23],
        &[30, 29],
        &[u64::MAX, 29],
        &[23, u64::MAX],
        &[23, 29, 28],
    ];
    all.extend(wrong.map(|ends| expecting(parted(ends), REFUSED)));
    all
}

fn no_ends() -> Vec<Request> {
    let parted = |bytes: &[u8], ends: &[u64]| {
        let nothing = Bounds {
            table: 0,
            workspace: 0,
            output: 0,
            steps: 0,
        };
        Backlog::with_ends(bytes.to_vec(), ends.to_vec(), nothing)
    };
    vec![
        expecting(parted(&[], &[]), "ok -"),
        expecting(parted(&[0x00], &[]), REFUSED),
        expecting(parted(&[], &[0]), "ok 9 0 0 0 -"),
        expecting(parted(&[], &[1]), REFUSED),
        expecting(parted(&[], &[0, 0]), "ok 9 0 0 0 9 0 0 0 -"),
        expecting(parted(&[], &[1, 0]), REFUSED),
    ]
}

/// "Fewer places for answers than ends": a place is four numbers.
fn places_for_answers() -> Vec<Request> {
    let lent = |streams: &[&str], answers, expected: &'static str| {
        let night = Backlog {
            answers,
            ..backlog(streams, LARGE)
        };
        expecting(night, expected)
    };
    vec![
        lent(&[], 0, "ok -"),
        lent(&[], 3, "ok -"),
        lent(&["V"], 0, REFUSED),
        lent(&["V"], 3, REFUSED),
        lent(&["V"], 4, "ok 0 0 6 4"),
        lent(&["V"], 7, "ok 0 0 6 4"),
        lent(&["V", I], 4, REFUSED),
        lent(&["V", I], 7, REFUSED),
        lent(&["V", I], 8, "ok 0 0 6 4 0 0 15 8"),
        lent(&["V", I], u64::MAX, "ok 0 0 6 4 0 0 15 8"),
    ]
}

/// 23 comes before all others.
fn orders() -> Vec<Request> {
    let too_long = || vec![0x00; STREAM_LIMIT + 1];
    let parted = |ends: &[u64]| Backlog::with_ends(too_long(), ends.to_vec(), LARGE);
    vec![
        expecting(parted(&[65_537]), "ok 1 0 0 0 -"),
        expecting(parted(&[65_536]), REFUSED),
        expecting(parted(&[65_538]), REFUSED),
        expecting(parted(&[65_536, 65_535, 65_537]), REFUSED),
        expecting(
            Backlog {
                answers: 3,
                ..parted(&[65_537])
            },
            REFUSED,
        ),
    ]
}

/// What a stream does not take is left to those behind it.
fn outputs() -> Vec<Request> {
    let middle = |output| backlog(&[I, M, I], with_output(output));
    let smaller = |output| backlog(&[I, I, "V", "V", "V"], with_output(output));
    let both = &format!("{RESULT_OF_I} {RESULT_OF_I}");
    vec![
        accepted(middle(30), "0 0 15 8 11 6 0 0 0 0 15 8", both),
        accepted(middle(29), "0 0 15 8 11 6 0 0 18 0 0 0", RESULT_OF_I),
        accepted(middle(15), "0 0 15 8 11 6 0 0 18 0 0 0", RESULT_OF_I),
        accepted(middle(14), "18 0 0 0 11 6 0 0 18 0 0 0", ""),
        accepted(middle(0), "18 0 0 0 11 6 0 0 18 0 0 0", ""),
        accepted(
            smaller(29),
            "0 0 15 8 18 0 0 0 0 0 6 4 0 0 6 4 18 0 0 0",
            &format!("{RESULT_OF_I} V V"),
        ),
        accepted(
            smaller(14),
            "18 0 0 0 18 0 0 0 0 0 6 4 0 0 6 4 18 0 0 0",
            "V V",
        ),
        accepted(
            smaller(48),
            "0 0 15 8 0 0 15 8 0 0 6 4 0 0 6 4 0 0 6 4",
            &format!("{both} V V V"),
        ),
        accepted(
            smaller(47),
            "0 0 15 8 0 0 15 8 0 0 6 4 0 0 6 4 18 0 0 0",
            &format!("{both} V V"),
        ),
    ]
}

/// "Each with the same table, steps and workspace."
fn other_bounds() -> Vec<Request> {
    let exact = Bounds {
        table: 52,
        workspace: 20,
        output: 30,
        steps: 8,
    };
    let twice = |change: fn(&mut Bounds)| {
        let mut bounds = exact;
        change(&mut bounds);
        backlog(&[I, I], bounds)
    };
    vec![
        expecting(twice(|_| ()), "ok 0 0 15 8 0 0 15 8"),
        expecting(twice(|bounds| bounds.table = 51), "ok 8 21 0 0 8 21 0 0 -"),
        expecting(
            twice(|bounds| bounds.workspace = 19),
            "ok 17 21 0 0 17 21 0 0 -",
        ),
        expecting(twice(|bounds| bounds.steps = 7), "ok 16 21 0 0 16 21 0 0 -"),
    ]
}

/// Neither namespaces nor definitions are kept for the next stream.
fn nothing_kept() -> Vec<Request> {
    let night = |streams: &[&str]| backlog(streams, LARGE);
    vec![
        accepted(
            night(&[I, "V 28 01"]),
            "0 0 15 8 0 0 8 5",
            &format!("{RESULT_OF_I} V 28 01"),
        ),
        accepted(
            night(&["V NS", "V ( define 28 01 85 )", "V NS"]),
            "0 0 14 5 14 6 0 0 0 0 14 5",
            "V NS V NS",
        ),
        accepted(
            night(&["V 28 01", "V NS"]),
            "0 0 8 5 0 0 14 5",
            "V 28 01 V NS",
        ),
    ]
}

/// One stream for each, between two that are accepted and take all of the output. Each place
/// is counted from the stream's own first byte.
fn every_number() -> Request {
    let bounds = Bounds {
        table: 4 * 300,
        workspace: 600,
        output: 21,
        steps: 100,
    };
    let refused = refused_streams();
    let mut streams = vec![spelled("V")];
    streams.extend(refused.iter().map(|(stream, _)| stream.clone()));
    streams.push(spelled(I));
    let numbers = refused.iter().map(|(_, refusal)| format!("{refusal} 0 0"));
    let numbers: Vec<String> = numbers.collect();
    let all = format!("0 0 6 4 {} 0 0 15 8", numbers.join(" "));
    accepted(
        Backlog::new(&streams, bounds),
        &all,
        &format!("V {RESULT_OF_I}"),
    )
}

/// With number and place.
fn refused_streams() -> Vec<(Vec<u8>, &'static str)> {
    let after_version = |bytes: &[u8]| [&VERSION[..], bytes].concat();
    let marker_65_536 = [&[0x7F][..], &[0xFF; 256], &[0x81, 0x00]].concat();
    let namespaces: Vec<u8> = (0..65).flat_map(|k| ns(MARKER + k, &[k])).collect();
    vec![
        (vec![0x00; STREAM_LIMIT + 1], "1 0"),
        (spelled("V ("), "2 6"),
        (spelled("V )"), "3 6"),
        (spelled("V 04"), "4 6"),
        (spelled("V 03 00"), "5 7"),
        (after_version(&nested(65, &[])), "6 70"),
        (after_version(&marker_65_536), "7 6"),
        (after_version(&[0x00; 297]), "8 302"),
        (vec![], "9 0"),
        (spelled("( 20 00 81 81 )"), "10 0"),
        (spelled(M), "11 6"),
        (spelled("V concat"), "12 6"),
        (spelled(r#"V ( ( ns 28 00 "A" ) )"#), "13 7"),
        (spelled("V ( define 28 01 85 )"), "14 6"),
        (spelled("V ( arg 80 )"), "15 6"),
        (after_version(&[0x00; 97]), "16 102"),
        (after_version(&array(&[0x00; 600])), "17 6"),
        (after_version(&array(&[0x00; 15])), "18 0"),
        (after_version(&namespaces), "19 518"),
        (spelled("V ( prefix* )"), "22 6"),
    ]
}

fn large_streams() -> Vec<Request> {
    let night = |streams: &[Vec<u8>], output| Backlog::new(streams, with_output(output));
    let one_more = [longest(), vec![0x00]].concat();
    vec![
        expecting(
            night(&[longest(), longest()], 131_064),
            "ok 0 0 65532 5 0 0 65532 5",
        ),
        expecting(
            night(&[longest(), longest()], 131_063),
            "ok 0 0 65532 5 18 0 0 0",
        ),
        expecting(
            night(&[longest(), longest(), longest()], OUTPUT_LIMIT),
            "ok 0 0 65532 5 0 0 65532 5 0 0 65532 5",
        ),
        accepted(
            night(&[spelled(I), one_more, spelled(I)], 30),
            "0 0 15 8 1 0 0 0 0 0 15 8",
            &format!("{RESULT_OF_I} {RESULT_OF_I}"),
        ),
    ]
}

fn many_streams() -> Vec<Request> {
    let i = spelled(I);
    let results = hex(&spelled(RESULT_OF_I)).repeat(1_000);
    let thousand = |output| Backlog::new(&vec![i.clone(); 1_000], with_output(output));
    let empty = Backlog::with_ends(vec![], vec![0; ENDS_LIMIT], LARGE);
    vec![
        expecting(
            thousand(15_000),
            format!("ok{} {results}", " 0 0 15 8".repeat(1_000)),
        ),
        expecting(
            thousand(14_999),
            format!("ok{} 18 0 0 0", " 0 0 15 8".repeat(999)),
        ),
        expecting(empty, format!("ok{} -", " 9 0 0 0".repeat(ENDS_LIMIT))),
    ]
}

/// The deepest evaluations, with others before and behind them.
fn deep_streams() -> Vec<Request> {
    let streams = [spelled(I), bytecode::deepest(), deepest(), spelled(I)];
    let night = Backlog::new(&streams, LARGE);
    let expected = "ok 0 0 15 8 6 12651 0 0 0 0 16 4102 0 0 15 8";
    vec![expecting(night, expected)]
}

/// As many bytes of results as `bulk_calls` keeps: however large the output is, that is enough.
fn large_results() -> Vec<Request> {
    let one = [&VERSION[..], &array(&[0xAA; 65_522])].concat();
    let streams = [&vec![one; 3][..], &vec![VERSION.to_vec(); 2]].concat();
    let night = |output| Backlog::new(&streams, with_output(output));
    let large = "ok 0 0 65532 5 0 0 65532 5 0 0 65532 5 0 0 6 4";
    vec![
        expecting(night(OUTPUT_LIMIT), format!("{large} 0 0 6 4")),
        expecting(night(OUTPUT_LIMIT + 1), format!("{large} 0 0 6 4")),
        expecting(night(u64::MAX), format!("{large} 0 0 6 4")),
        expecting(night(OUTPUT_LIMIT - 1), format!("{large} 18 0 0 0")),
        expecting(
            larger_results(OUTPUT_LIMIT),
            format!("ok{} 18 0 0 0", " 0 0 24026 10".repeat(8)),
        ),
    ]
}

/// Nine results, of which eight fit into the output that `bulk_calls` keeps.
fn larger_results(output: u64) -> Backlog {
    let defined = define(0, &array(&[0xAA; 8_000]));
    let one = after_beginning(&[&defined, &name(0).repeat(3)]);
    Backlog::new(&vec![one; 9], with_output(output))
}

/// More than `bulk_calls` keeps.
pub fn too_long() -> Vec<Vec<u8>> {
    let three = [longest(), longest(), longest(), vec![0x00]];
    let ends = vec![0; ENDS_LIMIT + 1];
    vec![
        Backlog::new(&three, LARGE).line(),
        Backlog::with_ends(vec![], ends, LARGE).line(),
        larger_results(OUTPUT_LIMIT + 1).line(),
        larger_results(u64::MAX).line(),
    ]
}

/// The words of a request, the ends above all.
fn words() -> Vec<Request> {
    let with_ends = |ends: &str, expected: &'static str| {
        let line = format!("backlog 0000 {ends} 400 400 400 400 400");
        Request::expecting(line.into_bytes(), expected)
    };
    let good = [
        "1,2",
        "0001,002",
        "00000000000000000000000000000000000001,2",
    ];
    let refused = ["18446744073709551616", "18446744073709551618", "-", "12"];
    let bad = [
        "", ",", "1,2,", ",1,2", "1,,2", "1,-", "-,2", "--", "1,+2", "1,2a", "1;2", "0x1,2",
        "1, 2", "1,2 ", "1.0,2", "a,b",
    ];
    let mut all: Vec<Request> = good
        .map(|ends| with_ends(ends, "ok 9 0 0 0 9 0 0 0 -"))
        .into();
    all.extend(refused.map(|ends| with_ends(ends, REFUSED)));
    all.extend(bad.map(|ends| with_ends(ends, "bad request")));
    all
}
