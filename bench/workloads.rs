//! The streams that are timed.

use crate::pieces::{arg, array, beginning, call, concat, define, form, function, name, rest};

pub struct Workload {
    pub name: &'static str,
    pub stream: Vec<u8>,
    /// Nearly all of it is the bytes of one array.
    pub large_array: bool,
}

/// A ship's port call: a vocabulary, two words, an arrival and a delay.
fn message(ship: &str) -> Vec<u8> {
    let word = |k: u8, text: &str| define(k, &array(text.as_bytes()));
    let fact = |k: u8, time: &str| form(&[&name(k), &name(1), &name(2), &array(time.as_bytes())]);
    [
        word(1, ship),
        word(2, "Kesterhaven 4"),
        fact(16, "2031-04-17T05:30Z"),
        fact(17, "2031-04-17T07:45Z"),
    ]
    .concat()
}

/// Forms inside forms, each with an element besides.
fn deep(count: usize) -> Vec<u8> {
    (0..count).fold(vec![0x80], |inside, _| form(&[&[0x81], &inside]))
}

/// An array to which so many are joined, one by one.
fn joined(count: usize) -> Vec<u8> {
    (0..count).fold(array(b"berth"), |joined, _| concat(&joined, &array(b"7")))
}

/// An array with its length in one of the ways in which a canonical stream has none.
fn written_longer(bytes: &[u8], way: usize) -> Vec<u8> {
    let length = bytes.len() as u8;
    let head = match way % 4 {
        0 => vec![0x03, 0x80 | length],
        1 => vec![0x03, 0xC1, length],
        2 => vec![0x03, 0xC2, 0x00, length],
        _ => vec![0x03, 0xC4, 0x00, 0x00, 0x00, length],
    };
    [&head, bytes].concat()
}

/// A reference whose marker is written with 7F.
const LONG_REFERENCE: [u8; 4] = [0x7F, 0xFF, 0x8C, 0x1A];

/// What follows the version and the vocabulary.
fn bodies() -> Vec<(&'static str, Vec<u8>)> {
    let large: Vec<u8> = (0..32_700).map(|k| (k % 251) as u8).collect();
    let facts = form(&[
        &name(16),
        &array(b"Halvard Strand"),
        &[0x84],
        &array(b"05:30Z"),
    ]);
    let words = (0..=255).flat_map(|k| define(k, &array(b"berth")));
    let shape = function(1, &form(&[&name(16), &arg(0), &array(b"berth"), &rest(1)]));
    let calls = call(1, &[&array(b"Strand")[..], &[0x81, 0x82]].concat());
    let longer = (0..3_600).flat_map(|way| written_longer(b"pilot on board", way));
    vec![
        ("small message", message("Halvard Strand")),
        ("large message", facts.repeat(1_000)),
        ("one large array", array(&large)),
        (
            "large array in a form",
            form(&[&name(1), &array(&large[..32_000])]),
        ),
        ("nils", vec![0x00; 65_500]),
        ("small integers", vec![0x85; 65_500]),
        ("deep forms", deep(60).repeat(6)),
        ("flat forms", form(&[&[0x81], &[0x82]]).repeat(6_000)),
        ("references", [0x29, 0x01].repeat(30_000)),
        ("long references", LONG_REFERENCE.repeat(16_000)),
        (
            "defined words",
            [define(1, &[0x85]), name(1).repeat(25_000)].concat(),
        ),
        ("definitions", words.collect()),
        ("calls", [shape, calls.repeat(650)].concat()),
        ("long concat", joined(60)),
        ("canonical arrays", array(b"pilot on board").repeat(4_000)),
        ("arrays of 200 bytes", array(&[0x41; 200]).repeat(150)),
        ("arrays written longer", longer.collect()),
    ]
}

pub fn all() -> Vec<Workload> {
    let whole = |(name, body): (&'static str, Vec<u8>)| Workload {
        name,
        stream: [beginning(), body].concat(),
        large_array: name == "one large array",
    };
    let nils = Workload {
        name: "65,536 nils",
        stream: vec![0x00; 65_536],
        large_array: false,
    };
    bodies().into_iter().map(whole).chain([nils]).collect()
}

/// The small message of so many ships, whose names have 14 bytes too.
pub fn small_messages(count: usize) -> Vec<Vec<u8>> {
    let ships = (0..count).map(|k| format!("Halvard {k:06}"));
    ships
        .map(|ship| [beginning(), message(&ship)].concat())
        .collect()
}
