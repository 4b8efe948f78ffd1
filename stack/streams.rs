//! Streams at the limits of reading, and one past them.

use crate::pieces::{array, nested};

const STREAM_LIMIT: usize = 65_536;
const FORMS_LIMIT: usize = 64;
const LENGTHS_LIMIT: usize = 8;

pub struct Stream {
    pub name: &'static str,
    pub bytes: Vec<u8>,
    /// Whether it can be read.
    pub readable: bool,
}

pub fn all() -> Vec<Stream> {
    let stream = |readable| {
        move |(name, bytes)| Stream {
            name,
            bytes,
            readable,
        }
    };
    let at_limits = at_limits().into_iter().map(stream(true));
    at_limits
        .chain(past_limits().into_iter().map(stream(false)))
        .collect()
}

fn at_limits() -> Vec<(&'static str, Vec<u8>)> {
    let full_of = |unit: &[u8]| unit.repeat(STREAM_LIMIT / unit.len());
    let forms = nested(FORMS_LIMIT, &[]);
    let head = nested(FORMS_LIMIT, &array_in(LENGTHS_LIMIT, &[])).len();
    let longest = array_in(LENGTHS_LIMIT, &vec![0xAA; STREAM_LIMIT - head]);
    let lengths = |size: usize| array_in(LENGTHS_LIMIT, &vec![0xAA; size]);
    vec![
        ("empty", Vec::new()),
        ("eight nested lengths", lengths(300)),
        ("64 nested forms", forms.clone()),
        ("65,536 nils", full_of(&[0x00])),
        ("65,536 bytes of small arrays", full_of(&array(&[0xAA; 3]))),
        ("65,536 bytes of nested lengths", full_of(&lengths(9))),
        ("65,536 bytes of nested forms", full_of(&forms)),
        ("all three limits", nested(FORMS_LIMIT, &longest)),
    ]
}

fn past_limits() -> Vec<(&'static str, Vec<u8>)> {
    let cut_off = array_in(LENGTHS_LIMIT, &[])[..20].to_vec();
    vec![
        ("eight nested lengths, cut off", cut_off),
        ("nine nested lengths", array_in(LENGTHS_LIMIT + 1, &[0xAA])),
        ("65 nested forms", nested(FORMS_LIMIT + 1, &[])),
        ("65,537 nils", vec![0x00; STREAM_LIMIT + 1]),
    ]
}

/// An array with so many bytes 03 before it: its length is an array, whose length is one, and so
/// on. Each has two bytes; there are two at least.
fn array_in(lengths: usize, bytes: &[u8]) -> Vec<u8> {
    let size = (bytes.len() as u16).to_be_bytes();
    let marks = vec![0x03; lengths];
    let twos = [0x00, 0x02].repeat(lengths - 2);
    [&marks, &[0x82][..], &twos, &size, bytes].concat()
}
