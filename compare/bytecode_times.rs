//! Streams with bytecode whose time is measured: of each kind the worst that was thought of.

use crate::limits::STREAM_LIMIT;
use crate::pieces::{
    arity, call, core, form, function, name, prefix, prefix_star, PREFIX_STAR, VERSION,
};
use crate::times::{after_beginning, Kind};

const OPERATOR: u8 = 0x40;
/// How many made forms, one inside another, a flat list has room for: an arity is below 64.
const MADE: u8 = 20;

pub const KINDS: [Kind; 9] = [
    Kind {
        name: "a long arity list",
        stream: |size| after_beginning(&prefix_star(&[&arity(1, &[&names(1_500 * size)])], &[])),
    },
    Kind {
        name: "references behind a long arity list",
        stream: |size| {
            let references = [0x10, 0x00].repeat(600 * size);
            let arities = arity(1, &[&names(500 * size)]);
            after_beginning(&prefix_star(&[&arities], &[&references]))
        },
    },
    Kind {
        name: "a long flat list",
        stream: |size| after_beginning(&prefix_star(&[], &[&vec![0x00; 1_500 * size]])),
    },
    Kind {
        name: "operators of one operand",
        stream: |size| {
            let made = [&name(OPERATOR)[..], &[0x80]].concat();
            let arities = arity(1, &[&name(OPERATOR)]);
            after_beginning(&prefix_star(&[&arities], &[&made.repeat(280 * size)]))
        },
    },
    Kind {
        name: "operators of 63 operands",
        stream: |size| {
            let made = [&name(OPERATOR)[..], &[0x80; 63]].concat();
            let arities = arity(63, &[&name(OPERATOR)]);
            after_beginning(&prefix_star(&[&arities], &[&made.repeat(18 * size)]))
        },
    },
    Kind {
        name: "a long arity list in code called often",
        stream: |size| {
            let code = prefix_star(&[&arity(1, &[&names(500 * size)])], &[&[0x80]]);
            after_beginning(&[function(0, &code), call(0, &[]).repeat(500 * size)].concat())
        },
    },
    Kind {
        name: "many bytecode forms",
        stream: |size| after_beginning(&prefix_star(&[], &[]).repeat(600 * size)),
    },
    Kind {
        name: "`prefix` forms in a prefix* form",
        stream: |size| after_beginning(&prefix_star(&[], &[&prefix(&[]).repeat(700 * size)])),
    },
    Kind {
        name: "long code in made prefix* forms",
        stream: |size| {
            let code = form(&[&function(1, &vec![0x00; 2_000 * size])]);
            let bytecode = (0..3 * size).fold(code, |inside, _| called_inside(&inside));
            after_beginning(&[function(0, &[0x80]), bytecode].concat())
        },
    },
];

/// So many references, none of which has the marker 10.
fn names(count: usize) -> Vec<u8> {
    let reference = |k: usize| [0x21 + (k >> 8) as u8, k as u8];
    (0..count).flat_map(reference).collect()
}

/// Each result is a call, so that no value is deep.
fn called_inside(inside: &[u8]) -> Vec<u8> {
    made_inside(&name(0), [&[], &[]], inside)
}

/// A prefix* form with `MADE` more in it, one inside another, and with something in the
/// innermost. Each flat list begins with `first`; each arity list names others around prefix*.
fn made_inside(first: &[u8], [before, after]: [&[u8]; 2], inside: &[u8]) -> Vec<u8> {
    let list = |operands: u8| form(&[&arity(operands, &[before, &core(PREFIX_STAR), after])]);
    let mut flat_list = [first, inside].concat();
    let mut operands = 63;
    for made in 0..MADE {
        flat_list = [first, &core(PREFIX_STAR), &list(operands), &flat_list].concat();
        operands = 3 * made + 3;
    }
    form(&[&core(PREFIX_STAR), &list(operands), &flat_list])
}

/// A `prefix` form inside some 800 prefix* forms, of references that none of them names. A
/// look-up that asked one arity list after the other would pass by all of them.
pub fn deepest() -> [(&'static str, Vec<u8>); 3] {
    [
        ("short arity lists around", deep(57, [&[], &[]])),
        (
            "names alike in their low bits",
            deep(40, LOW_BITS_ALIKE),
        ),
        (
            "names alike in their high bits",
            deep(30, HIGH_BITS_ALIKE),
        ),
    ]
}

/// Where references are searched by bits, the look-up of `REFERENCE` passes by all of these,
/// and by prefix* between them.
const REFERENCE: [u8; 2] = [0x50, 0x31];
const LOW_BITS_ALIKE: [&[u8]; 2] = [
    &[
        0x11, 0x31, 0x13, 0x31, 0x15, 0x31, 0x17, 0x31, 0x19, 0x31, 0x1B, 0x31, 0x1D, 0x31, 0x1F,
        0x31, 0x21, 0x31, 0x22, 0x31, 0x24, 0x31, 0x28, 0x31,
    ],
    &[0x30, 0x31, 0x10, 0x31],
];
const HIGH_BITS_ALIKE: [&[u8]; 2] = [
    &[],
    &[
        0x50, 0xF0, 0x50, 0xF1, 0x50, 0xF2, 0x50, 0xF3, 0x50, 0xF4, 0x50, 0xF5, 0x50, 0xF6, 0x50,
        0xF7, 0x50, 0xF8, 0x50, 0xF9, 0x50, 0xFA, 0x50, 0xFB, 0x50, 0xFC, 0x50, 0xFD, 0x50, 0xFE,
        0x50, 0xFF, 0x50, 0x71, 0x50, 0x11, 0x50, 0x21, 0x50, 0x39, 0x50, 0x35, 0x50, 0x33, 0x50,
        0x30,
    ],
];

/// So many written prefix* forms, each with `MADE` in it; and as many references as there is
/// room for.
fn deep(written: usize, others: [&[u8]; 2]) -> Vec<u8> {
    let stream = |references: &[u8]| {
        let inside = prefix(&[&[0x80], references]);
        let around = |inside: Vec<u8>, _| made_inside(&[0x80], others, &inside);
        [VERSION.to_vec(), (0..written).fold(inside, around)].concat()
    };
    let room = STREAM_LIMIT - stream(&[]).len();
    stream(&REFERENCE.repeat(room / REFERENCE.len()))
}
