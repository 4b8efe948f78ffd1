//! Streams as text: `( )` are the bytes 01 02, `V` is the version form, `NS` associates marker
//! 28, core names stand as words, "ab" is a small array, and other words are bytes in hex.

use crate::pieces::{
    array, beginning, core, ARG, ARITY, CONCAT, DEFINE, NS, POSTFIX, POSTFIX_STAR, PREFIX,
    PREFIX_STAR, REST, SUBST, VERSION,
};

const NAMES: [(&str, u8); 11] = [
    ("ns", NS),
    ("define", DEFINE),
    ("concat", CONCAT),
    ("subst", SUBST),
    ("arg", ARG),
    ("rest", REST),
    ("prefix", PREFIX),
    ("prefix*", PREFIX_STAR),
    ("postfix", POSTFIX),
    ("postfix*", POSTFIX_STAR),
    ("arity", ARITY),
];

pub fn spelled(text: &str) -> Vec<u8> {
    text.split_whitespace().flat_map(word).collect()
}

fn word(word: &str) -> Vec<u8> {
    let quoted = word
        .strip_prefix('"')
        .and_then(|rest| rest.strip_suffix('"'));
    let named = NAMES.iter().find(|(name, _)| *name == word);
    match (word, quoted, named) {
        ("(", ..) => vec![0x01],
        (")", ..) => vec![0x02],
        ("V", ..) => VERSION.to_vec(),
        ("NS", ..) => beginning().split_off(VERSION.len()),
        (_, Some(text), _) => array(text.as_bytes()),
        (_, _, Some((_, name))) => core(*name),
        _ => vec![u8::from_str_radix(word, 16).expect("a word of the notation")],
    }
}
