//! Expressions put together, for streams that are made on purpose. All names are of one
//! namespace.

pub const VERSION: [u8; 6] = [0x01, 0x20, 0x00, 0x81, 0x80, 0x02];
/// The marker of all names here.
pub const MARKER: u8 = 0x28;

pub const NS: u8 = 0x06;
pub const DEFINE: u8 = 0x09;
pub const CONCAT: u8 = 0x0A;
pub const SUBST: u8 = 0x0B;
pub const ARG: u8 = 0x0C;
pub const REST: u8 = 0x0D;

pub const PREFIX: u8 = 0x30;
pub const PREFIX_STAR: u8 = 0x31;
pub const POSTFIX: u8 = 0x32;
pub const POSTFIX_STAR: u8 = 0x33;
pub const ARITY: u8 = 0x34;

pub fn name(name: u8) -> Vec<u8> {
    vec![MARKER, name]
}

pub fn form(elements: &[&[u8]]) -> Vec<u8> {
    [&[0x01][..], &elements.concat(), &[0x02]].concat()
}

/// So many forms, one inside another, around something.
pub fn nested(count: usize, inside: &[u8]) -> Vec<u8> {
    [&vec![0x01; count], inside, &vec![0x02; count]].concat()
}

pub fn core(name: u8) -> Vec<u8> {
    vec![0x20, name]
}

pub fn core_form(core: u8, elements: &[&[u8]]) -> Vec<u8> {
    form(&[&[0x20, core], &elements.concat()])
}

pub fn ns(marker: u8, id: &[u8]) -> Vec<u8> {
    core_form(NS, &[&[marker, 0x00], &array(id)])
}

/// The version form, and the namespace of the names here.
pub fn beginning() -> Vec<u8> {
    [&VERSION[..], &ns(MARKER, &[0x41])].concat()
}

pub fn define(defined: u8, value: &[u8]) -> Vec<u8> {
    core_form(DEFINE, &[&name(defined), value])
}

pub fn subst(code: &[u8]) -> Vec<u8> {
    core_form(SUBST, &[code])
}

pub fn function(defined: u8, code: &[u8]) -> Vec<u8> {
    define(defined, &subst(code))
}

pub fn call(function: u8, arguments: &[u8]) -> Vec<u8> {
    form(&[&name(function), arguments])
}

pub fn concat(a: &[u8], b: &[u8]) -> Vec<u8> {
    core_form(CONCAT, &[a, b])
}

pub fn arg(n: u8) -> Vec<u8> {
    core_form(ARG, &[&[0x80 | n]])
}

pub fn rest(n: u8) -> Vec<u8> {
    core_form(REST, &[&[0x80 | n]])
}

/// A form of an arity list: the references take so many operands.
pub fn arity(operands: u8, references: &[&[u8]]) -> Vec<u8> {
    form(&[&[0x80 | operands], &references.concat()])
}

/// With the forms of its arity list, and its flat list.
pub fn prefix_star(arities: &[&[u8]], flat_list: &[&[u8]]) -> Vec<u8> {
    core_form(PREFIX_STAR, &[&form(arities), &flat_list.concat()])
}

pub fn prefix(flat_list: &[&[u8]]) -> Vec<u8> {
    core_form(PREFIX, flat_list)
}

/// Canonically.
pub fn array(bytes: &[u8]) -> Vec<u8> {
    let (high, low) = ((bytes.len() >> 8) as u8, bytes.len() as u8);
    let head = match bytes.len() {
        0..=63 => vec![0xC0 | low],
        64..=255 => vec![0x03, 0xC1, low],
        _ => vec![0x03, 0xC2, high, low],
    };
    [&head, bytes].concat()
}

/// An array of one byte, whose length is written with that many bytes.
pub fn long_length(size: usize) -> Vec<u8> {
    let (high, low) = ((size >> 8) as u8, size as u8);
    let zeros = vec![0x00; size - 1];
    [&[0x03, 0x03, 0xC2, high, low][..], &zeros, &[0x01, 0x42]].concat()
}
