//! Documents of msgpack and CBOR of a stream's shape: a form or a list as an array, an array as
//! bytes, a reference as a number of marker and name.

use crate::tree::{Content, Expression};

/// How a format spells the four kinds of item.
pub struct Format {
    pub nil: u8,
    pub number: fn(u32, &mut Vec<u8>),
    pub bytes: fn(usize, &mut Vec<u8>),
    pub list: fn(usize, &mut Vec<u8>),
}

#[cfg(any(msgpack, msgpuck, mpack))]
pub const MSGPACK: Format = Format {
    nil: 0xC0,
    number: |number, out| match number {
        0..=0x7F => out.push(number as u8),
        0x80..=0xFF => out.extend([0xCC, number as u8]),
        0x100..=0xFFFF => out.extend([0xCD, (number >> 8) as u8, number as u8]),
        _ => out.extend([&[0xCE][..], &number.to_be_bytes()].concat()),
    },
    bytes: |length, out| match length {
        0..=0xFF => out.extend([0xC4, length as u8]),
        _ => out.extend([0xC5, (length >> 8) as u8, length as u8]),
    },
    list: |length, out| match length {
        0..=0x0F => out.push(0x90 | length as u8),
        0x10..=0xFFFF => out.extend([0xDC, (length >> 8) as u8, length as u8]),
        _ => out.extend([&[0xDD][..], &(length as u32).to_be_bytes()].concat()),
    },
};

#[cfg(cbor)]
pub const CBOR: Format = Format {
    nil: 0xF6,
    number: |number, out| cbor_head(0x00, number as usize, out),
    bytes: |length, out| cbor_head(0x40, length, out),
    list: |length, out| cbor_head(0x80, length, out),
};

#[cfg(cbor)]
fn cbor_head(kind: u8, number: usize, out: &mut Vec<u8>) {
    match number {
        0..=0x17 => out.push(kind | number as u8),
        0x18..=0xFF => out.extend([kind | 0x18, number as u8]),
        0x100..=0xFFFF => out.extend([kind | 0x19, (number >> 8) as u8, number as u8]),
        _ => out.extend([&[kind | 0x1A][..], &(number as u32).to_be_bytes()].concat()),
    }
}

pub fn document(format: &Format, list: &[Expression]) -> Vec<u8> {
    let mut out = Vec::new();
    add_list(format, list, &mut out);
    out
}

fn add_list(format: &Format, list: &[Expression], out: &mut Vec<u8>) {
    (format.list)(list.len(), out);
    for expression in list {
        match &expression.content {
            Content::Nil => out.push(format.nil),
            Content::Form(elements) => add_list(format, elements, out),
            Content::Array(bytes) => {
                (format.bytes)(bytes.len(), out);
                out.extend(*bytes);
            }
            Content::Integer(value) => (format.number)(u32::from(*value), out),
            Content::Reference { marker, name } => {
                (format.number)(u32::from(*marker) << 8 | u32::from(*name), out)
            }
        }
    }
}
