//! Canonical writing.

use crate::tree::{Content, Expression};

pub fn canonical(list: &[Expression]) -> Vec<u8> {
    let mut out = Vec::new();
    write_list(list, &mut out);
    out
}

fn write_list(list: &[Expression], out: &mut Vec<u8>) {
    for expression in list {
        match &expression.content {
            Content::Nil => out.push(0x00),
            Content::Form(elements) => {
                out.push(0x01);
                write_list(elements, out);
                out.push(0x02);
            }
            Content::Array(bytes) => write_array(bytes, out),
            Content::Integer(value) => out.push(0x80 | value),
            Content::Reference { marker, name } => write_reference(*marker, *name, out),
        }
    }
}

/// "Arrays below 64 bytes as small arrays; 64 to 255 as 03 C1 and one length byte;
/// above, 03 C2 and two."
pub fn write_array(bytes: &[u8], out: &mut Vec<u8>) {
    let length = bytes.len();
    match length {
        0..=63 => out.push(0xC0 | length as u8),
        64..=255 => out.extend([0x03, 0xC1, length as u8]),
        _ => out.extend([0x03, 0xC2, (length >> 8) as u8, length as u8]),
    }
    out.extend(bytes);
}

/// A marker from 127 on is 7F, then what is missing to it: as many FF as fit, and a rest
/// below FF, which may be 0.
fn write_reference(marker: u16, name: u8, out: &mut Vec<u8>) {
    match marker.checked_sub(0x7F) {
        None => out.push(marker as u8),
        Some(missing) => {
            out.push(0x7F);
            out.extend((0..missing / 0xFF).map(|_| 0xFF));
            out.push((missing % 0xFF) as u8);
        }
    }
    out.push(name);
}
