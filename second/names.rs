//! The core namespace's names that evaluation knows (document 01, "Evaluation"; source
//! document 000, section 3.1.7).

use crate::tree::{Content, Expression};

pub const CORE: u16 = 0x20;
pub const VERSION: u8 = 0x00;

pub const NS: u8 = 0x06;
pub const DEFINE: u8 = 0x09;
pub const CONCAT: u8 = 0x0A;
pub const SUBST: u8 = 0x0B;
pub const ARG: u8 = 0x0C;
pub const REST: u8 = 0x0D;

pub const PREFIX: u8 = 0x30;
pub const PREFIX_STAR: u8 = 0x31;
const POSTFIX: u8 = 0x32;
const POSTFIX_STAR: u8 = 0x33;
const ARITY: u8 = 0x34;

/// "The last six from ns on are function names."
pub fn is_function_name(marker: u16, name: u8) -> bool {
    marker == CORE && matches!(name, NS | DEFINE | CONCAT | SUBST | ARG | REST)
}

/// "A bytecode name (any of 3.1.7)."
pub fn is_bytecode_name(marker: u16, name: u8) -> bool {
    marker == CORE && matches!(name, PREFIX | PREFIX_STAR | POSTFIX | POSTFIX_STAR | ARITY)
}

/// The core name that a form is headed by, as written.
pub fn core_head(expression: &Expression) -> Option<u8> {
    match expression.elements().first()?.content {
        Content::Reference { marker: CORE, name } => Some(name),
        _ => None,
    }
}
