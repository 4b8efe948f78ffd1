//! Where an instruction leads.

use crate::code::{self, Instruction};

pub struct Flow<'a> {
    /// The function that it calls, or that goes on in this one's place.
    pub function: Option<&'a str>,
    /// The instruction of the same function that it may jump to.
    pub jump: Option<u64>,
    /// Whether it jumps by a table.
    pub table: bool,
    /// Whether the instruction behind it may be next.
    pub on: bool,
}

/// Of an instruction of that function.
pub fn flow<'a>(name: &str, instruction: &'a Instruction) -> Result<Flow<'a>, String> {
    let kind = instruction.name.as_str();
    let mut flow = Flow {
        function: None,
        jump: None,
        table: false,
        on: !matches!(kind, "jmp" | "ret" | "ud2" | "hlt"),
    };
    if !instruction.is_call_or_jump() {
        return Ok(flow);
    }
    if kind == "jmp" && instruction.operands.starts_with('*') && instruction.symbols.is_empty() {
        flow.table = true;
        return Ok(flow);
    }
    match target(name, instruction).ok_or_else(|| instruction.told(name))? {
        Target::Function(function) => flow.function = Some(function),
        Target::Here(address) => flow.jump = Some(address),
    }
    Ok(flow)
}

enum Target<'a> {
    Function(&'a str),
    Here(u64),
}

/// Of a call or a jump. `objdump` writes an address as `1f <name+0xf>`.
fn target<'a>(name: &str, instruction: &'a Instruction) -> Option<Target<'a>> {
    if let [symbol] = &instruction.symbols[..] {
        return code::named(symbol).map(Target::Function);
    }
    let (address, label) = place(&instruction.operands)?;
    let function = code::without_offset(label);
    if function == name && instruction.name != "call" {
        return Some(Target::Here(address));
    }
    (function == label).then_some(Target::Function(function))
}

/// The address and the name, with the offset, of a place that `objdump` writes.
pub fn place(text: &str) -> Option<(u64, &str)> {
    let (address, label) = text.split_once(" <")?;
    let address = u64::from_str_radix(address, 16).ok()?;
    Some((address, label.strip_suffix('>')?))
}
