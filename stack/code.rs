//! The code of an object file: its functions, instruction by instruction, as `objdump` writes it.

use std::collections::BTreeMap;
use std::process::Command;

pub struct Instruction {
    pub address: u64,
    pub name: String,
    pub operands: String,
    /// The functions, variables or sections whose addresses the linker puts in.
    pub symbols: Vec<String>,
    /// The place in the code that it means, if there is one, as `1f <name+0xf>`.
    pub place: Option<String>,
}

/// They stand before an instruction's name, and don't change where a call or a jump leads.
const PREFIXES: [&str; 5] = ["notrack", "bnd", "addr32", "data16", "rex.W"];

/// By their names.
pub type Functions = BTreeMap<String, Vec<Instruction>>;

/// Fails where a function could be called in a way that does not show.
pub fn functions(object: &str) -> Result<Functions, String> {
    let functions = read(object)?;
    for (name, instructions) in &functions {
        if let Some(taken) = instructions
            .iter()
            .find(|each| each.takes_address(&functions))
        {
            return Err(taken.told(name));
        }
    }
    Ok(functions)
}

/// Fails where the data has a function's address.
pub fn read(object: &str) -> Result<Functions, String> {
    let functions = listed(&objdump("-dr", object)?)?;
    if functions.is_empty() {
        return Err("no code".to_string());
    }
    tables_only(&objdump("-r", object)?, &functions)?;
    Ok(functions)
}

fn objdump(what: &str, object: &str) -> Result<String, String> {
    let done = Command::new("objdump")
        .args([what, "--wide", "--no-show-raw-insn", object])
        .output()
        .map_err(|error| format!("objdump: {error}"))?;
    if !done.status.success() {
        return Err(String::from_utf8_lossy(&done.stderr).into_owned());
    }
    Ok(String::from_utf8_lossy(&done.stdout).into_owned())
}

fn listed(text: &str) -> Result<Functions, String> {
    let mut functions = Functions::new();
    let mut name = String::new();
    for line in text.lines() {
        if let Some((_, start)) = line.split_once(" <").filter(|_| line.ends_with(">:")) {
            name = start.trim_end_matches(">:").to_string();
            if functions.insert(name.clone(), Vec::new()).is_some() {
                return Err(format!("{name} twice"));
            }
        } else if let Some(read) = instruction(line) {
            functions.entry(name.clone()).or_default().push(read);
        }
    }
    Ok(functions)
}

/// A line has the address, the instruction, and for all that the linker puts in its kind and name.
fn instruction(line: &str) -> Option<Instruction> {
    let mut parts = line.split('\t');
    let address = parts.next()?.trim().strip_suffix(':')?;
    let whole = parts.next()?;
    let (code, place) = whole.split_once(" # ").unwrap_or((whole, ""));
    let mut code = code.trim();
    while let Some((_, rest)) = code
        .split_once(' ')
        .filter(|(word, _)| PREFIXES.contains(word))
    {
        code = rest.trim_start();
    }
    let (name, operands) = code.split_once(' ').unwrap_or((code, ""));
    Some(Instruction {
        address: u64::from_str_radix(address, 16).ok()?,
        name: name.to_string(),
        operands: operands.trim().to_string(),
        symbols: parts.skip(1).step_by(2).map(str::to_string).collect(),
        place: (!place.is_empty()).then(|| place.trim().to_string()),
    })
}

impl Instruction {
    pub fn text(&self) -> String {
        format!("{} {}", self.name, self.operands)
    }

    /// With its place in a function.
    pub fn told(&self, function: &str) -> String {
        format!("{function} at {:x}: {}", self.address, self.text())
    }

    pub fn is_call_or_jump(&self) -> bool {
        self.name == "call" || self.name.starts_with('j')
    }

    /// Whether a function could be called by this elsewhere.
    fn takes_address(&self, functions: &Functions) -> bool {
        let is_function = |symbol: &String| functions.contains_key(bare(symbol));
        !self.is_call_or_jump() && self.symbols.iter().any(is_function)
    }
}

/// A symbol without its offset. A function that other files see has one by its name, any other one
/// by its section.
fn bare(symbol: &str) -> &str {
    let name = symbol.strip_prefix(".text.").unwrap_or(symbol);
    without_offset(name)
}

/// A name may have these signs too.
pub fn without_offset(place: &str) -> &str {
    match place.rfind(['+', '-']) {
        Some(at) if place[at + 1..].starts_with("0x") => &place[..at],
        _ => place,
    }
}

/// The function that a call or a jump leads to: its symbol stands four bytes before the next
/// instruction.
pub fn named(symbol: &str) -> Option<&str> {
    let name = bare(symbol);
    let whole = symbol.strip_suffix("-0x4")?.ends_with(name);
    (whole && !name.starts_with('.')).then_some(name)
}

/// Addresses of code in the data are those of a function's own tables of jumps, or for unwinding.
fn tables_only(text: &str, functions: &Functions) -> Result<(), String> {
    let mut section = "";
    for line in text.lines() {
        if let Some(start) = line.strip_prefix("RELOCATION RECORDS FOR [") {
            section = start.trim_end_matches("]:");
        }
        let function = bare(line.split_whitespace().nth(2).unwrap_or(""));
        let table = section.strip_prefix(".rodata.") == Some(function);
        let is_code = function == ".text" || functions.contains_key(function);
        let unwinds = [".eh_frame", ".debug_frame"].contains(&section);
        let elsewhere = !table && !section.starts_with(".text") && !unwinds;
        if is_code && elsewhere {
            return Err(format!("{section} has the address of {function}"));
        }
    }
    Ok(())
}
