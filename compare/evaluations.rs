//! Random streams to evaluate, by a grammar of their own: definitions, functions, calls,
//! namespaces, bytecode and scopes one inside another, and now and then anything in a wrong
//! place.

mod bytecode;
mod bytecode_limits;

use crate::pieces::{self, ARG, CONCAT, DEFINE, NS, REST, SUBST, VERSION};
use crate::random::Random;
use crate::streams::{damage, random_stream, ARRAY_SIZES};
use bytecode::Arities;

/// First expressions that are not the six bytes, or not headed by `version` at all.
const OTHER_BEGINNINGS: [&[u8]; 9] = [
    &[],
    &[0x00],
    &[0x20, 0x00],
    &[0x01, 0x02],
    &[0x01, 0x20, 0x00, 0x02],
    &[0x01, 0x20, 0x00, 0x81, 0x81, 0x02],
    &[0x01, 0x20, 0x00, 0x81, 0x80, 0x80, 0x02],
    &[0x01, 0x20, 0x00, 0xC1, 0x01, 0xC0, 0x02],
    &[0x01, 0x01, 0x20, 0x00, 0x81, 0x80, 0x02, 0x02],
];

const FUNCTION_NAMES: [u8; 6] = [NS, DEFINE, CONCAT, SUBST, ARG, REST];
/// Core names that stand for themselves, bytecode names but prefix* among them.
const PLAIN_NAMES: [u8; 11] = [
    0x00, 0x01, 0x02, 0x05, 0x07, 0x08, 0x0E, 0x30, 0x32, 0x33, 0x34,
];

/// The markers that streams associate, as they are written.
const MARKERS: [&[u8]; 7] = [
    &[0x28],
    &[0x29],
    &[0x10],
    &[0x7E],
    &[0x7F, 0x00],
    &[0x7F, 0xFE],
    &[0x7F, 0xFF, 0x05],
];

pub fn random_evaluation(random: &mut Random) -> Vec<u8> {
    match random.below(100) {
        0..=39 => program(random, None),
        40..=67 => erring(random),
        68..=76 => damaged(random),
        77..=80 => [&VERSION[..], &random_stream(random).bytes].concat(),
        81..=84 => beginning_otherwise(random),
        85 => random_stream(random).bytes,
        _ => at_a_limit(random),
    }
}

/// The stream, begun with the version form in the place of its first bytes.
pub fn with_version(mut bytes: Vec<u8>) -> Vec<u8> {
    bytes.splice(..VERSION.len(), VERSION);
    bytes
}

fn program(random: &mut Random, wrong: Option<usize>) -> Vec<u8> {
    let mut maker = Maker::new(random, wrong);
    for _ in 0..maker.random.pick(&[0, 1, 1, 2, 2, 3]) {
        maker.ns();
    }
    let count = maker.random.below(15);
    maker.list(count, Place::Top, 5);
    maker.bytes
}

/// One expression in some is a wrong one.
fn erring(random: &mut Random) -> Vec<u8> {
    let rate = random.between(3, 40);
    program(random, Some(rate))
}

fn damaged(random: &mut Random) -> Vec<u8> {
    let mut bytes = match random.one_in(5) {
        true => at_a_limit(random),
        false => program(random, None),
    };
    for _ in 0..random.between(1, 2) {
        damage(random, &mut bytes);
    }
    bytes
}

fn beginning_otherwise(random: &mut Random) -> Vec<u8> {
    let rest = program(random, None).split_off(VERSION.len());
    [random.pick(&OTHER_BEGINNINGS), &rest].concat()
}

/// About as many definitions, namespaces, codes, forms or arguments as there may be.
fn at_a_limit(random: &mut Random) -> Vec<u8> {
    let mut maker = Maker::new(random, None);
    maker.ns();
    match maker.random.below(9) {
        _ if maker.bytecode.is_some() => maker.bytecode_at_a_limit(),
        0 => maker.many_definitions(),
        1 => maker.many_namespaces(),
        2 => maker.many_codes(),
        3 => maker.deep_by_definitions(),
        4 => maker.deep_by_calls(),
        5 => maker.doubled_array(),
        6 => maker.many_calls(),
        7 => maker.many_arguments(),
        _ => maker.long_lengths(),
    }
    let count = maker.random.below(3);
    maker.list(count, Place::Top, 3);
    maker.bytes
}

/// Where an expression stands: what is allowed there depends on it.
#[derive(Clone, Copy, PartialEq)]
enum Place {
    Top,
    DataForm,
    /// Among arguments or in code.
    Inner,
    /// A define's value or an operand.
    Single,
}

/// An index into `MARKERS`, and a name.
type Reference = (usize, u8);

#[derive(Clone, Copy, PartialEq)]
enum Meaning {
    Array,
    Other,
    /// With the number of arguments that its code counts on.
    Function(usize),
}

/// Writes expressions, with what is visible where it writes. What it believes of them
/// only makes good streams likely.
struct Maker<'r> {
    random: &'r mut Random,
    bytes: Vec<u8>,
    wrong: Option<usize>,
    associated: Vec<usize>,
    ids: usize,
    visible: Vec<(Reference, Meaning)>,
    /// How many arguments the nearest enclosing code counts on.
    arguments: Option<usize>,
    /// One expression in so many is a bytecode form.
    bytecode: Option<usize>,
    /// Those of the prefix* forms around, the nearest last.
    arities: Vec<Arities>,
}

impl<'r> Maker<'r> {
    fn new(random: &'r mut Random, wrong: Option<usize>) -> Maker<'r> {
        let bytecode = random.one_in(3).then(|| random.between(2, 9));
        Maker {
            random,
            bytes: VERSION.to_vec(),
            wrong,
            associated: Vec::new(),
            ids: 0,
            visible: Vec::new(),
            arguments: None,
            bytecode,
            arities: Vec::new(),
        }
    }

    // Forms and lists.

    fn open(&mut self) {
        self.bytes.push(0x01);
    }

    fn close(&mut self) {
        self.bytes.push(0x02);
    }

    fn core(&mut self, name: u8) {
        self.bytes.extend([0x20, name]);
    }

    /// The beginning of a form that is headed by a core name.
    fn open_core(&mut self, name: u8) {
        self.open();
        self.core(name);
    }

    fn reference(&mut self, (marker, name): Reference) {
        self.bytes.extend(MARKERS[marker]);
        self.bytes.push(name);
    }

    /// Expressions; what they define ends with them.
    fn list(&mut self, count: usize, place: Place, depth: usize) {
        let visible = self.visible.len();
        for _ in 0..count {
            self.expression(place, depth);
        }
        self.visible.truncate(visible);
    }

    fn expression(&mut self, place: Place, depth: usize) {
        if self.errs() {
            return self.wrong_expression(place, depth);
        }
        let Some(inside) = depth.checked_sub(1) else {
            return self.atom();
        };
        if self.bytecode.is_some_and(|rate| self.random.one_in(rate)) {
            return self.bytecode_form(inside);
        }
        match self.random.below(20) {
            0 | 1 => self.atom(),
            2..=5 => self.visible_value(),
            6 | 7 => self.data_form(inside),
            8..=11 => self.define_if_allowed(place, inside),
            12 | 13 => self.concat(inside),
            14..=16 => self.call(inside),
            17 | 18 => self.argument(place),
            _ if place == Place::Top => self.ns(),
            _ => self.data_form(inside),
        }
    }

    fn errs(&mut self) -> bool {
        self.wrong.is_some_and(|rate| self.random.one_in(rate))
    }

    fn data_form(&mut self, depth: usize) {
        self.open();
        if self.random.one_in(6) {
            let name = self.random.pick(&PLAIN_NAMES);
            self.core(name);
        }
        let count = self.random.below(5);
        self.list(count, Place::DataForm, depth);
        self.close();
    }

    // Atoms.

    fn atom(&mut self) {
        match self.random.below(8) {
            0 => self.bytes.push(0x00),
            1 | 2 => self.integer(),
            3..=5 => self.array(),
            6 => self.plain_reference(),
            _ => self.any_reference(),
        }
    }

    fn integer(&mut self) {
        let value = self.random.pick(&[0, 1, 2, 3, 63]);
        self.bytes.push(0x80 | value);
    }

    fn array(&mut self) {
        let size = match self.random.below(30) {
            0 => self.random.pick(&ARRAY_SIZES),
            _ => self.random.below(5),
        };
        self.array_of(size);
    }

    fn array_of(&mut self, size: usize) {
        let (high, low) = ((size >> 8) as u8, size as u8);
        match self.random.below(6) {
            0 => self.bytes.extend([0x03, 0xC2, high, low]),
            1 => self.bytes.extend([0x03, 0xC4, 0, 0, high, low]),
            2 => self.bytes.extend([0x03, 0x03, 0x82, high, low]),
            _ if size > 63 => self.bytes.extend([0x03, 0xC2, high, low]),
            _ => self.bytes.push(0xC0 | low),
        }
        for _ in 0..size {
            let byte = self.random.byte();
            self.bytes.push(byte);
        }
    }

    fn plain_reference(&mut self) {
        let name = self.random.pick(&PLAIN_NAMES);
        self.core(name);
    }

    /// Defined or not, but no function name.
    fn any_reference(&mut self) {
        let marker = self.random.below(MARKERS.len());
        let name = self.name();
        match self.meaning((marker, name)) {
            Some(Meaning::Function(_)) => self.bytes.push(0x00),
            _ => self.reference((marker, name)),
        }
    }

    /// Few, so that definitions are met again and shadowed.
    fn name(&mut self) -> u8 {
        self.random.pick(&[0, 0, 0, 1, 1, 2, 0xFF])
    }

    // Definitions.

    fn meaning(&self, reference: Reference) -> Option<Meaning> {
        let latest = self.visible.iter().rev().find(|(at, _)| *at == reference);
        latest.map(|(_, meaning)| *meaning)
    }

    /// A visible reference with such a meaning.
    fn visible_as(&mut self, wanted: fn(Meaning) -> bool) -> Option<(Reference, Meaning)> {
        let all: Vec<(Reference, Meaning)> = self.visible.clone();
        let latest = |(at, meaning): &&(Reference, Meaning)| self.meaning(*at) == Some(*meaning);
        let fitting: Vec<_> = all
            .iter()
            .filter(latest)
            .filter(|(_, meaning)| wanted(*meaning))
            .collect();
        match fitting.is_empty() {
            true => None,
            false => Some(*fitting[self.random.below(fitting.len())]),
        }
    }

    fn visible_value(&mut self) {
        match self.visible_as(|meaning| !matches!(meaning, Meaning::Function(_))) {
            Some((reference, _)) => self.reference(reference),
            None => self.atom(),
        }
    }

    /// A namespace of a marker that no reference has borne, if one is left.
    fn ns(&mut self) {
        let free = (0..MARKERS.len()).find(|marker| !self.is_borne(*marker));
        match free {
            Some(marker) => {
                self.associated.push(marker);
                let size = self.random.pick(&[2, 2, 2, 2, 63, 64]);
                self.ns_of(MARKERS[marker], size);
            }
            None => self.atom(),
        }
    }

    /// Judged by the bytes alone, so now and then wrongly.
    fn is_borne(&self, marker: usize) -> bool {
        let written = MARKERS[marker];
        let mut windows = self.bytes.windows(written.len());
        windows.any(|window| window == written)
    }

    /// With an id of at least two bytes that no other such form has.
    fn ns_of(&mut self, marker: &[u8], size: usize) {
        self.open_core(NS);
        self.bytes.extend(marker);
        let name = self.name();
        self.bytes.push(name);
        self.array_of(size);
        let end = self.bytes.len();
        self.bytes[end - size..].fill(0xAA);
        self.bytes[end - 1] = self.ids as u8;
        self.ids += 1;
        self.close();
    }

    fn define_if_allowed(&mut self, place: Place, depth: usize) {
        let allowed = matches!(place, Place::Top | Place::DataForm);
        if !allowed || self.associated.is_empty() {
            return self.data_form(depth);
        }
        let reference = self.associated_reference();
        self.define(reference, depth);
    }

    fn associated_reference(&mut self) -> Reference {
        let associated = self.associated.clone();
        (self.random.pick(&associated), self.name())
    }

    fn define(&mut self, reference: Reference, depth: usize) {
        self.open_core(DEFINE);
        self.definition(reference, depth);
        self.close();
    }

    /// The reference and its value.
    fn definition(&mut self, reference: Reference, depth: usize) {
        self.reference(reference);
        let meaning = match self.random.below(5) {
            0 | 1 => Meaning::Function(self.substitution(depth)),
            2 | 3 => {
                self.array_value(depth);
                Meaning::Array
            }
            _ => {
                self.expression(Place::Single, depth);
                Meaning::Other
            }
        };
        self.visible.push((reference, meaning));
    }

    /// A `subst` form; gives the number of arguments that its code counts on.
    fn substitution(&mut self, depth: usize) -> usize {
        let arguments = self.random.pick(&[0, 1, 1, 2, 3]);
        let count = self.random.pick(&[0, 1, 1, 1, 2, 3]);
        self.open_core(SUBST);
        self.code(count, arguments, depth);
        self.close();
        arguments
    }

    /// So many expressions that count on so many arguments.
    fn code(&mut self, count: usize, arguments: usize, depth: usize) {
        let outer = self.arguments.replace(arguments);
        self.list(count, Place::Inner, depth);
        self.arguments = outer;
    }

    // Concat, calls and arguments.

    fn concat(&mut self, depth: usize) {
        self.open_core(CONCAT);
        self.array_value(depth);
        self.array_value(depth);
        self.close();
    }

    fn array_value(&mut self, depth: usize) {
        match self.random.below(6) {
            0 if depth > 0 => self.concat(depth - 1),
            1 | 2 => match self.visible_as(|meaning| meaning == Meaning::Array) {
                Some((reference, _)) => self.reference(reference),
                None => self.array(),
            },
            _ => self.array(),
        }
    }

    fn call(&mut self, depth: usize) {
        self.open();
        let function = match self.random.one_in(4) {
            true => None,
            false => self.visible_as(|meaning| matches!(meaning, Meaning::Function(_))),
        };
        let counted = match function {
            Some((reference, Meaning::Function(arguments))) => {
                self.reference(reference);
                arguments
            }
            _ => self.substitution(depth),
        };
        let more = self.random.pick(&[0, 0, 0, 1, 2]);
        self.list(counted + more, Place::Inner, depth);
        self.close();
    }

    /// An `arg` or a `rest` form, in code.
    fn argument(&mut self, place: Place) {
        match self.arguments {
            Some(count) if place != Place::Single && self.random.one_in(2) => {
                let n = self.random.below(count + 1);
                self.numbered(REST, n);
            }
            Some(count) if count > 0 => {
                let n = self.random.below(count);
                self.numbered(ARG, n);
            }
            _ => self.atom(),
        }
    }

    fn numbered(&mut self, name: u8, n: usize) {
        self.open_core(name);
        self.bytes.push(0x80 | n as u8);
        self.close();
    }

    // Wrong ones.

    /// Mostly refused, for one reason or another.
    fn wrong_expression(&mut self, place: Place, depth: usize) {
        let depth = depth.saturating_sub(1);
        match self.random.below(12) {
            0 if place != Place::Top => self.ns(),
            0 | 1 => self.wrong_ns(),
            2 if place == Place::Top => self.wrong_ns(),
            2 => self.wrong_define(depth),
            3 => self.define((0, 0), depth),
            4 => {
                let name = self.random.pick(&FUNCTION_NAMES);
                self.core(name);
            }
            5 => drop(self.substitution(depth)),
            6 => self.function_as_value(),
            7 | 8 => self.headed_by_function_name(place, depth),
            9 => self.wrong_number(),
            10 => self.wrong_concat(depth),
            _ => self.wrong_call(depth),
        }
    }

    /// Of the core namespace, of a marker that may be borne, with the id before, or with
    /// one that is too long.
    fn wrong_ns(&mut self) {
        match self.random.below(6) {
            0 => self.ns_of(&[0x20], 2),
            1..=3 => {
                let marker = self.random.pick(&MARKERS);
                self.ns_of(marker, 2);
            }
            4 => {
                self.ids = self.ids.saturating_sub(1);
                self.ns();
            }
            _ => self.ns_of(&[0x2A], 65),
        }
    }

    fn wrong_define(&mut self, depth: usize) {
        self.open_core(DEFINE);
        match self.random.below(3) {
            0 => self.plain_reference(),
            1 => self.any_reference(),
            _ => self.atom(),
        }
        match self.random.below(3) {
            0 => self.wrong_number(),
            _ => self.expression(Place::Single, depth),
        }
        self.close();
    }

    fn function_as_value(&mut self) {
        match self.visible_as(|meaning| matches!(meaning, Meaning::Function(_))) {
            Some((reference, _)) => self.reference(reference),
            None => self.core(SUBST),
        }
    }

    fn headed_by_function_name(&mut self, place: Place, depth: usize) {
        let name = self.random.pick(&FUNCTION_NAMES);
        self.open_core(name);
        let count = self.random.below(5);
        self.list(count, place, depth);
        self.close();
    }

    /// An `arg` or a `rest` form, anywhere and with any number.
    fn wrong_number(&mut self) {
        let name = self.random.pick(&[ARG, REST]);
        let n = self.random.pick(&[0, 1, 2, 3, 4, 63]);
        match self.random.below(4) {
            0 => {
                self.open_core(name);
                self.bytes.extend([0xC1, n as u8]);
                self.close();
            }
            _ => self.numbered(name, n),
        }
    }

    fn wrong_concat(&mut self, depth: usize) {
        self.open_core(CONCAT);
        for _ in 0..self.random.pick(&[1, 2, 2, 2, 2, 3]) {
            match self.random.below(4) {
                0 => self.wrong_number(),
                1 => self.expression(Place::Single, depth),
                _ => self.array_value(depth),
            }
        }
        self.close();
    }

    /// A call with any number of arguments, or a form that only looks like a call.
    fn wrong_call(&mut self, depth: usize) {
        self.open();
        match self.random.below(4) {
            0 => self.function_as_value(),
            1 => drop(self.substitution(depth)),
            2 => self.wrong_number(),
            3 if self.bytecode.is_some() => self.bytecode_as_head(),
            _ => self.visible_value(),
        }
        let count = self.random.below(3);
        self.list(count, Place::Inner, depth);
        self.close();
    }

    // At the limits. The first marker, which is that of `pieces`, is associated.

    /// 256 may be visible. Some end with a form, and some are functions.
    fn many_definitions(&mut self) {
        let count = self.random.pick(&[200, 254, 255, 256, 256, 257, 258]);
        let inside = self.random.pick(&[0, 0, 1, 3]);
        for k in 0..count - inside {
            self.short_definition(k);
        }
        self.open();
        for k in 0..inside {
            self.short_definition(k);
        }
        self.visible_value();
        self.close();
        let after = self.random.below(4);
        for k in 0..after {
            self.short_definition(k);
        }
        self.call(2);
    }

    fn short_definition(&mut self, k: usize) {
        let reference = (0, (k % 251) as u8);
        self.open_core(DEFINE);
        self.reference(reference);
        let meaning = match self.random.below(4) {
            0 => {
                self.open_core(SUBST);
                self.visible_value();
                self.close();
                Meaning::Function(0)
            }
            _ => {
                self.bytes.push(0x80 | (k % 64) as u8);
                Meaning::Other
            }
        };
        self.close();
        self.visible.push((reference, meaning));
    }

    /// 64 may be associated, one of them already.
    fn many_namespaces(&mut self) {
        for k in 0..self.random.pick(&[50, 62, 63, 63, 64, 65]) {
            self.ns_of(&[0x30 + k], 2);
        }
    }

    /// A chain of functions, each of which calls the one before.
    fn chain(&mut self, count: usize, calls: usize) {
        for k in 0..count {
            self.open_core(DEFINE);
            self.reference((0, k as u8));
            self.open_core(SUBST);
            for _ in 0..if k == 0 { 0 } else { calls } {
                self.chain_call(k);
            }
            self.close();
            self.close();
        }
        self.chain_call(count);
    }

    /// A call of the function before number k, now and then with an argument.
    fn chain_call(&mut self, k: usize) {
        self.open();
        self.reference((0, k.saturating_sub(1) as u8));
        match self.random.below(24) {
            0 | 1 => self.atom(),
            2 if k > 30 => self.core(NS),
            3 if k > 2 => self.chain_call(k - 2),
            _ => {}
        }
        self.close();
    }

    /// 32 may be in progress.
    fn many_codes(&mut self) {
        let count = self.random.pick(&[2, 30, 31, 32, 32, 33, 33, 34]);
        self.chain(count, 1);
    }

    /// Many calls of few functions: steps and workspace grow with a power.
    fn many_calls(&mut self) {
        let count = self.random.between(2, 9);
        let calls = self.random.between(2, 3);
        self.chain(count, calls);
    }

    /// Each is the form of the one before.
    fn deep_by_definitions(&mut self) {
        let count = self.random.pick(&[10, 62, 63, 64, 65, 66]);
        let deeper = pieces::define(0, &pieces::form(&[&pieces::name(0)]));
        self.bytes.extend(deeper.repeat(count));
        self.bytes.extend(pieces::name(0));
    }

    /// Code with forms around its argument, called on its own value.
    fn deep_by_calls(&mut self) {
        let forms = self.random.between(1, 60);
        let calls = (64 / forms + self.random.below(3)).clamp(2, 61) - 1;
        let argument = match self.random.one_in(2) {
            true => pieces::arg(0),
            false => pieces::rest(0),
        };
        let code = pieces::nested(forms, &argument);
        self.bytes.extend(pieces::function(0, &code));
        let value = (0..calls).fold(vec![0x85], |value, _| pieces::call(0, &value));
        self.bytes.extend(value);
    }

    fn doubled_array(&mut self) {
        let size = self.random.below(5);
        let times = self.random.between(1, 16);
        let first = pieces::define(0, &pieces::array(&vec![0x42; size]));
        let doubled = pieces::concat(&pieces::name(0), &pieces::name(0));
        self.bytes.extend(first);
        self.bytes.extend(pieces::define(0, &doubled).repeat(times));
        self.bytes.extend(pieces::name(0));
    }

    /// `arg` and `rest` tell 64 apart, and there may be more.
    fn many_arguments(&mut self) {
        let count = self.random.pick(&[0, 1, 61, 62, 63, 64, 65, 66, 130]);
        self.open();
        self.open_core(SUBST);
        for _ in 0..self.random.between(1, 3) {
            let name = self.random.pick(&[ARG, REST]);
            let n = self.random.pick(&[0, 1, 60, 61, 62, 63]);
            self.numbered(name, n);
        }
        self.close();
        for _ in 0..count {
            self.atom();
        }
        self.close();
    }

    /// Arrays with leading zeros in their lengths, in code that is called twice.
    fn long_lengths(&mut self) {
        self.open_core(DEFINE);
        self.reference((0, 0));
        self.open_core(SUBST);
        for _ in 0..self.random.between(1, 3) {
            self.long_length();
        }
        self.bytes.extend([0x02, 0x02]);
        self.bytes.extend(pieces::call(0, &[]).repeat(2));
    }

    /// An array of up to three bytes, whose length has up to 62.
    fn long_length(&mut self) {
        let size = self.random.below(4) as u8;
        let number = [vec![0x00; self.random.below(62)], vec![size]].concat();
        let bytes = number.len() as u8;
        match self.random.below(3) {
            0 => self.bytes.extend([0x03, 0x03, 0x80 | bytes]),
            1 => self.bytes.extend([0x03, 0x03, 0xC2, 0x00, bytes]),
            _ => self.bytes.extend([0x03, 0xC0 | bytes]),
        }
        self.bytes.extend(number);
        self.bytes.extend(vec![0xAA; usize::from(size)]);
    }
}
