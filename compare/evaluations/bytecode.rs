//! Bytecode in random streams: arity lists, and flat lists whose operators mostly get operands
//! that fit them.

use super::{Maker, Meaning, Place, Reference, FUNCTION_NAMES, MARKERS, PLAIN_NAMES};
use crate::pieces::{
    ARG, ARITY, CONCAT, DEFINE, NS, POSTFIX, POSTFIX_STAR, PREFIX, PREFIX_STAR, REST, SUBST,
};

const BYTECODE_NAMES: [u8; 5] = [PREFIX, PREFIX_STAR, POSTFIX, POSTFIX_STAR, ARITY];

#[derive(Clone, Copy, PartialEq)]
pub enum Operator {
    Core(u8),
    Named(Reference),
}

/// The operators of an arity list, with how many operands each takes.
pub type Arities = Vec<(Operator, usize)>;

impl Maker<'_> {
    // Bytecode forms.

    pub fn bytecode_form(&mut self, depth: usize) {
        match self.random.below(10) {
            0..=5 => self.prefix_star(depth),
            6..=8 => self.prefix(depth),
            _ => self.kept_as_data(depth),
        }
    }

    fn prefix_star(&mut self, depth: usize) {
        let count = self.random.pick(&[0, 1, 1, 2, 3, 3, 4, 5, 6]);
        self.open_core(PREFIX_STAR);
        self.arities_and_flat_list(count, depth);
        self.close();
    }

    /// Outside all prefix* forms, a data form.
    fn prefix(&mut self, depth: usize) {
        let count = self.random.pick(&[0, 1, 2, 2, 3, 3, 4, 5]);
        self.open_core(PREFIX);
        self.flat_list(count, 0, depth);
        self.close();
    }

    fn kept_as_data(&mut self, depth: usize) {
        let name = self.random.pick(&[POSTFIX, POSTFIX_STAR, ARITY]);
        self.open_core(name);
        let count = self.random.below(4);
        self.list(count, Place::DataForm, depth);
        self.close();
    }

    // Flat lists.

    fn arities_and_flat_list(&mut self, count: usize, depth: usize) {
        let arities = self.arity_list();
        self.flat_list_with(arities, count, depth);
    }

    fn flat_list_with(&mut self, arities: Arities, count: usize, depth: usize) {
        self.arities.push(arities);
        let nearest = self.arities.len() - 1;
        self.flat_list(count, nearest, depth);
        self.arities.pop();
    }

    /// So many expressions, by the arity lists around from number `from` on. What they define
    /// ends with them.
    fn flat_list(&mut self, count: usize, from: usize, depth: usize) {
        let visible = self.visible.len();
        let mut left = count;
        while left > 0 {
            left -= match self.operator(left, left == count, from) {
                Some((operator, arity)) => self.operation(operator, arity.min(left - 1), depth),
                None => self.operand(left == count, from, depth),
            };
        }
        self.visible.truncate(visible);
    }

    /// One that will have its operands, and will not make the list's result a wrong one.
    fn operator(&mut self, left: usize, first: bool, from: usize) -> Option<(Operator, usize)> {
        if self.random.one_in(2) {
            return None;
        }
        let known = self.known(from);
        if known.is_empty() {
            return None;
        }
        let (operator, arity) = self.random.pick(&known);
        let fits = match operator {
            Operator::Core(SUBST) => first && arity + 1 < left,
            Operator::Core(_) => arity + 1 < left || arity + 1 == left && !first,
            Operator::Named(_) => arity < left,
        };
        (fits || self.errs()).then_some((operator, arity))
    }

    /// Each operator with the arity that the nearest list has for it.
    fn known(&self, from: usize) -> Arities {
        let mut known = Arities::new();
        for (operator, arity) in self.arities[from..].iter().rev().flatten() {
            if known.iter().all(|(nearer, _)| nearer != operator) {
                known.push((*operator, *arity));
            }
        }
        known
    }

    /// An operator and its operands; gives how many expressions they are.
    fn operation(&mut self, operator: Operator, arity: usize, depth: usize) -> usize {
        self.operator_name(operator);
        match operator {
            Operator::Core(DEFINE) if arity == 2 && !self.associated.is_empty() => {
                let reference = self.associated_reference();
                self.definition(reference, depth);
            }
            Operator::Core(CONCAT) => (0..arity).for_each(|_| self.array_value(depth)),
            Operator::Core(SUBST) => self.code(arity, arity, depth),
            Operator::Core(ARG | REST) => (0..arity).for_each(|_| self.integer()),
            Operator::Core(PREFIX_STAR) if arity > 0 => {
                self.arities_and_flat_list(arity - 1, depth)
            }
            Operator::Core(PREFIX) => self.flat_list(arity, 0, depth),
            Operator::Named(reference) if self.is_function(reference) => {
                self.list(arity, Place::Inner, depth)
            }
            _ => self.list(arity, Place::DataForm, depth),
        }
        arity + 1
    }

    fn operator_name(&mut self, operator: Operator) {
        match operator {
            Operator::Core(name) => self.core(name),
            Operator::Named(reference) => self.reference(reference),
        }
    }

    fn is_function(&self, reference: Reference) -> bool {
        matches!(self.meaning(reference), Some(Meaning::Function(_)))
    }

    /// Any expression, now and then a name that means something else here or elsewhere.
    fn operand(&mut self, first: bool, from: usize, depth: usize) -> usize {
        let known = self.known(from);
        match self.random.below(24) {
            0 if !first => {
                let name = self.random.pick(&BYTECODE_NAMES);
                self.core(name);
            }
            1 if !known.is_empty() => {
                let (operator, _) = self.random.pick(&known);
                self.operator_name(operator);
            }
            2 if self.errs() => {
                let name = self.any_core_name();
                self.core(name);
            }
            _ => self.expression(Place::DataForm, depth),
        }
        1
    }

    // Arity lists.

    fn arities(&mut self) -> Arities {
        let mut arities = Arities::new();
        for _ in 0..self.random.pick(&[0, 1, 1, 2, 2, 3, 4]) {
            let (operator, arity) = self.operator_with_arity();
            if arities.iter().all(|(other, _)| *other != operator) {
                arities.push((operator, arity));
            }
        }
        arities
    }

    fn arity_list(&mut self) -> Arities {
        let arities = self.arities();
        match self.errs() {
            true => self.wrong_arity_list(&arities),
            false => {
                self.open();
                self.arity_forms(&arities);
                self.close();
            }
        }
        arities
    }

    fn operator_with_arity(&mut self) -> (Operator, usize) {
        let arity = self.random.pick(&[0, 1, 1, 2, 2, 3]);
        match self.random.below(12) {
            0..=2 => match self.visible_as(|meaning| matches!(meaning, Meaning::Function(_))) {
                Some((function, Meaning::Function(arguments))) => {
                    (Operator::Named(function), arguments)
                }
                _ => (Operator::Named((0, 3)), arity),
            },
            3 | 4 => (
                Operator::Core(self.random.pick(&[CONCAT, DEFINE, NS])),
                self.random.pick(&[2, 2, 2, 1]),
            ),
            5 => (Operator::Core(self.random.pick(&[SUBST, ARG, REST])), 1),
            6 | 7 => {
                let arity = self.random.between(0, 6);
                let name = self.random.pick(&[PREFIX, PREFIX_STAR]);
                (Operator::Core(name), arity)
            }
            8 => (Operator::Core(self.any_core_name()), arity),
            _ => {
                let marker = self.random.below(MARKERS.len());
                let name = self.random.pick(&[0, 3, 3, 4, 5]);
                (Operator::Named((marker, name)), arity)
            }
        }
    }

    fn any_core_name(&mut self) -> u8 {
        match self.random.below(3) {
            0 => self.random.pick(&FUNCTION_NAMES),
            1 => self.random.pick(&BYTECODE_NAMES),
            _ => self.random.pick(&PLAIN_NAMES),
        }
    }

    /// Operators of the same arity in one form or in several.
    fn arity_forms(&mut self, arities: &[(Operator, usize)]) {
        let mut left = arities;
        while let Some((_, arity)) = left.first() {
            let same = left.iter().take_while(|(_, other)| other == arity);
            let count = self.random.between(1, same.count());
            self.arity_form(&[0x80 | *arity as u8], &left[..count]);
            left = &left[count..];
        }
        if self.random.one_in(8) {
            self.arity_form(&[0x82], &[]);
        }
    }

    fn arity_form(&mut self, arity: &[u8], operators: &[(Operator, usize)]) {
        self.open();
        self.bytes.extend(arity);
        for (operator, _) in operators {
            self.operator_name(*operator);
        }
        self.close();
    }

    /// What is no such list, or one that names a reference twice.
    fn wrong_arity_list(&mut self, arities: &Arities) {
        match self.random.below(5) {
            0 => {}
            1 => self.atom(),
            2 => self.visible_value(),
            _ => {
                self.open();
                self.arity_forms(arities);
                self.wrong_arity_form(arities);
                self.close();
            }
        }
    }

    fn wrong_arity_form(&mut self, arities: &Arities) {
        let other = (Operator::Named((0, 9)), 1);
        match self.random.below(8) {
            0 => self.atom(),
            1 => self.arity_form(&[], &[]),
            2 => self.arity_form(&[], &[other]),
            3 => self.arity_form(&[0xC1, 0x02], &[other]),
            4 => self.arity_form(&[0x81, 0x82], &[other]),
            5 => self.arity_form(&[0x81, 0x01, 0x02], &[other]),
            _ => self.named_twice(arities.first().copied().unwrap_or(other)),
        }
    }

    /// In one form, or in this one and another.
    fn named_twice(&mut self, (operator, arity): (Operator, usize)) {
        let times = self.random.between(1, 2);
        self.arity_form(&[0x80 | arity as u8], &vec![(operator, arity); times]);
    }

    /// A form with such a list, else as any other.
    pub fn prefix_star_wrongly(&mut self) {
        self.open_core(PREFIX_STAR);
        let arities = self.arities();
        self.wrong_arity_list(&arities);
        self.flat_list_with(arities, 2, 1);
        self.close();
    }

    /// A bytecode form in the place of a head, whose result may be a function.
    pub fn bytecode_as_head(&mut self) {
        self.open_core(PREFIX_STAR);
        self.open();
        self.close();
        self.function_as_value();
        self.close();
    }
}
