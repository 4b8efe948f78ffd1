//! Bytecode at the limits, in random streams. The first marker, which is that of `pieces`, is
//! associated.

use super::{Maker, Place};
use crate::pieces::{
    arg, arity, call, core, define, form, function, name, nested, ns, prefix, prefix_star, rest,
    subst, ARG, CONCAT, DEFINE, MARKER, PREFIX, PREFIX_STAR, REST,
};

/// Names of operators; the limits of `super` define low ones.
const OPERATOR: u8 = 0xF0;
const OTHER: u8 = 0xF1;

impl Maker<'_> {
    pub fn bytecode_at_a_limit(&mut self) {
        let stream = match self.random.below(12) {
            0 => self.deep_result(),
            1 => self.deep_value(),
            2 => self.chain_of_results(),
            3 => self.many_operands(),
            4 => self.made_in_made(),
            5 => self.long_arity_list(),
            6 => self.code_in_flat_list(),
            7 => self.code_outside(),
            8 => self.made_definitions(),
            9 => self.arities_around(),
            10 => return self.prefix_star_wrongly(),
            _ => self.markers_borne(),
        };
        self.bytes.extend(stream);
    }

    /// An atom or nothing.
    fn maybe(&mut self) -> Vec<u8> {
        self.random.pick(&[&[][..], &[0x80], &[0x00]]).to_vec()
    }

    /// 64 forms may be one inside another in a result, made ones and those of code counted.
    fn deep_result(&mut self) -> Vec<u8> {
        let before = self.random.pick(&[&[][..], &[0x80], &[0x20, CONCAT]]);
        let operator = name(self.random.pick(&[OPERATOR, OPERATOR, OTHER]));
        let operand = match self.random.one_in(2) {
            true => nested(self.random.between(60, 63), &[]),
            false => form(&[&function(0, &nested(self.random.between(58, 60), &[]))]),
        };
        let after = self.maybe();
        let flat_list = [before, &operator, &operand, &after];
        let bytecode = prefix_star(&[&arity(1, &[&name(OPERATOR)])], &flat_list);
        nested(self.random.below(2), &bytecode)
    }

    /// The same in values, with forms around.
    fn deep_value(&mut self) -> Vec<u8> {
        let deep = define(0, &nested(self.random.between(60, 64), &[]));
        let operator = name(self.random.pick(&[OPERATOR, OPERATOR, OTHER]));
        let (before, after) = (self.maybe(), self.maybe());
        let flat_list = [&before[..], &operator, &name(0), &after];
        let bytecode = prefix_star(&[&arity(1, &[&name(OPERATOR)])], &flat_list);
        [deep, nested(self.random.below(3), &bytecode)].concat()
    }

    /// Functions whose code is bytecode, whose result is a call of the one before.
    fn chain_of_results(&mut self) -> Vec<u8> {
        let count = self.random.pick(&[2, 30, 31, 32, 32, 33, 33, 34]);
        let result = |k: u8| prefix_star(&[&arity(0, &[&name(k)])], &[&name(k)]);
        let code = |k: u8| match k {
            0 => vec![],
            _ => result(k - 1),
        };
        let functions = (0..count).flat_map(|k| function(k, &code(k)));
        [functions.collect(), result(count - 1)].concat()
    }

    /// An arity is a small integer.
    fn many_operands(&mut self) -> Vec<u8> {
        let operands = self.random.pick(&[0, 1, 61, 62, 63]);
        let count = usize::from(operands) + self.random.below(4);
        let operator = self
            .random
            .pick(&[[MARKER, OPERATOR], [MARKER, 0], [0x20, PREFIX]]);
        let before = self.maybe();
        let flat_list = [&before[..], &operator, &vec![0x80; count.saturating_sub(1)]];
        prefix_star(&[&arity(operands, &[&operator])], &flat_list)
    }

    /// A made prefix* form has three expressions less than the one that it is made in.
    fn made_in_made(&mut self) -> Vec<u8> {
        let operand = self
            .random
            .pick(&[&[0x85][..], &[0x01, 0x02], &[MARKER, OPERATOR]]);
        let wrong = self.random.pick(&[0, 0, 0, 1]);
        let mut flat_list = [&[0x80], operand].concat();
        let mut arities = vec![];
        for level in 0..self.random.between(1, 21) as u8 {
            let made = [core(PREFIX_STAR), form(&[&arities]), flat_list].concat();
            flat_list = [&[0x80][..], &made].concat();
            arities = arity(3 * level + 3 + wrong, &[&core(PREFIX_STAR)]);
        }
        prefix_star(&[&arities], &[&flat_list])
    }

    fn long_arity_list(&mut self) -> Vec<u8> {
        let count = self.random.pick(&[100, 255, 256]);
        let names: Vec<u8> = (0..count).flat_map(|k: usize| name(k as u8)).collect();
        let twice = self.random.pick(&[&[][..], &[], &[MARKER, 0x40]]);
        let forms = [arity(1, &[&names]), arity(2, &[&core(CONCAT), twice])].concat();
        let used: Vec<u8> = (0..20)
            .flat_map(|_| self.operation_of_long_list())
            .collect();
        prefix_star(&[&forms], &[&[0x80], &used])
    }

    fn operation_of_long_list(&mut self) -> Vec<u8> {
        let operator = self.random.byte();
        match self.random.one_in(3) {
            true => [&core(CONCAT)[..], &[0xC1, operator, 0xC0]].concat(),
            false => [&name(operator)[..], &[0x80]].concat(),
        }
    }

    /// Code has the arities of where it is written, wherever it is called.
    fn code_in_flat_list(&mut self) -> Vec<u8> {
        let operands = self.random.pick(&[1, 2]);
        let code = prefix(&[&name(OPERATOR), &arg(0), &rest(0)]);
        let inner = prefix_star(
            &[&arity(operands, &[&name(OPERATOR)])],
            &[&[0x80], &call(0, &[0x81]), &name(OPERATOR), &[0x82, 0x83]],
        );
        let nearest = self.random.pick(&[0, 1, 2]);
        let definition = match self.random.one_in(2) {
            true => function(0, &code),
            false => [core(DEFINE), name(0), subst(&code)].concat(),
        };
        prefix_star(
            &[
                &arity(nearest, &[&name(OPERATOR)]),
                &arity(2, &[&core(DEFINE)]),
            ],
            &[&definition, &call(0, &[0x84]), &inner],
        )
    }

    fn code_outside(&mut self) -> Vec<u8> {
        let code = prefix(&[&name(OPERATOR), &arg(0)]);
        let called = call(0, &[0x84]);
        let operator = self.random.pick(&[OPERATOR, OTHER]);
        let inside = prefix_star(&[&arity(1, &[&name(operator)])], &[&called, &called]);
        let inline = form(&[&subst(&prefix(&[&name(OPERATOR), &[0x81]])), &[0x80]]);
        let bytecode = prefix_star(&[&arity(1, &[&name(OPERATOR)])], &[&[0x80], &inline]);
        [function(0, &code), called, inside, bytecode, inline].concat()
    }

    /// 256 may be visible.
    fn made_definitions(&mut self) -> Vec<u8> {
        let count = self.random.pick(&[2, 254, 255, 256, 256, 257, 258]);
        let definition = [&core(DEFINE)[..], &name(0), &[0x80]].concat();
        let before = define(1, &[0x81]).repeat(self.random.below(3));
        let arities = arity(2, &[&core(DEFINE)]);
        let bytecode = prefix_star(&[&arities], &[&definition.repeat(count), &name(0)]);
        [before, bytecode.clone(), bytecode].concat()
    }

    /// prefix forms inside several prefix* forms, of which some name an operator again.
    fn arities_around(&mut self) -> Vec<u8> {
        let operators = [name(OPERATOR), name(OTHER), core(REST), core(ARG)];
        let flat_list = [&operators.concat()[..], &[0x80, 0x81, 0x82, 0x83]].concat();
        let mut inside = prefix(&[&[0x80], &flat_list]);
        for _ in 0..self.random.between(1, 6) {
            let named = self.random.below(operators.len());
            let arities = arity(self.random.below(4) as u8, &[&operators[named]]);
            let made = self.random.one_in(2);
            inside = match made {
                true => made_prefix_star(&arities, &inside),
                false => prefix_star(&[&arities], &[&[0x80], &inside]),
            };
        }
        prefix_star(&[&arity(2, &[&name(OPERATOR)])], &[&[0x80], &inside])
    }

    /// What an arity list or a flat list names is borne.
    fn markers_borne(&mut self) -> Vec<u8> {
        let (arities, flat_list) = (self.random.one_in(2), self.random.one_in(2));
        let reference = |borne: bool| if borne { vec![0x60, 0x00] } else { vec![] };
        let bytecode = prefix_star(
            &[&arity(1, &[&reference(arities)])],
            &[&[0x80, 0x81], &reference(flat_list)],
        );
        let count = self.random.below(2);
        self.list(count, Place::Top, 2);
        [bytecode, ns(0x60, b"borne")].concat()
    }
}

/// In a form that makes it.
fn made_prefix_star(arities: &[u8], inside: &[u8]) -> Vec<u8> {
    let made = [&core(PREFIX_STAR)[..], &form(&[arities]), &[0x80], inside].concat();
    prefix_star(&[&arity(3, &[&core(PREFIX_STAR)])], &[&[0x80], &made])
}
