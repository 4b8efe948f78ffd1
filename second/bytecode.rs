//! Prefix bytecode (document 02, §1; source document 000, section 3.1.7): the tree of a
//! stream is transformed before it is evaluated.

use crate::names::{core_head, is_bytecode_name, is_function_name, PREFIX, PREFIX_STAR};
use crate::tree::{Content, Expression, FORMS_LIMIT};
use std::collections::HashMap;

/// What a bytecode form is transformed to.
pub struct Bytecode<'a> {
    /// "The result has the `prefix*` form's place"; or the number of the refusal.
    pub result: Result<Expression<'a>, u8>,
    /// Where the expressions of the flat list start: each takes a step.
    pub flat_list: Vec<usize>,
}

/// Transforms the bytecode forms of a stream, from the outermost inwards.
pub fn transform(list: &mut [Expression]) {
    Transformation::default().list(list);
}

/// A marker and a name.
type Operator = (u16, u8);

/// In the order of an arity list.
type Arities = Vec<(Operator, usize)>;

/// Whose arities count: a prefix* form's own, or for a prefix form those of all prefix* forms
/// around it.
#[derive(Clone, Copy)]
enum Reach {
    Nearest,
    All,
}

#[derive(Default)]
struct Transformation {
    /// How many prefix* forms are around.
    around: usize,
    /// The arities of each operator with the number of their prefix* form, the nearest last.
    known: HashMap<Operator, Vec<(usize, usize)>>,
}

impl Transformation {
    fn list(&mut self, list: &mut [Expression]) {
        list.iter_mut().for_each(|each| self.expression(each));
    }

    fn expression(&mut self, expression: &mut Expression) {
        let place = expression.start;
        let transformed = match core_head(expression) {
            Some(PREFIX_STAR) => self.prefix_star(place, expression.take_elements()),
            Some(PREFIX) if self.around > 0 => self.prefix(place, expression.take_elements()),
            _ => return self.list(expression.elements_mut()),
        };
        expression.bytecode = Some(Box::new(transformed));
    }

    /// "`( prefix* {arities} {bytecode} )`."
    fn prefix_star<'a>(&mut self, place: usize, mut form: Vec<Expression<'a>>) -> Bytecode<'a> {
        let flat_list = form.split_off(form.len().min(2));
        let Some(arities) = form.get(1).and_then(arities) else {
            return refused(22);
        };
        self.enter(&arities);
        let transformed = self.bytecode(place, flat_list, Reach::Nearest);
        self.leave(&arities);
        transformed
    }

    /// "`( prefix {bytecode} )`": "the arities declared in the outside form still apply".
    fn prefix<'a>(&mut self, place: usize, mut form: Vec<Expression<'a>>) -> Bytecode<'a> {
        let flat_list = form.split_off(1);
        self.bytecode(place, flat_list, Reach::All)
    }

    fn bytecode<'a>(
        &mut self,
        place: usize,
        flat_list: Vec<Expression<'a>>,
        reach: Reach,
    ) -> Bytecode<'a> {
        let starts = flat_list.iter().map(|each| each.start).collect();
        match self.result(place, flat_list, reach) {
            Ok(mut result) => {
                self.expression(&mut result);
                Bytecode {
                    result: Ok(result),
                    flat_list: starts,
                }
            }
            Err(number) => refused(number),
        }
    }

    /// "The flat list becomes forms [..]; if not one expression, they make a form." 22, then 6.
    fn result<'a>(
        &self,
        place: usize,
        flat_list: Vec<Expression<'a>>,
        reach: Reach,
    ) -> Result<Expression<'a>, u8> {
        let mut made = self.made(flat_list, reach).ok_or(22)?;
        let result = match made.len() {
            1 => made.remove(0).moved_to(place),
            _ => Expression::form(place, made),
        };
        if is_headed_by_name(&result) {
            return Err(22);
        }
        match result.depth > FORMS_LIMIT {
            true => Err(6),
            false => Ok(result),
        }
    }

    /// Operands as they stand, and a form for each operator; none if it is short of operands.
    fn made<'a>(
        &self,
        flat_list: Vec<Expression<'a>>,
        reach: Reach,
    ) -> Option<Vec<Expression<'a>>> {
        let mut made = Vec::new();
        let mut left = flat_list.into_iter();
        while let Some(first) = left.next() {
            made.push(match self.arity(&first, reach) {
                None => first,
                Some(arity) if left.len() < arity => return None,
                Some(arity) => {
                    let place = first.start;
                    let operands = left.by_ref().take(arity);
                    Expression::form(place, [first].into_iter().chain(operands).collect())
                }
            });
        }
        Some(made)
    }

    /// None for an operand.
    fn arity(&self, expression: &Expression, reach: Reach) -> Option<usize> {
        let (around, arity) = *self.known.get(&operator(expression)?)?.last()?;
        match reach {
            Reach::Nearest if around < self.around => None,
            _ => Some(arity),
        }
    }

    fn enter(&mut self, arities: &Arities) {
        self.around += 1;
        for (operator, arity) in arities {
            let known = self.known.entry(*operator).or_default();
            known.push((self.around, *arity));
        }
    }

    fn leave(&mut self, arities: &Arities) {
        self.around -= 1;
        for (operator, _) in arities {
            self.known.entry(*operator).or_default().pop();
        }
    }
}

fn refused<'a>(number: u8) -> Bytecode<'a> {
    Bytecode {
        result: Err(number),
        flat_list: Vec::new(),
    }
}

fn operator(expression: &Expression) -> Option<Operator> {
    match expression.content {
        Content::Reference { marker, name } => Some((marker, name)),
        _ => None,
    }
}

/// "A form of forms"; none if it isn't, "or names a reference twice".
fn arities(list: &Expression) -> Option<Arities> {
    let Content::Form(forms) = &list.content else {
        return None;
    };
    let each: Option<Vec<Arities>> = forms.iter().map(arities_of_form).collect();
    let arities = each?.concat();
    let named: HashMap<Operator, usize> = arities.iter().copied().collect();
    (named.len() == arities.len()).then_some(arities)
}

/// "Each a small integer then references."
fn arities_of_form(form: &Expression) -> Option<Arities> {
    let [Expression { content, .. }, references @ ..] = form.elements() else {
        return None;
    };
    let Content::Integer(arity) = content else {
        return None;
    };
    let named = |reference| Some((operator(reference)?, usize::from(*arity)));
    references.iter().map(named).collect()
}

/// "A result headed by a function or bytecode name."
fn is_headed_by_name(result: &Expression) -> bool {
    let head = result.elements().first().and_then(operator);
    head.is_some_and(|(marker, name)| {
        is_function_name(marker, name) || is_bytecode_name(marker, name)
    })
}
