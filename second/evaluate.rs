//! Evaluation (document 01, "Evaluation" and "Numbers given instead").

use crate::bytecode::{self, Bytecode};
use crate::names::{
    core_head, is_function_name, ARG, CONCAT, CORE, DEFINE, NS, REST, SUBST, VERSION,
};
use crate::tree::{self, refuse, Content, Expression, Refusal, FORMS_LIMIT};
use crate::write;
use std::collections::HashMap;
use std::rc::Rc;
use std::slice;

const VERSION_FORM: [u8; 6] = [0x01, 0x20, 0x00, 0x81, 0x80, 0x02];

const WORKSPACE_LIMIT: u64 = 65_536;
const DEFINITIONS_LIMIT: usize = 256;
const NAMESPACES_LIMIT: usize = 64;
const CODES_LIMIT: usize = 32;

/// The rows and bytes lent, and a number of steps.
#[derive(Clone, Copy)]
pub struct Bounds {
    pub rows: u64,
    pub workspace: u64,
    pub output: u64,
    pub steps: u64,
}

/// Gives the result and the steps taken.
pub fn evaluate(stream: &[u8], bounds: Bounds) -> Result<(Vec<u8>, u64), Refusal> {
    let mut list = tree::read(stream, bounds.rows)?;
    let evaluator = Evaluator::new(&list, bounds.steps, bounds.workspace);
    bytecode::transform(&mut list);
    evaluator.run(stream, &list, bounds.output)
}

/// As document 01 alone has it: bytecode is "kept as data".
pub fn evaluate_base(stream: &[u8], bounds: Bounds) -> Result<(Vec<u8>, u64), Refusal> {
    let list = tree::read(stream, bounds.rows)?;
    let evaluator = Evaluator::new(&list, bounds.steps, bounds.workspace);
    evaluator.run(stream, &list, bounds.output)
}

/// What an evaluation takes that no bound stops but the workspace's, up to its end or to
/// its refusal.
pub struct Needs {
    pub rows: usize,
    pub steps: u64,
    pub charged: u64,
    /// The result's length, if there is one.
    pub length: Option<usize>,
}

pub fn needs(stream: &[u8]) -> Result<Needs, Refusal> {
    let mut list = tree::read(stream, u64::MAX)?;
    let rows = tree::rows(&list).len();
    let mut evaluator = Evaluator::new(&list, u64::MAX, u64::MAX);
    bytecode::transform(&mut list);
    let result = evaluator.result(stream, &list);
    Ok(Needs {
        rows,
        steps: evaluator.steps_taken,
        charged: WORKSPACE_LIMIT - evaluator.workspace_left,
        length: result.ok().map(|bytes| bytes.len()),
    })
}

/// "9 and 10 come before the first step."
fn check_version(stream: &[u8], list: &[Expression]) -> Result<(), Refusal> {
    if list.first().and_then(core_head) != Some(VERSION) {
        return refuse(9, 0);
    }
    if !stream.starts_with(&VERSION_FORM) {
        return refuse(10, 0);
    }
    Ok(())
}

/// Where each marker is borne first by a reference, evaluated or not.
fn first_borne(list: &[Expression]) -> HashMap<u16, usize> {
    let mut places = HashMap::new();
    add_borne(list, &mut places);
    places
}

fn add_borne(list: &[Expression], places: &mut HashMap<u16, usize>) {
    for expression in list {
        if let Content::Reference { marker, .. } = expression.content {
            places.entry(marker).or_insert(expression.start);
        }
        add_borne(expression.elements(), places);
    }
}

/// A value as its canonical bytes.
#[derive(Clone)]
struct Value {
    written: Rc<[u8]>,
    /// Forms one inside another.
    depth: usize,
    /// The bytes of an array.
    array: Option<Rc<[u8]>>,
}

impl Value {
    fn atom(expression: &Expression) -> Value {
        if let Content::Array(bytes) = expression.content {
            return Value::array(bytes);
        }
        Value {
            written: write::canonical(slice::from_ref(expression)).into(),
            depth: 0,
            array: None,
        }
    }

    fn array(bytes: &[u8]) -> Value {
        let mut written = Vec::new();
        write::write_array(bytes, &mut written);
        Value {
            written: written.into(),
            depth: 0,
            array: Some(bytes.into()),
        }
    }

    fn form(values: &[Value]) -> Value {
        let mut written = vec![0x01];
        for value in values {
            written.extend(value.written.iter());
        }
        written.push(0x02);
        Value {
            written: written.into(),
            depth: 1 + values.iter().map(|value| value.depth).max().unwrap_or(0),
            array: None,
        }
    }
}

/// "Its code, with the definitions visible here."
#[derive(Clone)]
struct Function<'t> {
    code: &'t [Expression<'t>],
    scope: Scope<'t>,
}

#[derive(Clone)]
enum Meaning<'t> {
    Value(Value),
    Function(Function<'t>),
}

struct Definition<'t> {
    marker: u16,
    name: u8,
    meaning: Meaning<'t>,
    earlier: Scope<'t>,
    /// How many are visible, this one and shadowed ones included.
    count: usize,
}

/// The visible definitions, the latest first.
#[derive(Clone, Default)]
struct Scope<'t>(Option<Rc<Definition<'t>>>);

impl<'t> Scope<'t> {
    fn count(&self) -> usize {
        self.0.as_ref().map_or(0, |latest| latest.count)
    }

    fn with(&self, marker: u16, name: u8, meaning: Meaning<'t>) -> Scope<'t> {
        Scope(Some(Rc::new(Definition {
            marker,
            name,
            meaning,
            earlier: self.clone(),
            count: self.count() + 1,
        })))
    }

    /// "The latest visible definition of that marker and name."
    fn look_up(&self, marker: u16, name: u8) -> Option<&Meaning<'t>> {
        let mut scope = self;
        while let Some(definition) = &scope.0 {
            if definition.marker == marker && definition.name == name {
                return Some(&definition.meaning);
            }
            scope = &definition.earlier;
        }
        None
    }
}

/// What an expression is evaluated with. There are arguments inside code only.
#[derive(Clone, Default)]
struct Context<'t> {
    scope: Scope<'t>,
    arguments: Option<Rc<[Value]>>,
}

/// Where a list stands: ns is allowed at top level, define there and in a data form.
#[derive(Clone, Copy, PartialEq)]
enum Position {
    TopLevel,
    DataForm,
    Elsewhere,
}

struct Evaluator<'t> {
    first_borne: HashMap<u16, usize>,
    namespaces: Vec<(u16, &'t [u8])>,
    codes_in_progress: usize,
    steps: u64,
    steps_taken: u64,
    workspace_left: u64,
}

impl<'t> Evaluator<'t> {
    fn new(list: &[Expression], steps: u64, workspace: u64) -> Evaluator<'t> {
        Evaluator {
            first_borne: first_borne(list),
            namespaces: Vec::new(),
            codes_in_progress: 0,
            steps,
            steps_taken: 0,
            workspace_left: workspace.min(WORKSPACE_LIMIT),
        }
    }

    fn run(
        mut self,
        stream: &[u8],
        list: &'t [Expression<'t>],
        output: u64,
    ) -> Result<(Vec<u8>, u64), Refusal> {
        let result = self.result(stream, list)?;
        if result.len() as u64 > output {
            return refuse(18, 0);
        }
        Ok((result, self.steps_taken))
    }

    /// "The top-level values in order."
    fn result(&mut self, stream: &[u8], list: &'t [Expression<'t>]) -> Result<Vec<u8>, Refusal> {
        check_version(stream, list)?;
        let values = self.list(list, &Context::default(), Position::TopLevel)?;
        let bytes = values.iter().flat_map(|value| value.written.iter());
        Ok(bytes.copied().collect())
    }

    /// Evaluates a list from left to right. A define in it "is visible to what follows
    /// in the same list, at all depths, and ends with that list".
    fn list(
        &mut self,
        list: &'t [Expression<'t>],
        context: &Context<'t>,
        position: Position,
    ) -> Result<Vec<Value>, Refusal> {
        let mut context = context.clone();
        let mut values = Vec::new();
        for expression in list {
            self.take_step(expression.start)?;
            match core_head(expression) {
                Some(NS) => values.push(self.ns(expression, position)?),
                Some(DEFINE) => context.scope = self.define(expression, &context, position)?,
                Some(REST) => values.extend(self.rest(expression, &context)?),
                _ => values.push(self.expression(expression, &context)?),
            }
        }
        Ok(values)
    }

    /// A define's value or an operand: never a `rest` form, and for ns and define 13.
    fn single(
        &mut self,
        expression: &'t Expression<'t>,
        context: &Context<'t>,
    ) -> Result<Value, Refusal> {
        let list = slice::from_ref(expression);
        let mut values = self.list(list, context, Position::Elsewhere)?;
        Ok(values.remove(0))
    }

    /// An expression that has exactly one value, its step taken.
    fn expression(
        &mut self,
        expression: &'t Expression<'t>,
        context: &Context<'t>,
    ) -> Result<Value, Refusal> {
        if let Some(bytecode) = &expression.bytecode {
            return self.bytecode(expression.start, bytecode, context);
        }
        let value = match (&expression.content, core_head(expression)) {
            (Content::Reference { marker, name }, _) => {
                self.reference(expression, *marker, *name, context)?
            }
            (Content::Form(_), Some(SUBST)) => return refuse(12, expression.start),
            (Content::Form(_), Some(CONCAT)) => self.concat(expression, context)?,
            (Content::Form(_), Some(ARG)) => self.arg(expression, context)?,
            (Content::Form(elements), _) => match called(elements, context) {
                Some(function) => self.call(expression, function, context)?,
                None => Value::form(&self.list(elements, context, Position::DataForm)?),
            },
            _ => Value::atom(expression),
        };
        self.complete(expression, value)
    }

    /// 22 and 6 "before its list's first step"; the result "costs no second step or charge".
    fn bytecode(
        &mut self,
        place: usize,
        bytecode: &'t Bytecode<'t>,
        context: &Context<'t>,
    ) -> Result<Value, Refusal> {
        let result = match &bytecode.result {
            Ok(result) => result,
            Err(number) => return refuse(*number, place),
        };
        for start in &bytecode.flat_list {
            self.take_step(*start)?;
        }
        self.expression(result, context)
    }

    /// The value of the latest definition, not evaluated again; "with none, itself".
    fn reference(
        &self,
        expression: &Expression,
        marker: u16,
        name: u8,
        context: &Context,
    ) -> Result<Value, Refusal> {
        if is_function_name(marker, name) {
            return refuse(12, expression.start);
        }
        match context.scope.look_up(marker, name) {
            Some(Meaning::Function(_)) => refuse(12, expression.start),
            Some(Meaning::Value(value)) => Ok(value.clone()),
            None => Ok(Value::atom(expression)),
        }
    }

    /// "Its value is itself; nothing inside is evaluated."
    fn ns(&mut self, form: &'t Expression<'t>, position: Position) -> Result<Value, Refusal> {
        if position != Position::TopLevel {
            return refuse(13, form.start);
        }
        let Some((marker, id)) = ns_elements(form) else {
            return refuse(11, form.start);
        };
        let borne_before = self
            .first_borne
            .get(&marker)
            .is_some_and(|place| *place < form.start);
        let id_used = self.namespaces.iter().any(|(_, used)| *used == id);
        if marker == CORE || borne_before || id_used {
            return refuse(14, form.start);
        }
        if self.namespaces.len() == NAMESPACES_LIMIT {
            return refuse(19, form.start);
        }
        self.namespaces.push((marker, id));
        let elements: Vec<Value> = form.elements().iter().map(Value::atom).collect();
        self.complete(form, Value::form(&elements))
    }

    /// Gives the definitions that are visible after it.
    fn define(
        &mut self,
        form: &'t Expression<'t>,
        context: &Context<'t>,
        position: Position,
    ) -> Result<Scope<'t>, Refusal> {
        if position == Position::Elsewhere {
            return refuse(13, form.start);
        }
        let Some((marker, name, value)) = define_elements(form) else {
            return refuse(11, form.start);
        };
        let associated = self.namespaces.iter().any(|(known, _)| *known == marker);
        if marker == CORE || !associated {
            return refuse(14, form.start);
        }
        if context.scope.count() == DEFINITIONS_LIMIT {
            return refuse(19, form.start);
        }
        let meaning = match core_head(value) {
            Some(SUBST) => Meaning::Function(substitution(value, context)),
            _ => Meaning::Value(self.single(value, context)?),
        };
        Ok(context.scope.with(marker, name, meaning))
    }

    /// "Concat's 11 for an operand whose value is no array comes after both operands."
    fn concat(
        &mut self,
        form: &'t Expression<'t>,
        context: &Context<'t>,
    ) -> Result<Value, Refusal> {
        let [_, a, b] = form.elements() else {
            return refuse(11, form.start);
        };
        if core_head(a) == Some(REST) || core_head(b) == Some(REST) {
            return refuse(11, form.start);
        }
        let a = self.single(a, context)?;
        let b = self.single(b, context)?;
        match (a.array, b.array) {
            (Some(a), Some(b)) => Ok(Value::array(&[a, b].concat())),
            _ => refuse(11, form.start),
        }
    }

    /// "n not below (arg) .. the number of arguments": 15.
    fn arg(&self, form: &Expression, context: &Context) -> Result<Value, Refusal> {
        let n = written_number(form)?;
        match context.arguments.as_ref().and_then(|all| all.get(n)) {
            Some(argument) => Ok(argument.clone()),
            None => refuse(15, form.start),
        }
    }

    /// "The arguments without the first n, put in place one by one"; charged together.
    fn rest(&mut self, form: &Expression, context: &Context) -> Result<Vec<Value>, Refusal> {
        let n = written_number(form)?;
        let Some(items) = context.arguments.as_ref().and_then(|all| all.get(n..)) else {
            return refuse(15, form.start);
        };
        self.charge(form, items.iter().map(|item| item.written.len()).sum())?;
        Ok(items.to_vec())
    }

    /// The head isn't evaluated; the arguments are, in order; then 19, then the code.
    fn call(
        &mut self,
        form: &'t Expression<'t>,
        function: Function<'t>,
        context: &Context<'t>,
    ) -> Result<Value, Refusal> {
        let arguments = self.list(&form.elements()[1..], context, Position::Elsewhere)?;
        if self.codes_in_progress == CODES_LIMIT {
            return refuse(19, form.start);
        }
        let inside = Context {
            scope: function.scope,
            arguments: Some(arguments.into()),
        };
        self.codes_in_progress += 1;
        let mut values = self.list(function.code, &inside, Position::Elsewhere)?;
        self.codes_in_progress -= 1;
        match function.code {
            [only] if core_head(only) != Some(REST) => Ok(values.remove(0)),
            _ => Ok(Value::form(&values)),
        }
    }

    /// "Steps: one for each expression evaluated, at its start."
    fn take_step(&mut self, place: usize) -> Result<(), Refusal> {
        if self.steps_taken == self.steps {
            return refuse(16, place);
        }
        self.steps_taken += 1;
        Ok(())
    }

    /// "Then 6, 17."
    fn complete(&mut self, expression: &Expression, value: Value) -> Result<Value, Refusal> {
        if value.depth > FORMS_LIMIT {
            return refuse(6, expression.start);
        }
        self.charge(expression, value.written.len())?;
        Ok(value)
    }

    fn charge(&mut self, expression: &Expression, length: usize) -> Result<(), Refusal> {
        match self.workspace_left.checked_sub(length as u64) {
            Some(left) => self.workspace_left = left,
            None => return refuse(17, expression.start),
        }
        Ok(())
    }
}

/// "`( ns ref id )`", id "an array of 1 to 64 bytes".
fn ns_elements<'t>(form: &Expression<'t>) -> Option<(u16, &'t [u8])> {
    let [_, reference, id] = form.elements() else {
        return None;
    };
    match (&reference.content, &id.content) {
        (Content::Reference { marker, .. }, Content::Array(id)) if matches!(id.len(), 1..=64) => {
            Some((*marker, id))
        }
        _ => None,
    }
}

/// "`( define ref value )`"; "a `rest` form is a wrong kind for define's value".
fn define_elements<'e, 't>(form: &'e Expression<'t>) -> Option<(u16, u8, &'e Expression<'t>)> {
    let [_, reference, value] = form.elements() else {
        return None;
    };
    match reference.content {
        Content::Reference { marker, name } if core_head(value) != Some(REST) => {
            Some((marker, name, value))
        }
        _ => None,
    }
}

/// The n of `( arg n )` or `( rest n )`: "a written small integer".
fn written_number(form: &Expression) -> Result<usize, Refusal> {
    match form.elements() {
        [_, Expression {
            content: Content::Integer(n),
            ..
        }] => Ok(usize::from(*n)),
        _ => refuse(11, form.start),
    }
}

/// What a form calls, if it is a call: "a form whose head is a reference visible as a
/// function, or a form headed by `subst`".
fn called<'t>(elements: &'t [Expression<'t>], context: &Context<'t>) -> Option<Function<'t>> {
    let head = elements.first()?;
    if core_head(head) == Some(SUBST) {
        return Some(substitution(head, context));
    }
    match head.content {
        Content::Reference { marker, name } => match context.scope.look_up(marker, name)? {
            Meaning::Function(function) => Some(function.clone()),
            Meaning::Value(_) => None,
        },
        _ => None,
    }
}

/// The function that a `subst` form makes with the definitions visible here.
fn substitution<'t>(form: &'t Expression<'t>, context: &Context<'t>) -> Function<'t> {
    Function {
        code: &form.elements()[1..],
        scope: context.scope.clone(),
    }
}
