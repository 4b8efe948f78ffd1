//! Bytecode, with the answers that document 02 gives: the examples of its readings, each refusal
//! and order at its limit, and the deepest evaluation.

use super::{after_beginning, large, limit, Limit};
use crate::bounds::{self, Bounds};
use crate::notation::spelled;
use crate::pieces::{
    arity, core, form, function, name, nested, prefix, prefix_star, PREFIX, PREFIX_STAR,
};
use crate::requests::hex;
use std::borrow::Cow;

const FUNCTION_NAMES: [&str; 6] = ["ns", "define", "concat", "subst", "arg", "rest"];
const BYTECODE_NAMES: [&str; 5] = ["prefix", "prefix*", "postfix", "postfix*", "arity"];

pub fn limits() -> Vec<Limit> {
    let mut all = names();
    all.extend(arity_lists());
    all.extend(wrong_arity_lists());
    all.extend(transformations());
    all.extend(results());
    all.extend(named_results());
    all.extend(places_of_forms());
    all.extend(orders());
    all.extend(places());
    all.extend(depths());
    all.extend(arities_around());
    all.extend(arities_of_code());
    all.extend(made_bytecode());
    all.extend(definitions());
    all.extend(values());
    all.push(large(deepest(), "refused 6 12651"));
    all
}

/// With the result in the notation, and the steps.
fn accepted(stream: &str, steps: usize, result: &str) -> Limit {
    let result = spelled(result);
    let expected = format!("ok {} {steps} {}", result.len(), hex(&result));
    large(spelled(stream), expected)
}

/// With number and place.
fn refused(stream: &str, refusal: &str) -> Limit {
    large(spelled(stream), format!("refused {refusal}"))
}

fn with_steps(stream: &str, steps: u64, expected: impl Into<Cow<'static, str>>) -> Limit {
    let bounds = Bounds {
        steps,
        ..bounds::LARGE
    };
    limit(spelled(stream), bounds, expected)
}

fn with_workspace(stream: &str, workspace: u64, expected: &'static str) -> Limit {
    let bounds = Bounds {
        workspace,
        ..bounds::LARGE
    };
    limit(spelled(stream), bounds, expected)
}

/// The names stand for themselves, and only prefix* makes bytecode.
fn names() -> Vec<Limit> {
    vec![
        accepted(
            "V prefix prefix* postfix postfix* arity",
            9,
            "V prefix prefix* postfix postfix* arity",
        ),
        accepted(
            "V ( postfix* ( ( 81 28 02 ) ) 28 02 81 )",
            12,
            "V ( postfix* ( ( 81 28 02 ) ) 28 02 81 )",
        ),
        accepted(
            "V ( arity 81 28 02 ) ( prefix* ( ) 80 28 02 81 )",
            15,
            "V ( arity 81 28 02 ) ( 80 28 02 81 )",
        ),
        accepted("V ( prefix 28 02 85 )", 8, "V ( prefix 28 02 85 )"),
    ]
}

fn arity_lists() -> Vec<Limit> {
    vec![
        accepted("V ( prefix* ( ) 81 )", 6, "V 81"),
        accepted("V ( prefix* ( ( 82 ) ) 81 )", 6, "V 81"),
        // By marker and name.
        accepted(
            "V ( prefix* ( ( 81 28 02 29 02 ) ( 82 28 03 ) ) 80 29 02 81 )",
            12,
            "V ( 80 ( 29 02 81 ) )",
        ),
        accepted(
            "V ( prefix* ( ( 80 28 02 ) ) 81 28 02 )",
            10,
            "V ( 81 ( 28 02 ) )",
        ),
        accepted("V ( prefix* ( ( 80 28 02 ) ) 28 02 )", 7, "V ( 28 02 )"),
        accepted(
            r#"V ( prefix* ( ( 82 concat ) ) 81 concat "a" "b" )"#,
            13,
            r#"V ( 81 "ab" )"#,
        ),
    ]
}

/// "An arity list that isn't a form of forms, each a small integer then references, or names
/// a reference twice."
fn wrong_arity_lists() -> Vec<Limit> {
    let lists = [
        "",
        "81",
        "00 81",
        "28 01",
        "( prefix* ( ) )",
        "( 82 28 02 )",
        "( ( 82 ) 81 )",
        "( ( ) )",
        "( ( 28 02 ) )",
        "( ( C1 02 28 02 ) )",
        "( ( 82 28 02 85 ) )",
        "( ( 82 28 02 ( ) ) )",
        "( ( 82 28 02 28 03 28 02 ) )",
        "( ( 82 28 02 ) ( 82 28 02 ) )",
        "( ( 82 28 02 ) ( 81 28 03 28 02 ) )",
    ];
    let alone = |list| refused(&format!("V ( prefix* {list} )"), "22 6");
    let mut all: Vec<Limit> = lists.into_iter().map(alone).collect();
    // Nor is a reference that is defined to one.
    all.push(refused(
        "V NS ( define 28 01 ( ( 81 28 02 ) ) ) ( prefix* 28 01 28 02 81 )",
        "22 27",
    ));
    all
}

/// An operator takes its operands as they stand.
fn transformations() -> Vec<Limit> {
    vec![
        accepted(
            "V ( prefix* ( ( 82 28 02 ) ( 81 28 03 ) ) 28 02 28 03 84 85 )",
            14,
            "V ( ( 28 02 28 03 84 ) 85 )",
        ),
        accepted(
            "V ( prefix* ( ( 82 28 02 ) ) 81 28 02 82 83 )",
            14,
            "V ( 81 ( 28 02 82 83 ) )",
        ),
        refused("V ( prefix* ( ( 82 28 02 ) ) 81 28 02 82 )", "22 6"),
        refused("V ( prefix* ( ( 81 28 02 ) ) 81 28 02 )", "22 6"),
        // 000's own example: game is 28 01, black 28 02.
        accepted(
            "V NS ( prefix* ( ( 82 28 02 ) ) 28 01 28 02 81 82 28 02 83 84 28 02 85 86 )",
            29,
            "V NS ( 28 01 ( 28 02 81 82 ) ( 28 02 83 84 ) ( 28 02 85 86 ) )",
        ),
    ]
}

/// Of none, one or several expressions; a result may be a call.
fn results() -> Vec<Limit> {
    let function = "V NS ( define 28 01 ( subst ( arg 80 ) ) )";
    vec![
        accepted("V ( prefix* ( ) )", 5, "V ( )"),
        accepted("V ( prefix* ( ) ( 81 82 ) )", 8, "V ( 81 82 )"),
        accepted("V ( prefix* ( ) 81 82 )", 9, "V ( 81 82 )"),
        accepted(
            "V ( prefix* ( ( 81 28 02 ) ) 28 02 81 )",
            9,
            "V ( 28 02 81 )",
        ),
        accepted(
            &format!("{function} ( prefix* ( ) 28 01 85 )"),
            11,
            "V NS 85",
        ),
        accepted(
            &format!("{function} ( prefix* ( ( 81 28 01 ) ) 28 01 85 )"),
            11,
            "V NS 85",
        ),
        refused(&format!("{function} ( prefix* ( ) 28 01 )"), "12 29"),
        accepted(
            "V ( prefix* ( ) ( subst ( rest 80 ) ) 81 82 )",
            11,
            "V ( 81 82 )",
        ),
        accepted(
            "V ( prefix* ( ( 81 subst ) ) subst ( rest 80 ) 81 82 )",
            12,
            "V ( 81 82 )",
        ),
    ]
}

/// "A result headed by a function or bytecode name"; one that is such a name is no form.
fn named_results() -> Vec<Limit> {
    let headed = |name: &&str| {
        [
            format!("V ( prefix* ( ) {name} 81 )"),
            format!("V ( prefix* ( ) ( {name} 81 ) )"),
            format!("V ( prefix* ( ( 81 {name} ) ) {name} 81 )"),
            format!("V ( prefix* ( ( 80 {name} ) ) {name} )"),
        ]
    };
    let all_names = FUNCTION_NAMES.iter().chain(&BYTECODE_NAMES);
    let wrong = all_names.flat_map(headed);
    let mut all: Vec<Limit> = wrong.map(|stream| refused(&stream, "22 6")).collect();
    let alone = |name: &str| format!("V ( prefix* ( ) {name} )");
    all.extend(FUNCTION_NAMES.map(|name| refused(&alone(name), "12 6")));
    all.extend(BYTECODE_NAMES.map(|name| accepted(&alone(name), 6, &format!("V {name}"))));
    all
}

/// A bytecode form has one value, but it is no head, no reference and no number.
fn places_of_forms() -> Vec<Limit> {
    vec![
        accepted(
            "V NS ( define 28 01 ( prefix* ( ) 85 ) ) 28 01",
            9,
            "V NS 85",
        ),
        accepted(
            r#"V ( concat ( prefix* ( ) "a" ) ( prefix* ( ) "b" ) )"#,
            9,
            r#"V "ab""#,
        ),
        accepted("V ( ( subst ( arg 80 ) ) ( prefix* ( ) 85 ) )", 8, "V 85"),
        refused(
            "V NS ( define 28 01 ( subst ) ) ( ( prefix* ( ) 28 01 ) 85 )",
            "12 25",
        ),
        refused("V ( ( subst ( arg ( prefix* ( ) 80 ) ) ) 85 )", "11 10"),
        refused("V NS ( define ( prefix* ( ) 28 01 ) 85 )", "11 14"),
    ]
}

/// The form's own step, 22 and 6, the steps of the flat list, and those of its result.
fn orders() -> Vec<Limit> {
    let moves = "V ( prefix* ( ( 82 28 02 ) ) 28 01 28 02 81 82 )";
    let short = "V ( prefix* ( ( 82 28 02 ) ) 28 02 81 )";
    let mut all = vec![
        accepted(moves, 14, "V ( 28 01 ( 28 02 81 82 ) )"),
        with_steps(moves, 14, "ok"),
        with_workspace(moves, 32, "ok"),
        with_workspace(moves, 31, "refused 17 6"),
        with_steps(short, 4, "refused 16 6"),
        with_steps(short, 5, "refused 22 6"),
    ];
    let places = [6, 16, 18, 20, 21, 16, 18, 18, 20, 21];
    let refused = |(steps, place)| with_steps(moves, steps, format!("refused 16 {place}"));
    all.extend((4..14).zip(places).map(refused));
    all
}

/// What is given at the result has the bytecode form's place, and a made form has its
/// operator's.
fn places() -> Vec<Limit> {
    let moves = "V ( prefix* ( ( 82 28 02 ) ) 28 01 28 02 81 82 )";
    let array = r#"V ( prefix* ( ) "A" )"#;
    vec![
        with_workspace(array, 10, "refused 17 6"),
        with_workspace(array, 11, "refused 17 6"),
        with_workspace(array, 12, "ok 8 6"),
        with_workspace(moves, 21, "refused 17 18"),
        with_workspace(moves, 15, "refused 17 21"),
        large(calls(32), "ok 16 101"),
        large(calls(33), "refused 19 32"),
    ]
}

/// Functions whose code is bytecode, whose result is a call of the one before.
fn calls(count: u8) -> Vec<u8> {
    let result = |k: u8| prefix_star(&[&arity(0, &[&name(k)])], &[&name(k)]);
    let code = |k: u8| match k {
        0 => vec![],
        _ => result(k - 1),
    };
    let functions: Vec<u8> = (0..count).flat_map(|k| function(k, &code(k))).collect();
    after_beginning(&[&functions, &result(count - 1)])
}

/// 64 forms may be one inside another in a result, code and made forms counted and forms
/// around not; these count in the value.
fn depths() -> Vec<Limit> {
    let with = |before: &str, forms: usize, after: &str| {
        [spelled(before), nested(forms, &[]), spelled(after)].concat()
    };
    let several = "V ( prefix* ( ( 81 28 02 ) ) 80 28 02";
    let inside = "V ( ( prefix* ( ( 81 28 02 ) ) 80 28 02";
    let code = "V NS ( prefix* ( ( 82 define ) ) define 28 01 ( subst";
    let first_step = Bounds {
        steps: 5,
        ..bounds::LARGE
    };
    vec![
        large(with(several, 62, ")"), "ok 137 73"),
        large(with(several, 63, ")"), "refused 6 6"),
        limit(with(several, 63, ")"), first_step, "refused 6 6"),
        limit(with(several, 62, ")"), first_step, "refused 16 16"),
        large(
            with("V ( prefix* ( ( 81 28 02 ) ) concat 28 02", 63, ")"),
            "refused 22 6",
        ),
        large(
            with("V ( prefix* ( ( 81 28 02 ) ) 28 02", 63, ")"),
            "ok 136 71",
        ),
        large(with("V ( prefix* ( )", 63, ")"), "ok 132 68"),
        large(with(inside, 62, ") )"), "refused 6 6"),
        large(with(inside, 61, ") )"), "ok 137 73"),
        large(with(code, 61, ") 85 )"), "ok 17 12"),
        large(with(code, 62, ") 85 )"), "refused 6 14"),
    ]
}

/// A prefix form has the arities of the prefix* forms around it, the nearest first; a prefix*
/// form has its own.
fn arities_around() -> Vec<Limit> {
    vec![
        accepted(
            "V ( prefix* ( ( 81 28 02 ) ) 28 01 ( prefix 28 02 85 ) )",
            13,
            "V ( 28 01 ( 28 02 85 ) )",
        ),
        accepted(
            "V ( prefix* ( ( 81 28 02 ) ) 80 ( 81 ( prefix 80 28 02 81 ) ) )",
            18,
            "V ( 80 ( 81 ( 80 ( 28 02 81 ) ) ) )",
        ),
        accepted(
            "V ( prefix* ( ( 81 28 02 ) ) 80 ( prefix 80 ( prefix 80 28 02 81 ) ) )",
            20,
            "V ( 80 ( 80 ( 80 ( 28 02 81 ) ) ) )",
        ),
        refused(
            "V ( prefix* ( ( 81 28 02 ) ) ( prefix 80 28 02 81 ) )",
            "22 6",
        ),
        refused(
            "V ( prefix* ( ( 81 28 02 ) ) 80 ( prefix 80 28 02 ) )",
            "22 17",
        ),
        accepted(
            "V ( prefix* ( ( 81 28 02 ) ) 28 01 ( prefix* ( ) 80 28 02 85 ) )",
            15,
            "V ( 28 01 ( 80 28 02 85 ) )",
        ),
        accepted(
            "V ( prefix* ( ( 82 28 02 ) ( 81 28 03 ) ) 80
              ( prefix* ( ( 81 28 02 ) ) 80 ( prefix 80 28 02 81 28 03 82 ) ) )",
            25,
            "V ( 80 ( 80 ( 80 ( 28 02 81 ) ( 28 03 82 ) ) ) )",
        ),
    ]
}

/// Code has the arities of where it is written, wherever it is called.
fn arities_of_code() -> Vec<Limit> {
    let definition = "( define 28 01 ( subst ( prefix 80 28 02 ( arg 80 ) ) ) )";
    vec![
        accepted(
            &format!(
                "V NS ( prefix* ( ( 81 28 02 ) ) {definition} ( 28 01 85 )
                 ( prefix* ( ( 80 28 02 ) ) 80 ( 28 01 86 ) ) )"
            ),
            34,
            "V NS ( ( 80 ( 28 02 85 ) ) ( 80 ( 80 ( 28 02 86 ) ) ) )",
        ),
        accepted(
            &format!("V NS {definition} ( prefix* ( ( 81 28 02 ) ) 80 ( 28 01 85 ) )"),
            17,
            "V NS ( 80 ( prefix 80 28 02 85 ) )",
        ),
        // What never runs is never judged.
        accepted(
            "V NS ( define 28 01 ( subst ( prefix* ) ) ) 85",
            7,
            "V NS 85",
        ),
        refused(
            "V NS ( define 28 01 ( subst ( prefix* ) ) ) ( 28 01 )",
            "22 22",
        ),
    ]
}

/// Made forms are bytecode too, if they are not the result.
fn made_bytecode() -> Vec<Limit> {
    vec![
        accepted(
            "V ( prefix* ( ( 84 prefix* ) ) 80 prefix* ( ( 81 28 02 ) ) 82 28 02 81 )",
            20,
            "V ( 80 ( 82 ( 28 02 81 ) ) )",
        ),
        accepted(
            "V ( prefix* ( ( 83 prefix ) ( 81 28 02 ) ) 80 prefix 82 28 02 81 )",
            19,
            "V ( 80 ( 82 ( 28 02 81 ) ) )",
        ),
        accepted(
            "V ( prefix* ( ( 83 prefix* ) ( 81 28 02 ) ) 80 prefix* ( ( 82 28 03 ) )
              80 ( prefix 81 28 03 82 83 28 02 84 ) )",
            30,
            "V ( 80 ( 80 ( 81 ( 28 03 82 83 ) ( 28 02 84 ) ) ) )",
        ),
        refused("V ( prefix* ( ( 82 prefix* ) ) prefix* ( ) 81 )", "22 6"),
        refused("V ( prefix* ( ( 81 prefix ) ) prefix 81 )", "22 6"),
        refused("V ( prefix* ( ( 82 prefix* ) ) 80 prefix* 81 82 )", "22 17"),
        refused("V ( prefix* ( ( 81 prefix ) ) 80 prefix concat )", "12 17"),
    ]
}

/// A result of several expressions is a data form: what may stand in one may stand in it.
fn definitions() -> Vec<Limit> {
    vec![
        accepted(
            "V NS ( prefix* ( ( 82 define ) ) define 28 01 85 28 01 ) 28 01",
            14,
            "V NS ( 85 ) 28 01",
        ),
        accepted(
            "V NS ( prefix* ( ) ( define 28 01 85 ) 28 01 )",
            11,
            "V NS ( 85 )",
        ),
        refused("V NS ( prefix* ( ) ( define 28 01 85 ) )", "22 14"),
        accepted(
            "V ( ( subst ( prefix* ( ( 81 rest ) ) 80 rest 81 ) ) 81 82 83 )",
            14,
            "V ( 80 82 83 )",
        ),
        refused(r#"V ( prefix* ( ( 82 ns ) ) 80 ns 28 00 "A" )"#, "13 17"),
        refused(r#"V ( prefix* ( ) 80 ( ns 28 00 "A" ) )"#, "13 12"),
        refused("V ( prefix* ( ( 81 subst ) ) 80 subst 81 )", "12 17"),
    ]
}

/// What is written makes bytecode, and no value does; all of it is borne.
fn values() -> Vec<Limit> {
    vec![
        accepted(
            "V ( ( subst ( prefix* ( ( 82 28 02 ) ) 80 28 02 ( rest 80 ) 84 ) ) 81 82 83 )",
            18,
            "V ( 80 ( 28 02 81 82 83 84 ) )",
        ),
        accepted(
            "V NS ( define 28 01 prefix* ) ( 28 01 ( ) 81 )",
            11,
            "V NS ( prefix* ( ) 81 )",
        ),
        accepted(
            "V NS ( define 28 01 28 02 ) ( prefix* ( ( 81 28 02 ) ) 80 28 01 81 )",
            14,
            "V NS ( 80 28 02 81 )",
        ),
        refused("V ( prefix* ( ( 81 28 02 ) ) 81 ) NS", "14 18"),
        refused("V ( prefix* ( ) 28 02 ) NS", "14 14"),
    ]
}

/// The operator that makes a data form of its operand.
const OPERATOR: u8 = 0x40;
/// How many written forms have made prefix* forms in them.
const LONG: usize = 206;
/// The two innermost forms have no room for an arity list.
const LONG_IN_A_CODE: usize = 59;

/// The deepest evaluation that was found. Each of 32 codes has 62 written forms, one inside
/// another, and so has the top level, with two more around. In each a made prefix form stands
/// in the result and a form of `OPERATOR` in its result: three lists. In `LONG` of them stand 12
/// pairs of made forms instead of the one: 26 lists. A code is one list more, and the innermost
/// form of each but one has a call in the place of `OPERATOR`. So 1 + 2 + 33 * 62 * 3 + 206 * 23
/// lists are open at once, 10,879, and 32 calls. The value of so many forms is then too deep.
pub fn deepest() -> Vec<u8> {
    let long = |k: u8| {
        let before = usize::from(k) * LONG_IN_A_CODE;
        LONG.saturating_sub(before).min(LONG_IN_A_CODE)
    };
    let functions: Vec<u8> = (0..32)
        .flat_map(|k| function(k, &deep_code(k, long(k))))
        .collect();
    after_beginning(&[&functions, &nested(2, &deep_code(32, 0))])
}

/// Code that calls the function before number k in the innermost of its forms.
fn deep_code(k: u8, long: usize) -> Vec<u8> {
    let called = name(k.wrapping_sub(1));
    let mut inside = match k {
        0 => [&[0x80][..], &name(OPERATOR), &[0x80]].concat(),
        _ => [&[0x80, 0x80][..], &called].concat(),
    };
    for level in 0..61 {
        let written = match (2..2 + long).contains(&level) {
            true => prefix(&[&pairs(&inside)]),
            false => prefix(&[&[0x80], &core(PREFIX), &inside]),
        };
        inside = [&[0x80][..], &name(OPERATOR), &written].concat();
    }
    let arities = [
        arity(0, &[&called]),
        arity(1, &[&name(OPERATOR)]),
        arity(3, &[&core(PREFIX)]),
        arity(61, &[&core(PREFIX_STAR)]),
    ];
    prefix_star(&[&arities.concat()], &[&[0x80], &core(PREFIX), &inside])
}

/// 12 made prefix* forms, each with a made prefix form in its result, around three
/// expressions. A prefix form has three operands less than the prefix* form around it, and two
/// more than the one in it. The innermost arity list says again what the outermost form needs.
fn pairs(inside: &[u8]) -> Vec<u8> {
    let mut made = inside.to_vec();
    let mut of_prefix_star = 61;
    for pair in 0..12 {
        let of_prefix = 5 * pair + 3;
        let arities = form(&[
            &arity(of_prefix, &[&core(PREFIX)]),
            &arity(of_prefix_star, &[&core(PREFIX_STAR)]),
        ]);
        let head = [&[0x80][..], &core(PREFIX_STAR), &arities].concat();
        made = [&head[..], &[0x80], &core(PREFIX), &made].concat();
        of_prefix_star = of_prefix + 3;
    }
    made
}
