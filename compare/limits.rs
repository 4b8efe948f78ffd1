//! Evaluations at the limits, each with the answer that documents 01 and 02 give. Of a result
//! that is accepted, its length and the steps are stated.

pub mod backlog;
mod bytecode;
mod cut;

use crate::bounds::{self, Bounds};
use crate::pieces::{
    arg, array, beginning, call, concat, define, form, function, long_length, name, nested, ns,
    rest, subst, MARKER, VERSION,
};
use crate::requests::{evaluate_line, Request};
use std::borrow::Cow;

pub const STREAM_LIMIT: usize = 65_536;

pub struct Limit {
    pub stream: Vec<u8>,
    bounds: Bounds,
    expected: Cow<'static, str>,
}

pub fn requests() -> Vec<Request> {
    let request = |limit: Limit| {
        let line = evaluate_line(&limit.stream, limit.bounds);
        Request::expecting(line, limit.expected)
    };
    let mut requests: Vec<Request> = limits().into_iter().map(request).collect();
    requests.extend(backlog::requests());
    requests.extend(cut::requests());
    requests
}

pub fn limits() -> Vec<Limit> {
    let mut all = definitions();
    all.extend(namespaces());
    all.extend(codes());
    all.extend(depths());
    all.extend(arguments());
    all.extend(workspaces());
    all.extend(exponential_calls());
    all.extend(full_streams());
    all.extend(bytecode::limits());
    all.extend(cut::limits());
    all
}

fn limit(stream: Vec<u8>, bounds: Bounds, expected: impl Into<Cow<'static, str>>) -> Limit {
    Limit {
        stream,
        bounds,
        expected: expected.into(),
    }
}

/// With large bounds.
fn large(stream: Vec<u8>, expected: impl Into<Cow<'static, str>>) -> Limit {
    limit(stream, bounds::LARGE, expected)
}

fn after_beginning(parts: &[&[u8]]) -> Vec<u8> {
    [&beginning()[..], &parts.concat()].concat()
}

/// So many definitions of one name; each is 7 bytes, 2 steps and 1 charged.
fn defined(count: usize) -> Vec<u8> {
    define(0, &[0x80]).repeat(count)
}

fn definitions() -> Vec<Limit> {
    let in_form = form(&[&define(1, &[0x81]), &name(1)]);
    let code = function(2, &in_form);
    vec![
        large(after_beginning(&[&defined(256)]), "ok 14 517"),
        large(after_beginning(&[&defined(257)]), "refused 19 1806"),
        large(after_beginning(&[&defined(256), &name(0)]), "ok 15 518"),
        // What a form defines counts inside it, and not behind it.
        large(
            after_beginning(&[&defined(255), &in_form.repeat(3)]),
            "ok 23 527",
        ),
        large(
            after_beginning(&[&defined(256), &in_form]),
            "refused 19 1807",
        ),
        // In a function's code, those count that it was defined with.
        large(
            after_beginning(&[&defined(254), &code, &defined(1), &call(2, &[])]),
            "ok 17 521",
        ),
        large(
            after_beginning(&[&defined(255), &code, &call(2, &[])]),
            "ok 17 521",
        ),
        large(
            after_beginning(&[&defined(255), &form(&[&subst(&in_form)])]),
            "ok 17 520",
        ),
        large(
            after_beginning(&[&defined(256), &form(&[&subst(&in_form)])]),
            "refused 19 1811",
        ),
    ]
}

fn namespaces() -> Vec<Limit> {
    let more = |count: u8| (1..count).flat_map(|k| ns(MARKER + k, &[k])).collect();
    let many = |count: u8| -> Vec<u8> { [beginning(), more(count)].concat() };
    let id = |size: usize| ns(MARKER, &vec![0xAA; size]);
    let with_id = |size: usize| [&VERSION[..], &id(size)].concat();
    vec![
        large(many(64), "ok 518 68"),
        large(many(65), "refused 19 518"),
        large(with_id(64), "ok 79 5"),
        large(with_id(65), "refused 11 6"),
        large(with_id(0), "refused 11 6"),
    ]
}

/// Functions of which each has the calls of the one before in its code, as `link` has them.
fn chain(count: u8, first: &[u8], link: fn(&[u8]) -> Vec<u8>) -> Vec<u8> {
    let code = |k: u8| match k {
        0 => first.to_vec(),
        _ => link(&call(k - 1, &[])),
    };
    let functions: Vec<u8> = (0..count).flat_map(|k| function(k, &code(k))).collect();
    after_beginning(&[&functions, &call(count - 1, &[])])
}

fn codes() -> Vec<Limit> {
    let chained = |count: u8| chain(count, &[], |call| call.to_vec());
    vec![
        large(chained(32), "ok 16 69"),
        large(chained(33), "refused 19 32"),
        large(deepest(), "ok 16 4102"),
    ]
}

/// The deepest evaluation: 64 forms open, and in each of 32 codes the 62 that a stream
/// leaves for it.
fn deepest() -> Vec<u8> {
    let around = |count: usize, inside: &[u8]| {
        let open = [0x01, 0x20, 0x0A, 0xC0].repeat(count);
        [&open, inside, &vec![0x02; count]].concat()
    };
    let code = |k: u8| match k {
        0 => around(62, &[0xC1, 0x41]),
        _ => around(61, &call(k - 1, &[])),
    };
    let functions: Vec<u8> = (0..32).flat_map(|k| function(k, &code(k))).collect();
    after_beginning(&[&functions, &around(63, &call(31, &[]))])
}

/// 64 forms may be one inside another in a value, and 65 not.
fn depths() -> Vec<Limit> {
    let more_and_more = |count| define(0, &form(&[&name(0)])).repeat(count);
    let wrapping = |forms: usize| function(0, &nested(forms, &arg(0)));
    let twice = call(0, &call(0, &[0x00]));
    vec![
        large(
            after_beginning(&[&more_and_more(64), &name(0)]),
            "ok 144 198",
        ),
        large(after_beginning(&[&more_and_more(65)]), "refused 6 659"),
        large(after_beginning(&[&wrapping(32), &twice]), "ok 143 75"),
        large(after_beginning(&[&wrapping(33), &twice]), "refused 6 23"),
        large(after_beginning(&[&nested(64, &[])]), "ok 142 69"),
        large(after_beginning(&[&nested(65, &[])]), "refused 6 78"),
    ]
}

fn arguments() -> Vec<Limit> {
    let called = |code: &[u8], count: usize| {
        let arguments: Vec<u8> = (0..count).map(|k| 0x80 | (k % 64) as u8).collect();
        after_beginning(&[&form(&[&subst(code), &arguments])])
    };
    vec![
        large(called(&arg(63), 64), "ok 15 71"),
        large(called(&arg(63), 63), "refused 15 18"),
        large(called(&rest(63), 63), "ok 16 70"),
        large(called(&rest(63), 62), "refused 15 18"),
        large(called(&rest(63), 200), "ok 153 207"),
        large(
            called(&[arg(63), rest(0)].concat(), 20_000),
            "ok 20017 20008",
        ),
    ]
}

fn workspaces() -> Vec<Limit> {
    let first = define(0, &array(&[0x42]));
    let doubled = define(0, &concat(&name(0), &name(0)));
    let doubling = |times, nils| {
        let definitions = [first.clone(), doubled.repeat(times)].concat();
        after_beginning(&[&definitions, &vec![0x00; nils]])
    };
    let nils = |count| [&VERSION[..], &vec![0x00; count]].concat();
    let more = Bounds {
        workspace: 131_072,
        ..bounds::LARGE
    };
    vec![
        large(doubling(13, 0), "ok 14 59"),
        large(doubling(14, 0), "refused 17 209"),
        // 32,883 are charged before the nils.
        large(doubling(13, 32_653), "ok 32667 32712"),
        large(doubling(13, 32_654), "refused 17 32857"),
        // 10 are charged for the version form.
        large(nils(65_526), "ok 65532 65530"),
        large(nils(65_527), "refused 17 65532"),
        limit(nils(65_526), more, "ok 65532 65530"),
        limit(nils(65_527), more, "refused 17 65532"),
    ]
}

fn exponential_calls() -> Vec<Limit> {
    let forms = || chain(32, &[], |call| call.repeat(2));
    let arrays = || chain(32, &[0xC0], |call| concat(call, call));
    // A call of the first takes a thousand steps, and is charged two bytes.
    let slow = || chain(32, &rest(0).repeat(1_000), |call| call.repeat(2));
    let steps = |steps| Bounds {
        steps,
        ..bounds::LARGE
    };
    vec![
        large(forms(), "refused 17 32"),
        limit(forms(), steps(1_000), "refused 16 36"),
        large(arrays(), "refused 17 165"),
        limit(arrays(), steps(10_000), "refused 16 22"),
        limit(slow(), steps(1_000_000), "refused 16 4742"),
        limit(slow(), steps(100), "refused 16 177"),
    ]
}

/// A stream as long as one may be: as many units as there is room for, filled up by nils.
fn full(before: &[u8], unit: &[u8], after: &[u8]) -> Vec<u8> {
    let room = STREAM_LIMIT - before.len() - after.len();
    let nils = vec![0x00; room % unit.len()];
    [before, &unit.repeat(room / unit.len()), &nils, after].concat()
}

/// One that is accepted, with a result of 65,532 bytes.
fn longest() -> Vec<u8> {
    let array = [&[0x03, 0xC6, 0, 0, 0, 0, 0xFF, 0xF2][..], &[0xAA; 65_522]].concat();
    full(&VERSION, &array, &[])
}

/// Of every kind of content.
fn full_streams() -> Vec<Limit> {
    let mut all = full_of_atoms();
    all.extend(full_of_forms());
    all.extend(full_of_code());
    all
}

fn full_of_atoms() -> Vec<Limit> {
    let of = |unit: &[u8], expected| large(full(&VERSION, unit, &[]), expected);
    let largest_marker = [&[0x7F][..], &[0xFF; 256], &[0x80, 0x00]].concat();
    vec![
        of(&[0x00], "refused 17 65532"),
        of(&[0x85], "refused 17 65532"),
        of(&[0xC1, 0xAA], "refused 17 65532"),
        of(&[0x03, 0xC2, 0, 1, 0xAA], "ok 26218 13110"),
        large(longest(), "ok 65532 5"),
        of(&long_length(1_000), "ok 276 209"),
        of(&[0x21, 0x05], "refused 17 65532"),
        of(&largest_marker, "refused 17 65274"),
    ]
}

fn full_of_forms() -> Vec<Limit> {
    let of = |unit: &[u8], expected| large(full(&beginning(), unit, &[]), expected);
    let in_form = form(&[&define(0, &[0x80]), &name(0)]);
    let opened = after_beginning(&[&[0x01]]);
    vec![
        of(&[0x01, 0x02], "refused 17 65532"),
        of(&nested(64, &[]), "refused 17 1942"),
        of(&define(0, &[0x80]), "refused 19 1806"),
        of(&in_form, "ok 17888 23835"),
        of(&concat(&[0xC0], &[0xC0]), "ok 10936 32767"),
        large(full(&opened, &[0x00], &[0x02]), "refused 17 65533"),
        large(full(&opened, &[0x00], &[]), "refused 2 14"),
    ]
}

fn full_of_code() -> Vec<Limit> {
    let called = |code: &[u8]| after_beginning(&[&function(0, code)]);
    let definition = after_beginning(&[&[0x01, 0x20, 0x09, MARKER, 0x00]]);
    let code = [&definition[..], &[0x01, 0x20, 0x0B]].concat();
    let subst_call = after_beginning(&[&[0x01, 0x01, 0x20, 0x0B]]);
    let argument_list = [&subst_call[..], &[0x02]].concat();
    vec![
        large(full(&called(&[]), &call(0, &[]), &[]), "ok 32770 16384"),
        large(
            full(&called(&arg(0)), &call(0, &[0x85]), &[]),
            "ok 13117 39311",
        ),
        large(full(&code, &nested(62, &[]), &[0x02, 0x02]), "ok 14 6"),
        large(full(&subst_call, &rest(0), &[0x02, 0x02]), "ok 17 13110"),
        large(
            full(&subst_call, &arg(0), &[0x02, 0x85, 0x02]),
            "ok 13119 13110",
        ),
        large(full(&argument_list, &[0x85], &[0x02]), "ok 16 65522"),
        large(
            [full(&VERSION, &[0x00], &[]), vec![0x00]].concat(),
            "refused 1 0",
        ),
    ]
}
