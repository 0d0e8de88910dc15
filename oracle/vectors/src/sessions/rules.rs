//! Each reason for which a statement has no next step, and beside it what just has one.

use super::MACHINES;
use crate::Session;
use generators::build::{
    call, clause, create, create_with, def, exit, ext, exts, ifc, image, invoke, label, let_,
    literal, one, op, pair, print_i64, prog, substitute, switch,
};
use generators::stores::{self, HEADER};
use reference::machines::Given::{self, Int, Outside};
use reference::syntax::{BinOp, Prog, Statement};
use stepper::Machine;

/// A program, and the values of a start of its first definition.
type Row = (Prog, Vec<Given>);

/// Both machines run each; the source machine refuses what is out of scope, or no source.
pub fn sessions() -> Vec<Session> {
    let rows = [
        substitutes(),
        calls(),
        lets(),
        switches(),
        creates(),
        invokes(),
        operators(),
        readers(),
    ];
    let both = |row: &Row| MACHINES.map(|machine| of_row(machine, row));
    rows.concat().iter().flat_map(both).collect()
}

/// The whole run in one call, in single steps, and once more.
fn of_row(machine: Machine, (prog, given): &Row) -> Session {
    let mut session = Session::new(machine, image(prog));
    let values = stores::values(given);
    let begun = session
        .start(0, &values, HEADER + values.len())
        .after
        .clone();
    session.step(&begun, begun.len() + 120, u64::MAX, 120);
    let mut now = begun;
    for _ in 0..4 {
        let call = session.step(&now, now.len() + 64, 1, 64);
        if call.answer.number != 0 {
            break;
        }
        now = call.state();
        if call.answer.made == 0 {
            break;
        }
    }
    session
}

/// The parameters are 1, 2 .. and integers.
fn integers(params: u32, body: Statement) -> Row {
    let given = (1..=params).map(|id| Int(id.into())).collect();
    (one(9, exts(1, params), body), given)
}

/// The same, but that the last one is an outside number.
fn with_outside(params: u32, body: Statement) -> Row {
    let (prog, mut given) = integers(params, body);
    given.pop();
    given.push(Outside(200));
    (prog, given)
}

fn substitutes() -> Vec<Row> {
    let with = |pairs: &[(u32, u32)], next| {
        let pairs = pairs
            .iter()
            .map(|&(target, source)| pair(ext(target), source));
        integers(2, substitute(pairs.collect(), next))
    };
    vec![
        with(&[(1, 2), (2, 1)], exit(2)),
        with(&[(3, 1), (4, 1), (5, 1)], exit(5)),
        with(&[(3, 4)], exit(3)),
        with(&[(3, 1), (3, 2)], exit(3)),
        with(&[], exit(1)),
    ]
}

fn calls() -> Vec<Row> {
    let of = |name, args| Statement::Call {
        label: label(name),
        args,
    };
    // the first definition has these parameters and calls that label with them
    let two = |params, name, second| {
        let first = def(0, exts(1, params), of(name, exts(1, params)));
        prog(9, vec![first, second])
    };
    let second = || def(1, exts(3, 4), exit(4));
    let doubled = def(1, vec![ext(3), ext(3)], exit(3));
    let same_label = vec![
        def(0, exts(1, 1), call(Vec::new())),
        def(0, Vec::new(), exit(1)),
    ];
    vec![
        (two(2, 1, second()), vec![Int(1), Outside(2)]),
        (two(1, 1, second()), vec![Int(1)]),
        (two(2, 2, second()), vec![Int(1), Int(2)]),
        (two(2, 1, doubled), vec![Int(1), Int(2)]),
        // the first of two labels counts
        (prog(9, same_label), vec![Int(1)]),
    ]
}

fn lets() -> Vec<Row> {
    let with = |params, id, args: &[u32]| {
        let args = args.iter().map(|&id| ext(id)).collect();
        integers(params, let_(id, args, exit(id)))
    };
    vec![
        with(2, 3, &[1, 2]),
        with(2, 2, &[2]),
        with(2, 1, &[]),
        with(2, 1, &[2]),
        with(2, 3, &[1]),
        with(2, 3, &[2, 1]),
        with(1, 3, &[1, 2]),
        with(0, 3, &[]),
    ]
}

fn switches() -> Vec<Row> {
    let taking = |tag, params: &[u32]| {
        let params: Vec<_> = params.iter().map(|&id| ext(id)).collect();
        clause(tag, params, exit(4))
    };
    let cell = |clauses| integers(2, let_(3, vec![ext(2)], switch(3, clauses)));
    let made = create_with(
        3,
        Some(Vec::new()),
        Vec::new(),
        switch(3, vec![taking(1, &[])]),
    );
    let both = let_(3, exts(1, 2), switch(3, vec![taking(1, &[4, 4])]));
    vec![
        cell(vec![taking(2, &[4]), taking(1, &[4])]),
        cell(vec![taking(2, &[4])]),
        cell(vec![taking(1, &[])]),
        cell(vec![taking(1, &[4, 5]), taking(1, &[4])]),
        cell(vec![taking(1, &[1])]),
        integers(2, both),
        integers(2, made),
        integers(1, switch(1, vec![taking(1, &[])])),
        integers(2, switch(1, vec![taking(1, &[])])),
        integers(0, switch(1, vec![taking(1, &[])])),
        with_outside(1, switch(1, vec![taking(1, &[])])),
    ]
}

fn creates() -> Vec<Row> {
    let with = |params, id, held: &[u32]| {
        let held = held.iter().map(|&id| ext(id)).collect();
        integers(params, create_with(id, Some(held), Vec::new(), exit(id)))
    };
    vec![
        with(2, 3, &[1, 2]),
        with(2, 2, &[2]),
        with(2, 3, &[]),
        with(2, 1, &[2]),
        with(2, 3, &[1]),
        with(1, 3, &[2, 1]),
        integers(1, create(3, Vec::new(), exit(3))),
    ]
}

fn invokes() -> Vec<Row> {
    let taking = |tag, params: &[u32]| {
        let params: Vec<_> = params.iter().map(|&id| ext(id)).collect();
        clause(tag, params, exit(2))
    };
    // holds 2, and is invoked with 1
    let closure = |clauses| {
        let invoked = invoke(3, vec![ext(1)]);
        integers(2, create_with(3, Some(vec![ext(2)]), clauses, invoked))
    };
    let source = create(3, vec![taking(1, &[4])], invoke(3, vec![ext(1)]));
    let cell = let_(3, vec![ext(2)], invoke(3, vec![ext(1)]));
    vec![
        closure(vec![taking(2, &[]), taking(1, &[4])]),
        closure(vec![taking(2, &[4])]),
        closure(vec![taking(1, &[])]),
        closure(vec![taking(1, &[]), taking(1, &[4])]),
        closure(vec![taking(1, &[2])]),
        integers(2, source),
        integers(2, cell),
        integers(1, invoke(1, Vec::new())),
        integers(2, invoke(1, vec![ext(2)])),
        with_outside(2, invoke(2, vec![ext(1), ext(1)])),
        with_outside(1, invoke(1, Vec::new())),
    ]
}

/// Of an ID that is wrong and a value that is, the ID counts first.
fn operators() -> Vec<Row> {
    let with = |kind, fst, snd, id| op(fst, kind, snd, id, exit(id));
    let sum = |fst, snd, id| with(BinOp::Sum, fst, snd, id);
    let zero = |kind, id| literal(0, 3, with(kind, 1, 3, id));
    vec![
        integers(2, sum(1, 2, 3)),
        integers(2, sum(1, 1, 3)),
        integers(2, sum(4, 2, 3)),
        integers(2, sum(1, 4, 3)),
        integers(2, sum(1, 2, 2)),
        with_outside(2, sum(1, 2, 3)),
        with_outside(2, sum(2, 1, 3)),
        with_outside(2, sum(2, 4, 3)),
        with_outside(2, sum(2, 1, 1)),
        integers(2, zero(BinOp::Div, 4)),
        integers(2, zero(BinOp::Rem, 4)),
        integers(2, zero(BinOp::Div, 1)),
        integers(2, literal(0, 1, exit(1))),
        integers(2, let_(3, vec![ext(2)], sum(1, 3, 4))),
    ]
}

/// IfC, PrintI64 and Exit.
fn readers() -> Vec<Row> {
    let compared = |fst, snd| ifc(fst, snd, exit(1), exit(fst));
    let shown = |id| print_i64(true, id, exit(id));
    let cell = |next| integers(2, let_(3, vec![ext(2)], next));
    vec![
        integers(2, compared(1, Some(2))),
        integers(2, compared(1, None)),
        integers(2, compared(3, Some(2))),
        integers(2, compared(1, Some(3))),
        with_outside(2, compared(2, None)),
        with_outside(2, compared(1, Some(2))),
        with_outside(2, compared(2, Some(3))),
        cell(compared(3, None)),
        integers(2, shown(2)),
        integers(2, shown(3)),
        with_outside(2, shown(2)),
        cell(shown(3)),
        integers(2, exit(3)),
        with_outside(2, exit(2)),
        cell(exit(3)),
    ]
}
