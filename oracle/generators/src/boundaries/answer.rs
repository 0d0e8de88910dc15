//! Questions 11 and 12 of linearization.

use super::{Call, LINEARIZE, ROOM, Table};
use crate::build::{call, def, ext, exts, image, invoke, literal, one, prog};
use reference::syntax::{Def, Prog};

pub fn rows(table: &mut Table) {
    fresh(table);
    room(table);
    largest_output(table);
}

fn fresh(table: &mut Table) {
    let drawing = |max_id, draws: usize| one(max_id, vec![ext(1)], call(vec![ext(1); 1 + draws]));
    let mut row = |max_id, draws, number| {
        let what = format!("max_id {max_id} and {draws} draws");
        table.prog(&what, &drawing(max_id, draws), LINEARIZE, number);
        // 11 goes before 12
        let without = Call::Linearize { room: 0 };
        let number = if number == 0 { 12 } else { number };
        table.prog(&what, &drawing(max_id, draws), without, number);
        table.prog(&what, &drawing(max_id, draws), Call::Check, 0);
    };
    row(65_535, 0, 0);
    row(65_535, 1, 11);
    row(65_535, 31, 11);
    row(65_534, 1, 0);
    row(65_534, 2, 11);
    row(65_504, 31, 0);
    row(65_505, 31, 11);
    let twice = |max_id| {
        let doubled = |name| def(name, vec![ext(1)], call(vec![ext(1), ext(1)]));
        prog(max_id, vec![doubled(0), doubled(1)])
    };
    table.prog("a draw in each definition", &twice(65_533), LINEARIZE, 0);
    table.prog("a draw in each definition", &twice(65_534), LINEARIZE, 11);
}

fn room(table: &mut Table) {
    let worked = one(1, Vec::new(), literal(7, 1, call(vec![ext(1)])));
    let substituted = one(2, exts(1, 2), invoke(1, vec![ext(1)]));
    for (prog, needed) in [(worked, 45), (substituted, 91), (prog(3, Vec::new()), 8)] {
        for (room, number) in [(0, 12), (needed - 1, 12), (needed, 0), (needed + 1, 0)] {
            let what = format!("{room} bytes of room for {needed}");
            table.prog(&what, &prog, Call::Linearize { room }, number);
        }
    }
}

/// An output of 26 + 24 × 32 = 794 bytes, of 20, and of 37, by definition.
fn reversed() -> Def {
    let mut args = exts(1, 32);
    args.reverse();
    def(0, exts(1, 32), call(args))
}

fn empty() -> Def {
    def(0, Vec::new(), call(Vec::new()))
}

fn one_literal() -> Def {
    def(0, Vec::new(), literal(1, 1, call(vec![ext(1)])))
}

/// A program whose output has 8 + 82 × 794 bytes and these.
fn of_output(empties: usize, literals: usize) -> Prog {
    let defs = [
        vec![reversed(); 82],
        vec![empty(); empties],
        vec![one_literal(); literals],
    ];
    prog(32, defs.concat())
}

fn largest_output(table: &mut Table) {
    let full = image(&of_output(8, 7));
    let over = image(&of_output(21, 0));
    for (room, number) in [(ROOM - 1, 12), (ROOM, 0), (ROOM + 1, 0)] {
        let what = format!("an output of 65,535 bytes in {room}");
        table.image(&what, full.clone(), Call::Linearize { room }, number);
    }
    for room in [0, ROOM, ROOM + 1, 2 * ROOM] {
        let what = format!("an output of 65,536 bytes in {room}");
        table.image(&what, over.clone(), Call::Linearize { room }, 12);
    }
}
