//! Questions 13 and 12 of annotation, and the questions that it does not ask.

use super::{Call, Table};
use crate::build::{call, clause, create, def, ext, exts, literal, one, prog, switch};
use crate::changes;
use reference::syntax::{Prog, Statement};

pub fn rows(table: &mut Table) {
    places(table);
    room(table);
    unasked(table);
}

fn annotate(record: usize, room: usize) -> Call {
    Call::Annotate { record, room }
}

fn places(table: &mut Table) {
    let prog = changes::every_kind();
    for record in 0..13 {
        let number = if [1, 2, 3, 4, 5, 9].contains(&record) {
            0
        } else {
            13
        };
        let what = format!("record {record} of every kind");
        table.prog(&what, &prog, annotate(record, 100), number);
        // 13 goes before 12
        let number = if number == 0 { 12 } else { 13 };
        table.prog(&what, &prog, annotate(record, 0), number);
    }
    for record in [13, 14, 4_000, 65_536, usize::MAX] {
        let what = format!("record {record} of 13");
        table.prog(&what, &prog, annotate(record, 100), 13);
    }
    let last = one(1, vec![ext(1)], switch(1, Vec::new()));
    table.prog("the last record", &last, annotate(1, 2), 0);
    table.prog("a record after the last", &last, annotate(2, 2), 13);
    let none = prog_of_nothing();
    table.prog("no record", &none, annotate(0, 2), 13);
}

fn prog_of_nothing() -> Prog {
    prog(1, Vec::new())
}

fn room(table: &mut Table) {
    let of = |body: Statement| one(9, vec![ext(1)], body);
    let rows = [
        (of(literal(1, 2, call(Vec::new()))), 2),
        (of(literal(1, 2, call(exts(1, 2)))), 6),
        (of(create(2, Vec::new(), call(Vec::new()))), 4),
        (
            of(create(
                2,
                vec![clause(1, Vec::new(), call(vec![ext(1)]))],
                call(exts(1, 2)),
            )),
            10,
        ),
    ];
    for (prog, needed) in rows {
        for (room, number) in [(0, 12), (needed - 1, 12), (needed, 0), (needed + 1, 0)] {
            let what = format!("{room} bytes of room for {needed}");
            table.prog(&what, &prog, annotate(1, room), number);
        }
    }
}

/// "Annotation 1 to 7, 13, 12."
fn unasked(table: &mut Table) {
    let shadowed = one(1, vec![ext(1)], literal(1, 1, call(vec![ext(1)])));
    table.prog("annotation does not ask 8", &shadowed, annotate(1, 9), 0);
    let unbound = one(1, Vec::new(), literal(1, 1, call(vec![ext(5)])));
    table.prog("annotation does not ask 9", &unbound, annotate(1, 9), 0);
    let above = one(0, Vec::new(), literal(1, 1, call(vec![ext(1)])));
    table.prog("annotation does not ask 10", &above, annotate(1, 9), 0);
    let drawing = literal(1, 65_535, call(vec![ext(65_535); 2]));
    let drawing = one(65_535, Vec::new(), drawing);
    table.prog("annotation does not ask 11", &drawing, annotate(1, 9), 0);
    let long = one(1, Vec::new(), literal(1, 1, call(vec![ext(1); 33])));
    table.prog("annotation asks 7", &long, annotate(1, 9), 7);
    table.prog("7 goes before 13", &long, annotate(9, 9), 7);
    let two = prog(
        1,
        vec![
            def(0, vec![ext(1)], literal(1, 1, call(vec![ext(1)]))),
            def(1, Vec::new(), literal(1, 1, call(vec![ext(5)]))),
        ],
    );
    table.prog("a record of the second definition", &two, annotate(4, 4), 0);
    table.prog("the second definition itself", &two, annotate(3, 4), 13);
}
