//! Questions 11, 12 and 13.

use super::{Call, LINEARIZE, Table, both, with_two};
use crate::build::{call, clause, create, exit, ext, exts, ifc, literal, one, print_i64};
use reference::syntax::{Prog, Statement};

pub fn rows(table: &mut Table) {
    fresh(table);
    room(table);
    annotation(table);
    annotation_room(table);
}

/// PrintI64 and Exit draw nothing.
fn fresh(table: &mut Table) {
    let last = one(
        65_535,
        vec![ext(65_535)],
        print_i64(true, 65_535, exit(65_535)),
    );
    table.prog("max_id 65,535, PrintI64 and Exit", &last, LINEARIZE, 0);
    let dropped = one(65_535, exts(1, 3), print_i64(false, 2, exit(3)));
    table.prog("max_id 65,535, PrintI64 drops", &dropped, LINEARIZE, 0);
    let drawing = |max_id| {
        let twice = call(vec![ext(1); 2]);
        one(
            max_id,
            vec![ext(1)],
            print_i64(true, 1, ifc(1, None, exit(1), twice)),
        )
    };
    table.prog("a draw behind PrintI64", &drawing(65_534), LINEARIZE, 0);
    table.prog("a draw behind PrintI64", &drawing(65_535), LINEARIZE, 11);
}

/// Row j of document 01 with these in its clause and behind it: 1 becomes 5 in the next.
fn renamed() -> Prog {
    let clauses = vec![clause(1, vec![ext(4)], print_i64(false, 4, exit(1)))];
    one(
        4,
        exts(1, 2),
        create(3, clauses, print_i64(true, 1, exit(1))),
    )
}

fn room(table: &mut Table) {
    let dropped = one(3, exts(1, 3), print_i64(false, 2, exit(3)));
    let rows = [
        ("PrintI64 and Exit", both(), 57),
        ("an Exit with another binding", with_two(exit(1)), 47),
        ("a Substitute before PrintI64", dropped, 101),
        ("PrintI64 and Exit under a renaming", renamed(), 177),
    ];
    for (what, prog, needed) in rows {
        for (room, number) in [(0, 12), (needed - 1, 12), (needed, 0), (needed + 1, 0)] {
            let what = format!("{what}: {room} bytes of room for {needed}");
            table.prog(&what, &prog, Call::Linearize { room }, number);
        }
    }
}

fn annotation(table: &mut Table) {
    let body = print_i64(true, 1, literal(1, 3, print_i64(false, 3, exit(2))));
    let prog = with_two(body);
    for (record, number) in [(0, 13), (1, 0), (2, 0), (3, 0), (4, 13), (5, 13)] {
        let what = format!("record {record} of PrintI64, Literal, PrintI64, Exit");
        table.prog(&what, &prog, Call::Annotate { record, room: 100 }, number);
        // 13 goes before 12
        let without = if number == 0 { 12 } else { 13 };
        table.prog(&what, &prog, Call::Annotate { record, room: 0 }, without);
    }
    let alone = with_two(exit(1));
    let exit = Call::Annotate { record: 1, room: 9 };
    table.prog("an Exit alone has no annotation", &alone, exit, 13);
    let unbound = with_two(print_i64(true, 7, super::exit(8)));
    table.prog("annotation does not ask 9", &unbound, exit, 0);
}

/// The free variables of the next, before PrintI64's own joins.
fn annotation_room(table: &mut Table) {
    let print = |next| print_i64(true, 1, next);
    let rows: [(&str, Statement, usize); 6] = [
        ("nothing behind PrintI64", print(call(Vec::new())), 2),
        ("its var behind PrintI64", print(exit(1)), 4),
        ("another behind PrintI64", print(exit(2)), 4),
        ("both behind PrintI64", print(call(exts(1, 2))), 6),
        (
            "a PrintI64 behind PrintI64",
            print(print(call(Vec::new()))),
            4,
        ),
        (
            "a PrintI64 behind Literal",
            literal(1, 3, print(exit(3))),
            6,
        ),
    ];
    for (what, body, needed) in rows {
        let prog = with_two(body);
        for (room, number) in [(needed - 1, 12), (needed, 0), (needed + 1, 0)] {
            let what = format!("{what}: {room} bytes of room for {needed}");
            table.prog(&what, &prog, Call::Annotate { record: 1, room }, number);
        }
    }
}
