//! PrintI64 and Exit at every boundary, so that images that hold them get every number that they can
//! get.

mod answer;
mod scope;

use super::form::{in_scope, uses_64};
use super::reading::{changed_at, framed, resized};
use super::{Call, LINEARIZE, Table};
use crate::build::{
    call, def, exit, ext, exts, ifc, image, literal, named, one, pair, print_i64, prog, substitute,
    var,
};
use reference::image::Record;
use reference::syntax::{Prog, Statement};

pub fn rows(table: &mut Table) {
    codes(table);
    lengths(table);
    order(table);
    plain(table);
    records(table);
    room_in_scope(table);
    scope::rows(table);
    answer::rows(table);
}

/// A definition with parameters 1 and 2 and that body, with max_id 9.
fn with_two(body: Statement) -> Prog {
    one(9, exts(1, 2), body)
}

/// Definition 0, PrintI64 1, Exit 2.
fn both() -> Prog {
    with_two(print_i64(false, 1, exit(2)))
}

const PRINT: usize = 1;
const EXIT: usize = 2;

/// Every call answers the image with that number.
fn all_calls(table: &mut Table, what: &str, image: Vec<u8>, number: u8) {
    let annotate = Call::Annotate {
        record: PRINT,
        room: 100,
    };
    for call in [Call::Read, Call::Check, LINEARIZE, annotate] {
        table.image(what, image.clone(), call, number);
    }
}

fn codes(table: &mut Table) {
    let mut code = |what: &str, record: usize, byte: usize, to: u8, number: u8| {
        let image = changed_at(image(&both()), record, byte, to);
        all_calls(table, &format!("{what} {to}"), image, number);
    };
    code("PrintI64's kind", PRINT, 0, 12, 0);
    code("Exit's kind", EXIT, 0, 13, 0);
    for (newline, number) in [(0, 0), (1, 0), (2, 4), (3, 4), (128, 4), (255, 4)] {
        code("newline byte", PRINT, 1, newline, number);
    }
    for kind in [0, 13, 14, 255] {
        code("kind in PrintI64's place", PRINT, 0, kind, 4);
    }
    for kind in [0, 12, 14, 255] {
        code("kind in Exit's place", EXIT, 0, kind, 4);
    }
}

fn lengths(table: &mut Table) {
    for (name, record) in [("PrintI64", PRINT), ("Exit", EXIT)] {
        for (what, longer) in [("more", true), ("less", false)] {
            let image = resized(image(&both()), record, longer);
            all_calls(table, &format!("a byte {what} in {name}"), image, 4);
        }
    }
}

fn definition() -> Record {
    Record::Definition {
        name: named(1, 0),
        params: vec![ext(1)],
    }
}

fn clause() -> Record {
    Record::Clause {
        xtor: named(1, 0),
        params: Vec::new(),
    }
}

fn leaf() -> Record {
    Record::Call {
        label: named(1, 0),
        args: Vec::new(),
    }
}

fn printing() -> Record {
    Record::PrintI64 {
        newline: true,
        var: var(1),
    }
}

fn exiting() -> Record {
    Record::Exit { var: var(1) }
}

/// So many definitions, the first with these records behind it.
fn ordered(table: &mut Table, what: &str, definitions: u16, body: &[Record], number: u8) {
    let image = framed(definitions, [&[definition()], body].concat());
    if number == 0 {
        table.image(what, image, Call::Read, 0);
    } else {
        all_calls(table, what, image, number);
    }
}

fn order(table: &mut Table) {
    let mut row = |what: &str, body: &[Record], number: u8| {
        ordered(table, what, 1, body, number);
    };
    let (print, exit) = (printing, exiting);
    row("an Exit for a body", &[exit()], 0);
    row("a PrintI64 without a body", &[print()], 5);
    row("a PrintI64 with a body", &[print(), exit()], 0);
    row("a PrintI64 with two", &[print(), exit(), leaf()], 5);
    row("two PrintI64s", &[print(), print(), leaf()], 0);
    row("a body behind an Exit", &[exit(), exit()], 5);
    row("a Call behind an Exit", &[exit(), leaf()], 5);
    row("a PrintI64 behind an Exit", &[exit(), print()], 5);
    row("a clause below PrintI64", &[print(), clause(), exit()], 5);
    row("a clause behind an Exit", &[exit(), clause(), leaf()], 5);
    let mut two = |what: &str, body: &[Record], number: u8| {
        ordered(table, what, 2, body, number);
    };
    two("an Exit of two definitions", &[exit()], 5);
    let next = [exit(), definition(), exit()];
    two("a definition behind an Exit", &next, 0);
    let below = [print(), definition(), exit()];
    two("a definition below PrintI64", &below, 5);
}

fn plain(table: &mut Table) {
    let same = || vec![pair(ext(1), 1)];
    let rows = [
        (
            "a Substitute before PrintI64",
            substitute(same(), print_i64(true, 1, call(Vec::new()))),
        ),
        (
            "a Substitute behind PrintI64",
            print_i64(true, 1, substitute(same(), call(Vec::new()))),
        ),
        ("a Substitute before Exit", substitute(same(), exit(1))),
        (
            "a Substitute between both",
            print_i64(false, 2, substitute(same(), exit(1))),
        ),
    ];
    for (what, body) in rows {
        table.check(what, &with_two(body), 6);
    }
}

/// Definitions of three records each, PrintI64 and Exit in all of them, the last with one more or
/// not.
fn of_threes(definitions: usize, more: bool) -> Prog {
    let of = |body| def(0, vec![ext(1)], body);
    let mut defs = vec![of(print_i64(false, 1, exit(1))); definitions];
    defs.push(of(if more {
        print_i64(true, 1, exit(1))
    } else {
        exit(1)
    }));
    prog(1, defs)
}

fn records(table: &mut Table) {
    table.check("2,000 records, a third PrintI64", &of_threes(666, false), 0);
    table.check("2,001 records, a third PrintI64", &of_threes(666, true), 7);
}

/// PrintI64 and Exit bind nothing.
fn room_in_scope(table: &mut Table) {
    let mut row = |what: &str, bindings: u32, statement: Statement, number: u8| {
        let what = format!("{bindings} in scope: {what}");
        table.check(&what, &in_scope(bindings, statement), number);
    };
    for (bindings, number) in [(64, 0), (65, 7)] {
        row("Exit", bindings, exit(1), number);
        row(
            "PrintI64",
            bindings,
            print_i64(false, 2, call(Vec::new())),
            number,
        );
        row(
            "PrintI64, Exit",
            bindings,
            print_i64(true, 64, exit(1)),
            number,
        );
        row(
            "all used behind PrintI64",
            bindings,
            print_i64(true, 5, uses_64()),
            number,
        );
        let full = ifc(1, None, uses_64(), exit(64));
        row("Exit in a full context", bindings, full, number);
        let dropped = ifc(1, None, uses_64(), print_i64(false, 64, exit(3)));
        row("PrintI64 in a full context", bindings, dropped, number);
    }
    let bound = |id| print_i64(false, 1, literal(1, 100, exit(id)));
    row("a Literal behind PrintI64", 63, bound(100), 0);
    row("a Literal behind PrintI64", 64, bound(1), 7);
}
