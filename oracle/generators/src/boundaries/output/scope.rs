//! Questions 8, 9 and 10.

use super::{Table, with_two};
use crate::build::{call, clause, create, exit, ext, ifc, literal, one, print_i64, switch};
use reference::syntax::Statement;

pub fn rows(table: &mut Table) {
    let mut row = |what: &str, body: Statement, number: u8| {
        table.check(what, &with_two(body), number);
    };
    row("an Exit", exit(2), 0);
    row("a PrintI64", print_i64(true, 2, call(Vec::new())), 0);
    row("one variable again and again", again(exit(1)), 0);
    row("a PrintI64 binds nothing", again(exit(3)), 9);
    row("a binder behind PrintI64", again(literal(1, 3, exit(3))), 0);
    row(
        "a binder in scope behind PrintI64",
        again(literal(1, 1, exit(1))),
        8,
    );
    row(
        "a PrintI64 of what is not there",
        print_i64(false, 3, exit(1)),
        9,
    );
    row(
        "an Exit of what is not there",
        print_i64(false, 1, exit(3)),
        9,
    );
    row("an Exit of ID 0", exit(0), 9);
    row(
        "a PrintI64 of ID 0",
        print_i64(true, 0, call(Vec::new())),
        9,
    );
    below_binders(table);
    max_id(table);
}

/// PrintI64 twice of the same variable.
fn again(next: Statement) -> Statement {
    print_i64(false, 1, print_i64(true, 1, next))
}

fn below_binders(table: &mut Table) {
    let mut row = |what: &str, body: Statement, number: u8| {
        table.check(what, &with_two(body), number);
    };
    let closure = |body| create(3, vec![clause(1, vec![ext(4)], body)], exit(1));
    row("a closure exits with its parameter", closure(exit(4)), 0);
    row("a closure exits with Create's var", closure(exit(3)), 9);
    row(
        "a closure prints Create's var",
        closure(print_i64(true, 3, exit(1))),
        9,
    );
    let next = |body| create(3, vec![clause(1, vec![ext(4)], exit(4))], body);
    row("the next of Create exits with its var", next(exit(3)), 0);
    row(
        "the next of Create prints its var",
        next(print_i64(true, 3, exit(1))),
        0,
    );
    row(
        "the next of Create exits with a closure's",
        next(exit(4)),
        9,
    );
    let clauses = vec![
        clause(1, vec![ext(3)], print_i64(false, 3, exit(1))),
        clause(2, Vec::new(), exit(3)),
    ];
    row("a clause exits with its sibling's", switch(1, clauses), 9);
    let matched = vec![clause(1, vec![ext(3)], print_i64(false, 3, exit(1)))];
    row(
        "a clause exits with what was switched",
        switch(1, matched),
        0,
    );
    let branches = ifc(1, None, literal(1, 3, exit(3)), exit(3));
    row("a branch exits with what the other binds", branches, 9);
}

fn max_id(table: &mut Table) {
    let of = |max_id| {
        let body = print_i64(true, 1, literal(1, 5, exit(5)));
        one(max_id, vec![ext(1)], body)
    };
    table.check("max_id at a binder behind PrintI64", &of(5), 0);
    table.check("max_id below a binder behind PrintI64", &of(4), 10);
}
