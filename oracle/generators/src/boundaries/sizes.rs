//! The largest contexts, substitutions, outputs and annotations that accepted programs lead to.

use super::{Call, LINEARIZE, Table};
use crate::build::{
    call, clause, create, def, ext, exts, ifc, let_, literal, one, print_i64, prog, switch,
};
use reference::syntax::{Binding, Def, Prog, Statement};

pub(super) fn rows(table: &mut Table) {
    table.prog("126 pairs before a Create", &create_pairs(), LINEARIZE, 0);
    table.prog("95 pairs before a Let", &let_pairs(), LINEARIZE, 0);
    table.prog("65 pairs before a Switch", &switch_pairs(), LINEARIZE, 0);
    table.prog("63 pairs before a PrintI64", &print_pairs(), LINEARIZE, 0);
    table.prog("an output 128 statements deep", &deepest(), LINEARIZE, 0);
    table.prog("an output of 3,969 records", &longest(), LINEARIZE, 0);
    let largest = Call::Annotate {
        record: 1,
        room: 2 + 2 * 3_201,
    };
    table.prog("an annotation of 3,201 IDs", &annotation(), largest, 0);
}

/// With 63 bindings in scope, 32 of them parameters and the others by Literals.
fn with_63(statement: Statement) -> Prog {
    let body = (33..=63)
        .rev()
        .fold(statement, |next, id| literal(1, id, next));
    one(200, exts(1, 32), body)
}

/// A body that uses all 63 and these, in two Calls, for a count is at most 32.
fn uses_63(and: Vec<Binding>) -> Statement {
    let second = [exts(33, 63), and].concat();
    ifc(1, None, call(exts(1, 32)), call(second))
}

pub fn create_pairs() -> Prog {
    let clauses = vec![clause(1, Vec::new(), uses_63(Vec::new()))];
    with_63(create(100, clauses, uses_63(Vec::new())))
}

pub fn let_pairs() -> Prog {
    with_63(let_(100, vec![ext(1); 32], uses_63(Vec::new())))
}

/// With one more in scope, which is switched and stays.
pub fn switch_pairs() -> Prog {
    let clauses = vec![clause(1, Vec::new(), uses_63(vec![ext(64)]))];
    with_63(literal(1, 64, switch(64, clauses)))
}

/// With one more in scope, which the other branch uses.
pub fn print_pairs() -> Prog {
    let shown = print_i64(true, 63, uses_63(Vec::new()));
    with_63(literal(1, 64, ifc(1, None, uses_63(vec![ext(64)]), shown)))
}

/// So many statements, each with one binding in its context that nothing uses: a Substitute comes
/// before each.
fn unused(statements: u32) -> Def {
    let body = (1..statements).fold(call(Vec::new()), |next, id| literal(1, id, next));
    def(0, vec![ext(100)], body)
}

pub fn deepest() -> Prog {
    prog(100, vec![unused(64)])
}

/// 31 definitions and 1,969 statements, and a Substitute for each of these.
pub fn longest() -> Prog {
    let mut defs = vec![unused(64); 30];
    defs.push(unused(49));
    prog(100, defs)
}

/// One hundred Calls of 32 variables each, none of them in scope (annotation asks no question 9), and
/// the Literal's own.
pub fn annotation() -> Prog {
    let leaf = |place: u32| call(exts(1_000 + 32 * place, 1_031 + 32 * place));
    let clauses = |first: u32| -> Vec<_> {
        (first..first + 25)
            .map(|place| clause(1, Vec::new(), leaf(place)))
            .collect()
    };
    let two = |first: u32| {
        ifc(
            1,
            None,
            switch(1, clauses(first)),
            switch(1, clauses(first + 25)),
        )
    };
    let body = literal(1, 1, ifc(1, None, two(0), two(50)));
    one(1, Vec::new(), body)
}
