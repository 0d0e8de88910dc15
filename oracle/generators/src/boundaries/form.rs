//! Questions 6 and 7.

use super::Table;
use crate::build::{
    call, clause, create, create_with, def, ext, exts, ifc, invoke, let_, literal, one, op, pair,
    prd, prog, substitute, switch,
};
use reference::syntax::{BinOp, Binding, Prog, Statement};

pub fn rows(table: &mut Table) {
    plain(table);
    records(table);
    counts(table);
    scope(table);
    repeats(table);
}

fn leaf() -> Statement {
    call(Vec::new())
}

fn plain(table: &mut Table) {
    let mut refused = |what: &str, body: Statement| {
        table.check(what, &one(9, vec![ext(1)], body), 6);
    };
    refused("a Substitute", substitute(vec![pair(ext(1), 1)], leaf()));
    refused("an empty Substitute", substitute(Vec::new(), leaf()));
    refused(
        "an environment",
        create_with(2, Some(vec![ext(1)]), Vec::new(), leaf()),
    );
    refused(
        "an empty environment",
        create_with(2, Some(Vec::new()), Vec::new(), leaf()),
    );
    let inside = substitute(Vec::new(), leaf());
    refused(
        "a Substitute in a clause",
        switch(1, vec![clause(1, Vec::new(), inside.clone())]),
    );
    refused("a Substitute in a branch", ifc(1, None, leaf(), inside));
    let later = def(1, Vec::new(), substitute(Vec::new(), leaf()));
    let two = prog(9, vec![def(0, vec![ext(9)], call(vec![ext(8)])), later]);
    table.check("a Substitute in a later definition", &two, 6);
}

/// Definitions of two records each, the first with one more or not.
fn of_records(definitions: usize, odd: bool) -> Prog {
    let mut defs = vec![def(0, Vec::new(), leaf()); definitions];
    if odd {
        defs[0].body = literal(1, 1, leaf());
    }
    prog(1, defs)
}

fn records(table: &mut Table) {
    table.check("2,000 records", &of_records(1_000, false), 0);
    table.check("2,001 records", &of_records(1_000, true), 7);
}

fn counts(table: &mut Table) {
    let clauses = |count| vec![clause(1, Vec::new(), leaf()); count];
    let mut count = |what: &str, of: &dyn Fn(u32) -> Prog| {
        table.check(&format!("32 {what}"), &of(32), 0);
        table.check(&format!("33 {what}"), &of(33), 7);
    };
    let body = |body| one(99, vec![ext(1)], body);
    let args = |count: u32| vec![ext(1); count as usize];
    count("parameters", &|count| one(99, exts(1, count), leaf()));
    count("args of Call", &|count| body(call(args(count))));
    count("args of Invoke", &|count| body(invoke(1, args(count))));
    count("args of Let", &|count| body(let_(2, args(count), leaf())));
    count("clauses of Switch", &|count| {
        body(switch(1, clauses(count as usize)))
    });
    count("clauses of Create", &|count| {
        body(create(2, clauses(count as usize), leaf()))
    });
    count("parameters of a clause of Switch", &|count| {
        body(switch(1, vec![clause(1, exts(2, count + 1), leaf())]))
    });
    count("parameters of a clause of Create", &|count| {
        body(create(
            2,
            vec![clause(1, exts(3, count + 2), leaf())],
            leaf(),
        ))
    });
}

/// With 32 parameters and so many Literals in scope, the statement.
pub(super) fn in_scope(bindings: u32, statement: Statement) -> Prog {
    let body = (33..=bindings)
        .rev()
        .fold(statement, |next, id| literal(1, id, next));
    one(200, exts(1, 32), body)
}

/// A statement that uses the IDs 1 to 64, in two Calls, for a count is at most 32.
pub(super) fn uses_64() -> Statement {
    ifc(1, None, call(exts(1, 32)), call(exts(33, 64)))
}

fn scope(table: &mut Table) {
    let mut edge = |what: &str, of: &dyn Fn() -> Statement| {
        table.check(&format!("64 in scope: {what}"), &in_scope(63, of()), 0);
        table.check(&format!("65 in scope: {what}"), &in_scope(64, of()), 7);
    };
    edge("Literal's var", &|| literal(1, 100, leaf()));
    edge("Op's var", &|| op(1, BinOp::Sum, 2, 100, leaf()));
    edge("Let's var", &|| let_(100, vec![ext(1)], leaf()));
    edge("Create's var", &|| create(100, Vec::new(), leaf()));
    edge("a Switch clause's parameter", &|| {
        switch(1, vec![clause(1, vec![ext(100)], leaf())])
    });
    edge("a Create clause's parameter", &|| {
        let clauses = vec![clause(1, vec![ext(101)], leaf())];
        create(100, clauses, leaf())
    });
    table.check("64 in scope at a leaf", &in_scope(64, leaf()), 0);
    table.check("65 in scope at a leaf", &in_scope(65, leaf()), 7);
    table.check(
        "64 in scope, and a clause without parameters",
        &in_scope(64, switch(1, vec![clause(1, Vec::new(), leaf())])),
        0,
    );
    table.check(
        "64 in scope, and branches",
        &in_scope(64, ifc(1, Some(2), leaf(), leaf())),
        0,
    );
    table.check(
        "a switched variable stays in scope",
        &in_scope(64, switch(64, vec![clause(1, vec![ext(100)], leaf())])),
        7,
    );
    let both: Vec<Binding> = exts(100, 131);
    let clauses = vec![clause(1, both.clone(), leaf()), clause(2, both, leaf())];
    table.check(
        "sibling clauses have their own scopes",
        &in_scope(32, switch(1, clauses)),
        0,
    );
}

/// Repeats count for question 7, which is asked before question 8.
fn repeats(table: &mut Table) {
    let repeated = |count| {
        let body = (0..count).fold(leaf(), |next, _| literal(1, 1, next));
        one(1, Vec::new(), body)
    };
    // so deep that only the scope decides
    let below = |count| {
        let clauses = vec![clause(
            1,
            vec![prd(1); 32],
            repeated(count).defs.remove(0).body,
        )];
        one(1, vec![ext(1)], switch(1, clauses))
    };
    table.check("64 in scope with repeats", &below(31), 8);
    table.check("65 in scope with repeats", &below(32), 7);
}
