//! Questions 8, 9 and 10.

use super::Table;
use crate::build::{
    call, clause, create, def, ext, ifc, invoke, let_, literal, named, one, op, prog, switch, var,
};
use reference::syntax::{BinOp, Binding, Chirality, Clause, Prog, Statement, Ty};

pub fn rows(table: &mut Table) {
    binders(table);
    uses(table);
    max_id(table);
    first_no(table);
}

fn leaf() -> Statement {
    call(Vec::new())
}

fn takes(id: u32) -> Vec<Clause> {
    vec![clause(1, vec![ext(id)], leaf())]
}

/// A definition with parameter 1 and that body, with max_id 9.
fn with_1(body: Statement) -> Prog {
    one(9, vec![ext(1)], body)
}

fn binders(table: &mut Table) {
    let mut row = |what: &str, body: Statement, number: u8| {
        table.check(what, &with_1(body), number);
    };
    row("Literal binds a parameter", literal(1, 1, leaf()), 8);
    row("Op binds its input", op(1, BinOp::Sum, 1, 1, leaf()), 8);
    row("Let binds its arg", let_(1, vec![ext(1)], leaf()), 8);
    row("Create binds a parameter", create(1, Vec::new(), leaf()), 8);
    row("a clause binds a parameter", switch(1, takes(1)), 8);
    row(
        "a closure binds a parameter",
        create(2, takes(1), leaf()),
        8,
    );
    row(
        "a clause binds twice",
        switch(1, vec![clause(1, vec![ext(2), ext(2)], leaf())]),
        8,
    );
    row(
        "sibling clauses bind the same",
        switch(1, [takes(2), takes(2)].concat()),
        0,
    );
    row(
        "branches bind the same",
        ifc(1, None, literal(1, 2, leaf()), literal(1, 2, leaf())),
        0,
    );
    row(
        "a closure binds Create's var",
        create(2, takes(2), leaf()),
        0,
    );
    row(
        "a Literal in a closure binds Create's var",
        create(
            2,
            vec![clause(1, Vec::new(), literal(1, 2, leaf()))],
            leaf(),
        ),
        0,
    );
    row(
        "the next of Create binds its var again",
        create(2, Vec::new(), literal(1, 2, leaf())),
        8,
    );
    row(
        "the next of Create binds what a closure bound",
        create(2, takes(3), literal(1, 3, leaf())),
        0,
    );
    row(
        "a clause binds what was switched",
        literal(1, 2, switch(2, takes(2))),
        8,
    );
    table.check(
        "parameters bind twice",
        &one(9, vec![ext(1), ext(1)], leaf()),
        8,
    );
    let twice = vec![def(0, vec![ext(1)], leaf()), def(0, vec![ext(1)], leaf())];
    table.check("definitions bind the same", &prog(9, twice), 0);
    table.check(
        "ID 0 is an ordinary ID",
        &one(0, vec![ext(0)], literal(1, 0, leaf())),
        8,
    );
}

fn uses(table: &mut Table) {
    let mut row = |what: &str, body: Statement, number: u8| {
        table.check(what, &with_1(body), number);
    };
    row(
        "a Call uses what is not there",
        call(vec![ext(1), ext(2)]),
        9,
    );
    row("a Let uses its var", let_(2, vec![ext(2)], leaf()), 9);
    row("an Invoke of what is not there", invoke(2, vec![ext(1)]), 9);
    row(
        "an Invoke uses what is not there",
        invoke(1, vec![ext(2)]),
        9,
    );
    row("a Switch of what is not there", switch(2, Vec::new()), 9);
    row(
        "an Op uses its var first",
        op(2, BinOp::Sum, 1, 2, leaf()),
        9,
    );
    row(
        "an Op uses its var second",
        op(1, BinOp::Sum, 2, 2, leaf()),
        9,
    );
    row(
        "an IfC uses what is not there",
        ifc(2, None, leaf(), leaf()),
        9,
    );
    row(
        "an IfC uses what is not there second",
        ifc(1, Some(2), leaf(), leaf()),
        9,
    );
    let uses_2 = vec![clause(1, Vec::new(), call(vec![ext(2)]))];
    row(
        "a closure uses Create's var",
        create(2, uses_2.clone(), leaf()),
        9,
    );
    row(
        "the next of Create uses its var",
        create(2, Vec::new(), call(vec![ext(2)])),
        0,
    );
    row(
        "the next of Create uses what a closure bound",
        create(2, takes(3), call(vec![ext(3)])),
        9,
    );
    row(
        "a clause uses what its sibling binds",
        switch(1, [takes(2), uses_2].concat()),
        9,
    );
    row(
        "a branch uses what the other binds",
        ifc(1, None, literal(1, 2, leaf()), call(vec![ext(2)])),
        9,
    );
    row(
        "a switched variable stays in scope",
        switch(1, vec![clause(1, Vec::new(), call(vec![ext(1)]))]),
        0,
    );
    let other = vec![
        def(0, vec![ext(1)], leaf()),
        def(1, Vec::new(), call(vec![ext(1)])),
    ];
    table.check("a definition uses another's parameter", &prog(9, other), 9);
    table.check(
        "ID 0 is not there",
        &one(9, Vec::new(), call(vec![ext(0)])),
        9,
    );
}

fn max_id(table: &mut Table) {
    let mut edge = |what: &str, of: &dyn Fn(u32) -> Prog| {
        table.check(&format!("max_id at {what}"), &of(5), 0);
        table.check(&format!("max_id below {what}"), &of(4), 10);
    };
    edge("a parameter", &|max_id| one(max_id, vec![ext(5)], leaf()));
    let one_1 = |max_id, body| one(max_id, vec![ext(1)], body);
    edge("Literal's var", &|max_id| {
        one_1(max_id, literal(1, 5, leaf()))
    });
    edge("Let's var", &|max_id| {
        one_1(max_id, let_(5, Vec::new(), leaf()))
    });
    edge("Create's var", &|max_id| {
        one_1(max_id, create(5, Vec::new(), leaf()))
    });
    edge("Op's var", &|max_id| {
        one_1(max_id, op(1, BinOp::Sum, 1, 5, leaf()))
    });
    edge("a clause's parameter", &|max_id| {
        one_1(max_id, switch(1, takes(5)))
    });
    let elsewhere = Statement::Let {
        var: var(1),
        ty: Ty::Decl(named(1, 65_535)),
        tag: named(1, 65_535),
        args: vec![Binding {
            var: var(0),
            chi: Chirality::Prd,
            ty: Ty::Decl(named(1, 65_535)),
        }],
        next: Box::new(Statement::Call {
            label: named(1, 65_535),
            args: Vec::new(),
        }),
    };
    let mut labelled = one(1, vec![ext(0)], elsewhere);
    labelled.defs[0].name = named(1, 65_535);
    table.check("labels, tags and types above max_id", &labelled, 0);
}

/// The first question answered with no decides, wherever in the image its no stands.
fn first_no(table: &mut Table) {
    let unbound = def(0, Vec::new(), call(vec![ext(3)]));
    let above = def(0, vec![ext(9)], leaf());
    let twice = def(0, vec![ext(1), ext(1)], leaf());
    let long = def(0, Vec::new(), call(vec![ext(3); 33]));
    let mut row = |what: &str, defs: Vec<_>, number: u8| {
        table.check(what, &prog(8, defs), number);
    };
    row("10 alone", vec![above.clone()], 10);
    row("10, then 9", vec![above.clone(), unbound.clone()], 9);
    row("9, then 8", vec![unbound.clone(), twice.clone()], 8);
    row("10, 9, 8, then 7", vec![above, unbound, twice, long], 7);
}
