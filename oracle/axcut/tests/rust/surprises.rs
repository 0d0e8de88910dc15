//! What the Rust does that a reader of document 01 may not expect: the facts of docs/DIFFERENCES.md.

use crate::build::{
    call, clause, cns, create, ext, ifc, invoke, linearized, literal, prd, spelled, substitute,
    switch, var,
};
use axcut::syntax::{Def, Prog, Statement};
use axcut::traits::free_vars::FreeVars;
use std::collections::HashSet;

fn free(statement: Statement) -> Vec<usize> {
    let mut vars = HashSet::new();
    statement.free_vars(&mut vars);
    let mut ids: Vec<usize> = vars.into_iter().collect();
    ids.sort();
    ids
}

/// Pair by pair the source is added and the target removed, so a later pair's target takes an
/// earlier pair's source away. Question 6 keeps this from every answer.
#[test]
fn free_variables_of_a_substitute() {
    assert_eq!(free(substitute(vec![(ext(1), 1)], call(vec![]))), []);
    let exchange = vec![(ext(1), 2), (ext(2), 1)];
    assert_eq!(free(substitute(exchange, call(vec![]))), [1]);
}

/// Where nothing is wanted, a Substitute without pairs comes.
#[test]
fn an_empty_substitute() {
    let result = linearized(vec![ext(1)], call(vec![]), 1);
    assert_eq!(result, (substitute(vec![], call(vec![])), 1));
}

/// A use spelled in another way brings a Substitute of a variable for itself.
#[test]
fn a_substitute_that_moves_nothing() {
    let mut other = ext(1);
    other.var.name = "y".to_string();
    let result = linearized(vec![ext(1)], call(vec![other.clone()]), 1);
    let source = other.var.clone();
    assert_eq!(result, (spelled(vec![(other, source)], call(vec![])), 1));
}

/// A Switch on an integer, or an Invoke of one, brings a Substitute that gives it another type.
#[test]
fn a_substitute_that_changes_a_type() {
    let result = linearized(vec![ext(1)], switch(1, vec![]), 1);
    assert_eq!(
        result,
        (substitute(vec![(prd(1), 1)], switch(1, vec![])), 1)
    );
    let result = linearized(vec![ext(1)], invoke(1, vec![]), 1);
    assert_eq!(
        result,
        (substitute(vec![(cns(1), 1)], invoke(1, vec![])), 1)
    );
}

/// IfC inserts nothing: what neither branch uses goes into both, and each drops it.
#[test]
fn unused_bindings_go_into_both_branches() {
    let result = linearized(vec![ext(1), ext(2)], ifc(1, call(vec![]), call(vec![])), 2);
    let drops = || substitute(vec![], call(vec![]));
    assert_eq!(result, (ifc(1, drops(), drops()), 2));
}

/// Create's environment may hold what its next context holds too: the next takes the fresh ID, the
/// clauses keep the old one.
#[test]
fn the_next_of_create_is_renamed_and_not_its_clauses() {
    let statement = create(
        2,
        None,
        vec![clause(vec![], call(vec![ext(1)]))],
        call(vec![ext(1)]),
    );
    let expected = substitute(
        vec![(ext(3), 1), (ext(1), 1)],
        create(
            2,
            Some(vec![ext(1)]),
            vec![clause(vec![], call(vec![]))],
            substitute(vec![(ext(3), 3)], call(vec![])),
        ),
    );
    assert_eq!(linearized(vec![ext(1)], statement, 2), (expected, 3));
}

/// Question 8 has a no: the Rust makes a list with an ID twice.
#[test]
fn a_binder_in_scope() {
    let result = linearized(vec![ext(1)], literal(1, 1, call(vec![ext(1)])), 1);
    let expected = literal(1, 1, substitute(vec![(ext(1), 1)], call(vec![])));
    assert_eq!(result, (expected, 1));
}

/// Question 9 has a no: the Rust takes a value from an absent source.
#[test]
fn a_variable_that_is_not_in_scope() {
    let result = linearized(vec![], call(vec![ext(1)]), 1);
    assert_eq!(result, (substitute(vec![(ext(1), 1)], call(vec![])), 1));
}

/// Question 10 has a no: the Rust draws an ID that is bound already.
#[test]
fn a_binder_above_max_id() {
    let result = linearized(vec![ext(1)], call(vec![ext(1), ext(1)]), 0);
    let expected = substitute(vec![(ext(1), 1), (ext(1), 1)], call(vec![]));
    assert_eq!(result, (expected, 1));
}

/// Question 11 has a no: the Rust draws on.
#[test]
fn ids_beyond_a_field() {
    let result = linearized(vec![ext(1)], call(vec![ext(1), ext(1)]), 65_535);
    let expected = substitute(vec![(ext(1), 1), (ext(65_536), 1)], call(vec![]));
    assert_eq!(result, (expected, 65_536));
}

/// Question 7 has a no: the Rust has no limits.
#[test]
fn beyond_the_limits() {
    let args: Vec<_> = (0..33).map(ext).collect();
    let context: Vec<_> = (0..65).map(ext).collect();
    let pairs = (0..33).map(|id| (ext(id), id)).collect();
    let result = linearized(context, call(args), 64);
    assert_eq!(result, (substitute(pairs, call(vec![])), 64));

    let deep = |next| (1..65).fold(next, |next, id| literal(1, id, next));
    let result = linearized(vec![], deep(call(vec![])), 64);
    assert_eq!(result.1, 64);

    let def = Def {
        name: var(0),
        context: vec![].into(),
        body: call(vec![]),
    };
    let mut prog = Prog {
        defs: vec![def; 1_001],
        types: vec![],
        max_id: 0,
    };
    prog.linearize();
    assert_eq!(prog.defs.len(), 1_001);
}

/// Question 6 has a no, by a Substitute: the Rust panics.
#[test]
#[should_panic(expected = "without explicit substitutions")]
fn a_substitute_in_the_source() {
    linearized(vec![], substitute(vec![], call(vec![])), 0);
}

/// Question 6 has a no, by an environment: the Rust replaces it.
#[test]
fn an_environment_in_the_source() {
    let given = create(1, Some(vec![ext(7)]), vec![], call(vec![cns(1)]));
    let expected = create(1, Some(vec![]), vec![], call(vec![]));
    assert_eq!(linearized(vec![], given, 1), (expected, 1));
}

/// ID 0 is an ID like any other.
#[test]
fn id_0() {
    let result = linearized(vec![ext(0)], call(vec![ext(0), ext(0)]), 0);
    let expected = spelled(vec![(ext(0), var(0)), (ext(1), var(0))], call(vec![]));
    assert_eq!(result, (expected, 1));
}
