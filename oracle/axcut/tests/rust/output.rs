//! PrintI64 and Exit in the unchanged Rust, in the manner of the rows of document 01.

use crate::build::{
    call, clause, cns, create, ext, exts, linearized, named, prd, print_i64, substitute, var,
};
use crate::build::{exit as exit_of, literal};
use axcut::syntax::{ContextBinding, ID, Identifier, Statement};
use axcut::traits::free_vars::FreeVars;

use std::collections::HashSet;

fn print(id: ID, next: Statement) -> Statement {
    print_i64(false, var(id), next)
}

fn exit(id: ID) -> Statement {
    exit_of(var(id))
}

/// The statement in a context of those IDs becomes the other one, and nothing is drawn.
fn becomes(context: &[ID], statement: Statement, expected: Statement) {
    let result = linearized(exts(context).bindings, statement, 70);
    assert_eq!(result, (expected, 70));
}

/// Each target from itself.
fn kept(ids: &[ID], next: Statement) -> Statement {
    substitute(ids.iter().map(|&id| (ext(id), id)).collect(), next)
}

#[test]
fn print_in_the_right_context() {
    for newline in [false, true] {
        let of = |next| print_i64(newline, var(1), next);
        // its var is used later, and is not
        becomes(&[1], of(call(vec![ext(1)])), of(call(vec![])));
        becomes(&[1], of(call(vec![])), of(kept(&[], call(vec![]))));
    }
    // it stays where it is, last or not
    becomes(&[1, 2], print(1, exit(2)), print(1, exit(2)));
    becomes(&[1, 2], print(2, exit(1)), print(2, exit(1)));
}

#[test]
fn print_in_another_context() {
    // its var is used later
    let drops = kept(&[3], print(3, call(vec![])));
    becomes(&[1, 2, 3], print(3, call(vec![ext(3)])), drops);
    // and is not: it stays until the next drops it
    let later = kept(&[1], call(vec![]));
    let expected = kept(&[1, 2], print(2, later));
    becomes(&[1, 2, 3], print(2, call(vec![ext(1)])), expected);
}

/// By two filters, first the next's variables and then its own, the two would be [2 1].
#[test]
fn print_retains_by_one_filter() {
    becomes(
        &[1, 2, 3],
        print(1, exit(2)),
        kept(&[1, 2], print(1, exit(2))),
    );
    becomes(
        &[1, 2, 3],
        print(2, exit(3)),
        kept(&[3, 2], print(2, exit(3))),
    );
}

/// The context of the next is the retained one, without anything bound.
#[test]
fn print_hands_the_retained_context_on() {
    let next = call(vec![ext(1), ext(2)]);
    becomes(
        &[1, 2, 3],
        print(2, next),
        kept(&[1, 2], print(2, call(vec![]))),
    );
    let twice = print(1, print(1, call(vec![ext(1)])));
    becomes(&[1], twice, print(1, print(1, call(vec![]))));
}

fn annotation(statement: Statement) -> (Vec<ID>, Vec<ID>) {
    let mut free = HashSet::new();
    let Statement::PrintI64(print) = statement.free_vars(&mut free) else {
        panic!("a PrintI64")
    };
    let ascending = |set: HashSet<ID>| {
        let mut ids: Vec<ID> = set.into_iter().collect();
        ids.sort();
        ids
    };
    (ascending(print.free_vars_next.unwrap()), ascending(free))
}

/// The annotation is taken before its own var joins.
#[test]
fn free_variables_of_print() {
    assert_eq!(annotation(print(1, call(vec![]))), (vec![], vec![1]));
    assert_eq!(annotation(print(1, exit(2))), (vec![2], vec![1, 2]));
    assert_eq!(annotation(print(1, exit(1))), (vec![1], vec![1]));
    let bound = print(1, literal(7, 1, exit(1)));
    assert_eq!(annotation(bound), (vec![], vec![1]));
}

#[test]
fn exit_is_left_as_it_is() {
    becomes(&[1], exit(1), exit(1));
    becomes(&[1, 2, 3], exit(2), exit(2));
    let full: Vec<ID> = (1..=64).collect();
    becomes(&full, exit(1), exit(1));
    becomes(&full, exit(64), exit(64));
    let sorts = vec![prd(1), cns(2)];
    assert_eq!(linearized(sorts, exit(2), 2), (exit(2), 2));
}

/// Row j with these statements: 1 is 5 in the next of the Create, and 1 in its clause.
#[test]
fn under_the_renaming_of_a_create() {
    let of = |environment, clause_body, next| {
        create(
            3,
            environment,
            vec![clause(vec![ext(4)], clause_body)],
            next,
        )
    };
    let source = of(None, print(4, exit(1)), print(1, exit(1)));
    let next = kept(&[5], print(5, exit(5)));
    let expected = substitute(
        vec![(ext(5), 1), (ext(1), 1)],
        of(Some(vec![ext(1)]), print(4, exit(1)), next),
    );
    let result = linearized(vec![ext(1), ext(2)], source, 4);
    assert_eq!(result, (expected, 5));
}

fn other() -> Identifier {
    named("y", 1)
}

/// The spelling is the use's own, and no Substitute comes for it.
#[test]
fn uses_keep_their_spelling() {
    let statement = || print_i64(true, other(), exit_of(other()));
    becomes(&[1], statement(), statement());
    becomes(&[1, 2], statement(), kept(&[1], statement()));
}

/// Below a Create without clauses, in a context of those bindings.
fn below_create(context: Vec<ContextBinding>, shown: Identifier) -> Statement {
    let next = print_i64(true, shown.clone(), exit_of(shown));
    let (linear, max_id) = linearized(context, create(3, None, vec![], next), 3);
    assert_eq!(max_id, 3);
    linear
}

/// A Create that inserts a Substitute gives its next the context's spelling, also where the ID stays.
#[test]
fn a_create_with_a_substitute_spells_them_anew() {
    let shown = |var: Identifier| {
        let next = kept(&[1], print_i64(true, var.clone(), exit_of(var)));
        create(3, Some(vec![]), vec![], next)
    };
    let two = || vec![ext(1), ext(2)];
    assert_eq!(below_create(two(), other()), kept(&[1], shown(var(1))));
    // without a Substitute before the Create nothing is renamed
    assert_eq!(below_create(vec![ext(1)], other()), shown(other()));
}

/// In its clauses the spelling stays the use's own.
#[test]
fn a_create_does_not_spell_its_clauses_anew() {
    let closure = |environment| {
        let body = print_i64(true, other(), exit_of(other()));
        create(3, environment, vec![clause(vec![], body)], exit(3))
    };
    let result = linearized(vec![ext(2), ext(1)], closure(None), 3);
    let expected = kept(&[1], closure(Some(vec![ext(1)])));
    assert_eq!(result, (expected, 3));
}
