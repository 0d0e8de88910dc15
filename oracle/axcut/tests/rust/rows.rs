//! Rows a to k of document 01, and the lines below them, on the unchanged Rust. "IDs only; arrow:
//! target from source. Names and types agree."

use crate::build::{
    call, clause, cns, create, ext, exts, invoke, let_, linearized, named, prd, spelled,
    substitute, sum, switch, var,
};
use axcut::syntax::{ContextBinding, ID, Ty, TypingContext};
use std::collections::HashSet;

fn filtered(context: &[ID], set: &[ID]) -> TypingContext {
    exts(context).filter_by_set(&set.iter().copied().collect())
}

#[test]
fn a_to_d_filter() {
    assert_eq!(filtered(&[1, 2, 3, 4], &[2, 4]), exts(&[4, 2]));
    assert_eq!(filtered(&[1, 2, 3, 4, 5], &[3, 4, 5]), exts(&[5, 4, 3]));
    assert_eq!(filtered(&[], &[1]), exts(&[]));
    assert_eq!(filtered(&[1, 2, 3], &[1]), exts(&[1]));
}

/// "k bindings are retained; retained ones at places below k stay; the free places below k,
/// ascending, take the retained ones at k and beyond, last first."
fn filtered_by_the_sentence(context: &[ID], set: &[ID]) -> Vec<ID> {
    let retained = |id: &&ID| set.contains(id);
    let k = context.iter().filter(retained).count();
    let mut beyond: Vec<ID> = context[k..].iter().filter(retained).copied().collect();
    context[..k]
        .iter()
        .map(|id| match set.contains(id) {
            true => *id,
            false => beyond.pop().expect("as many beyond as free places"),
        })
        .collect()
}

#[test]
fn filter_does_what_the_sentence_says() {
    for length in 0..=9 {
        let context: Vec<ID> = (0..length).collect();
        for chosen in 0..1_u32 << length {
            let set: Vec<ID> = (0..length).filter(|id| chosen >> id & 1 == 1).collect();
            let expected = filtered_by_the_sentence(&context, &set);
            assert_eq!(filtered(&context, &set), exts(&expected));
        }
    }
}

#[test]
fn e_freshen() {
    let mut max_id = 5;
    let freshened = exts(&[1, 1, 2]).freshen(HashSet::from([2]), &mut max_id);
    assert_eq!(freshened, exts(&[1, 6, 7]));
    assert_eq!(max_id, 7);
}

#[test]
fn f_call() {
    let result = linearized(vec![ext(1)], call(vec![ext(1), ext(1)]), 1);
    let expected = substitute(vec![(ext(1), 1), (ext(2), 1)], call(vec![]));
    assert_eq!(result, (expected, 2));
}

#[test]
fn g_invoke() {
    let result = linearized(vec![ext(1), cns(2)], invoke(2, vec![cns(2)]), 2);
    let expected = substitute(vec![(cns(3), 2), (cns(2), 2)], invoke(2, vec![]));
    assert_eq!(result, (expected, 3));
}

#[test]
fn h_switch() {
    let statement = switch(1, vec![clause(vec![], call(vec![prd(1), ext(2)]))]);
    let result = linearized(vec![prd(1), ext(2)], statement, 2);
    let expected = substitute(
        vec![(prd(1), 1), (ext(2), 2), (prd(3), 1)],
        switch(3, vec![clause(vec![], call(vec![]))]),
    );
    assert_eq!(result, (expected, 3));
}

#[test]
fn i_let() {
    let statement = let_(2, vec![ext(1)], call(vec![ext(1), prd(2)]));
    let result = linearized(vec![ext(1)], statement, 2);
    let expected = substitute(
        vec![(ext(1), 1), (ext(3), 1)],
        let_(2, vec![ext(3)], call(vec![])),
    );
    assert_eq!(result, (expected, 3));
}

#[test]
fn j_create() {
    let body = call(vec![ext(4), ext(1)]);
    let next = call(vec![ext(1), cns(3)]);
    let statement = create(3, None, vec![clause(vec![ext(4)], body)], next);
    let result = linearized(vec![ext(1), ext(2)], statement, 4);
    // the next context is [5 3]: its Call, with those args after the renaming, needs no Substitute
    let expected = substitute(
        vec![(ext(5), 1), (ext(1), 1)],
        create(
            3,
            Some(vec![ext(1)]),
            vec![clause(vec![ext(4)], call(vec![]))],
            call(vec![]),
        ),
    );
    assert_eq!(result, (expected, 5));
}

#[test]
fn k_op() {
    let statement = sum(1, 2, 4, call(vec![ext(4)]));
    let result = linearized(vec![ext(1), ext(2), ext(3)], statement, 4);
    let then = substitute(vec![(ext(4), 4)], call(vec![]));
    let expected = substitute(vec![(ext(1), 1), (ext(2), 2)], sum(1, 2, 4, then));
    assert_eq!(result, (expected, 4));
}

/// "Equal IDs with another name or type in args: a substitution is inserted."
#[test]
fn another_name_or_type_in_args() {
    let renamed = ContextBinding {
        var: named("y", 1),
        ..ext(1)
    };
    let retyped = prd(1);
    let type_id = ContextBinding {
        ty: Ty::Decl(named("T", 1)),
        ..prd(1)
    };
    for (context, arg) in [(ext(1), renamed), (ext(1), retyped), (prd(1), type_id)] {
        let result = linearized(vec![context], call(vec![arg.clone()]), 1);
        let source = arg.var.clone();
        let expected = spelled(vec![(arg, source)], call(vec![]));
        assert_eq!(result, (expected, 1));
    }
}

/// "After Create's renaming, uses take the context's spelling." Row j, with the use in the next
/// spelled in another way: after the renaming it is the context's own, so no Substitute comes.
#[test]
fn uses_take_the_contexts_spelling() {
    let other = ContextBinding {
        var: named("y", 1),
        ..ext(1)
    };
    let of = |used: ContextBinding| {
        let body = call(vec![ext(4), ext(1)]);
        let next = call(vec![used, cns(3)]);
        let statement = create(3, None, vec![clause(vec![ext(4)], body)], next);
        linearized(vec![ext(1), ext(2)], statement, 4)
    };
    assert_eq!(of(other), of(ext(1)));
}

/// A Create that inserts nothing renames nothing, so a use keeps its own spelling.
#[test]
fn uses_keep_their_spelling_without_a_renaming() {
    let other = ContextBinding {
        var: named("y", 1),
        ..ext(1)
    };
    let next = call(vec![other.clone(), cns(2)]);
    let result = linearized(vec![ext(1)], create(2, None, vec![], next), 2);
    let then = spelled(vec![(other, named("y", 1)), (cns(2), var(2))], call(vec![]));
    assert_eq!(result, (create(2, Some(vec![]), vec![], then), 2));
}
