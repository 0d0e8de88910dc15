//! What document 01 says of the pass and of annotations is what the Rust does, on generated programs;
//! and those programs tell every error that document 01 warns of, and some more, from the Rust.

mod cells;
mod document;
mod free;
mod output;
mod reading;

use document::linearize;
use generators::{Rng, build, small, starts, typed, wild};
use reading::Reading;
use reference::demand3::watch;
use reference::image::order;
use reference::oracle::Oracle;
use reference::syntax::{Clause, Id, Prog, Statement};

use std::collections::BTreeSet;

const PROGRAMS: u64 = 20_000;

fn programs() -> impl Iterator<Item = Prog> {
    (0..PROGRAMS).map(|index| {
        let mut rng = Rng::of_case(1, index);
        if index % 4 == 0 {
            typed::program(&mut rng)
        } else {
            wild::program(&mut rng)
        }
    })
}

fn by_the_rust(prog: &Prog) -> Prog {
    let oracle = Oracle::new(&build::image(prog));
    oracle.linearized().expect("a yes to 1 to 10").clone()
}

#[test]
fn the_document_and_the_rust_agree() {
    for (index, prog) in programs().enumerate() {
        let expected = by_the_rust(&prog);
        assert_eq!(
            linearize(&prog, Reading::Right),
            expected,
            "program {index}"
        );
    }
}

#[test]
fn the_document_and_the_rust_agree_on_small_programs() {
    let mut accepted = 0;
    for prog in small::programs() {
        let oracle = Oracle::new(&build::image(&prog));
        if let Ok(expected) = oracle.linearized() {
            accepted += 1;
            assert_eq!(&linearize(&prog, Reading::Right), expected);
        }
    }
    println!("{accepted} small programs");
    assert!(accepted > 1_000);
}

/// The errors that change what a run of the output does, and those that change the output only.
const IN_RUNS: [Reading; 7] = [
    Reading::RenamesClauses,
    Reading::OpDropsInputs,
    Reading::LetIgnoresClashes,
    Reading::FirstDefinitionOnly,
    Reading::PrintDropsVar,
    Reading::PrintConsumesVar,
    Reading::ExitKeepsVar,
];
const IN_OUTPUTS: [Reading; 13] = [
    Reading::ComparesIds,
    Reading::FiltersStably,
    Reading::DoesNotSplit,
    Reading::NextBeforeClauses,
    Reading::SwitchDrawsFirst,
    Reading::LetDrawsLast,
    Reading::KeepsSpelling,
    Reading::PrintFiltersTwice,
    Reading::PrintHandsAllOn,
    Reading::PrintAlwaysSubstitutes,
    Reading::PrintDraws,
    Reading::ExitSubstitutes,
    Reading::ExitKeepsSpelling,
];

#[test]
fn outputs_tell_errors_apart() {
    let errors = [IN_RUNS.as_slice(), &IN_OUTPUTS].concat();
    let mut told = vec![0; errors.len()];
    for prog in programs().take(5_000) {
        let expected = by_the_rust(&prog);
        for (error, count) in errors.iter().zip(&mut told) {
            *count += usize::from(linearize(&prog, *error) != expected);
        }
    }
    for (error, count) in errors.iter().zip(told) {
        println!("{error:?}: {count} of 5,000 outputs");
        assert!(count >= 100, "{error:?} is told apart {count} times only");
    }
}

/// How many of 4,000 typed programs break demand 3's claim when they are linearized with the error.
fn broken_runs(error: Reading) -> usize {
    (0..4_000)
        .filter(|&index| {
            let mut rng = Rng::of_case(13, index);
            let prog = typed::program(&mut rng);
            let wrong = linearize(&prog, error);
            (0..4).any(|_| {
                let (place, given) = starts::start(&mut rng, &prog);
                watch(&prog, &wrong, place, &given, 100).is_err()
            })
        })
        .count()
}

#[test]
fn runs_tell_some_errors_apart() {
    for error in IN_RUNS {
        let count = broken_runs(error);
        println!("{error:?}: {count} of 4,000 programs run otherwise");
        assert!(count >= 100, "{error:?} is told apart {count} times only");
    }
    // only the comparison with the Rust finds these
    for error in IN_OUTPUTS {
        assert_eq!(broken_runs(error), 0, "{error:?}");
    }
}

/// The annotations of the records, by the document's free variables.
fn annotations(statement: &Statement, out: &mut Vec<Vec<BTreeSet<Id>>>) {
    let clauses_of = |clauses: &[Clause], out: &mut Vec<Vec<BTreeSet<Id>>>| {
        for clause in clauses {
            out.push(Vec::new());
            annotations(&clause.body, out);
        }
    };
    match statement {
        Statement::Substitute { .. } => unreachable!("question 6"),
        Statement::Call { .. } | Statement::Invoke { .. } | Statement::Exit { .. } => {
            out.push(Vec::new());
        }
        Statement::Let { next, .. }
        | Statement::Literal { next, .. }
        | Statement::Op { next, .. }
        | Statement::PrintI64 { next, .. } => {
            out.push(vec![free::free(next)]);
            annotations(next, out);
        }
        Statement::Switch { clauses, .. } => {
            out.push(vec![free::free_in_clauses(clauses)]);
            clauses_of(clauses, out);
        }
        Statement::Create { clauses, next, .. } => {
            out.push(vec![free::free_in_clauses(clauses), free::free(next)]);
            clauses_of(clauses, out);
            annotations(next, out);
        }
        Statement::IfC { thenc, elsec, .. } => {
            out.push(Vec::new());
            annotations(thenc, out);
            annotations(elsec, out);
        }
    }
}

/// Also of programs that have a no to 8, 9 or 10: annotation asks none of these.
#[test]
fn annotations_agree() {
    let mut compared = 0;
    let mut out = vec![0; 70_000];
    let shadowing = small::programs().into_iter().step_by(7);
    for prog in programs().take(2_000).chain(shadowing) {
        let oracle = Oracle::new(&build::image(&prog));
        let mut expected = Vec::new();
        for def in &prog.defs {
            expected.push(Vec::new());
            annotations(&def.body, &mut expected);
        }
        assert_eq!(expected.len(), order::records(&prog).len());
        for (record, sets) in expected.iter().enumerate() {
            let answer = oracle.annotate(record, &mut out);
            if sets.is_empty() {
                assert_eq!(answer.number, 13);
                continue;
            }
            let mut bytes = Vec::new();
            for set in sets {
                bytes.extend((set.len() as u16).to_le_bytes());
                set.iter()
                    .for_each(|id| bytes.extend((id.0 as u16).to_le_bytes()));
            }
            assert_eq!((answer.number, &out[..answer.length]), (0, &bytes[..]));
            compared += 1;
        }
    }
    println!("{compared} annotations");
    assert!(compared > 10_000);
}
