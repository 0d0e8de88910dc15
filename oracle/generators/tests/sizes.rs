//! How large outputs and annotations get.

use generators::boundaries::sizes;
use generators::build;
use reference::image::{Record, order};
use reference::oracle::Oracle;
use reference::syntax::{Prog, Statement};

fn linearized(prog: &Prog) -> Prog {
    let oracle = Oracle::new(&build::image(prog));
    oracle.linearized().expect("a yes to 1 to 10").clone()
}

fn most_pairs(prog: &Prog) -> usize {
    let pairs = |record: &Record| match record {
        Record::Substitute { rearrange } => rearrange.len(),
        _ => 0,
    };
    let records = order::records(&linearized(prog));
    records.iter().map(pairs).max().unwrap_or(0)
}

#[test]
fn substitutions() {
    assert_eq!(most_pairs(&sizes::create_pairs()), 126);
    assert_eq!(most_pairs(&sizes::let_pairs()), 95);
    assert_eq!(most_pairs(&sizes::switch_pairs()), 65);
    assert_eq!(most_pairs(&sizes::print_pairs()), 63);
}

fn straight_depth(statement: &Statement) -> usize {
    match statement {
        Statement::Substitute { next, .. } | Statement::Literal { next, .. } => {
            1 + straight_depth(next)
        }
        Statement::Call { .. } => 1,
        other => panic!("not straight: {other:?}"),
    }
}

#[test]
fn outputs() {
    assert_eq!(
        straight_depth(&linearized(&sizes::deepest()).defs[0].body),
        128
    );
    let source = sizes::longest();
    assert_eq!(order::records(&source).len(), 2_000);
    assert_eq!(order::records(&linearized(&source)).len(), 3_969);
}

#[test]
fn annotations() {
    let oracle = Oracle::new(&build::image(&sizes::annotation()));
    assert_eq!(oracle.annotation_needed(1), Ok(2 + 2 * 3_201));
}
