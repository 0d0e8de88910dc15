//! Question 7.

use super::scope::{Asked, everywhere};
use crate::image::order;
use crate::syntax::{Clause, Id, Prog, Statement};

/// The limits of a source program.
pub struct Limits;

impl Limits {
    pub const RECORDS: usize = 2_000;
    pub const DEPTH: usize = 64;
    pub const COUNT: usize = 32;
    pub const SCOPE: usize = 64;
}

impl Asked for Limits {
    fn statement(&self, scope: &[Id], statement: &Statement) -> bool {
        scope.len() <= Limits::SCOPE && largest_count(statement) <= Limits::COUNT
    }

    fn binders(&self, _scope: &[Id], binders: &[Id]) -> bool {
        binders.len() <= Limits::COUNT
    }
}

/// "Are there at most 2,000 records, depth 64, counts 32, and 64 bindings in scope, repeats counted?"
pub fn within(prog: &Prog) -> bool {
    order::records(prog).len() <= Limits::RECORDS
        && prog
            .defs
            .iter()
            .all(|def| depth(&def.body) <= Limits::DEPTH)
        && everywhere(prog, &Limits)
}

/// The counts in a statement's own record.
fn largest_count(statement: &Statement) -> usize {
    match statement {
        Statement::Substitute { rearrange, .. } => rearrange.len(),
        Statement::Call { args, .. }
        | Statement::Let { args, .. }
        | Statement::Invoke { args, .. } => args.len(),
        Statement::Switch { clauses, .. } => clauses.len(),
        Statement::Create {
            environment,
            clauses,
            ..
        } => environment.as_ref().map_or(0, Vec::len).max(clauses.len()),
        Statement::Literal { .. }
        | Statement::Op { .. }
        | Statement::IfC { .. }
        | Statement::PrintI64 { .. }
        | Statement::Exit { .. } => 0,
    }
}

/// The statements on the longest way down; clauses add nothing.
fn depth(statement: &Statement) -> usize {
    1 + match statement {
        Statement::Call { .. } | Statement::Invoke { .. } | Statement::Exit { .. } => 0,
        Statement::Substitute { next, .. }
        | Statement::Let { next, .. }
        | Statement::Literal { next, .. }
        | Statement::Op { next, .. }
        | Statement::PrintI64 { next, .. } => depth(next),
        Statement::Switch { clauses, .. } => clauses_depth(clauses),
        Statement::Create { clauses, next, .. } => clauses_depth(clauses).max(depth(next)),
        Statement::IfC { thenc, elsec, .. } => depth(thenc).max(depth(elsec)),
    }
}

fn clauses_depth(clauses: &[Clause]) -> usize {
    clauses
        .iter()
        .map(|clause| depth(&clause.body))
        .max()
        .unwrap_or(0)
}
