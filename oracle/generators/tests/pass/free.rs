//! Free variables as document 01 and common sense have them.

use reference::syntax::{Binding, Clause, Id, Identifier, Statement};

use std::collections::BTreeSet;

pub fn ids(bindings: &[Binding]) -> BTreeSet<Id> {
    bindings.iter().map(|binding| binding.var.id).collect()
}

/// The free variables of a source statement.
pub fn free(statement: &Statement) -> BTreeSet<Id> {
    let without = |mut set: BTreeSet<Id>, var: &Identifier| {
        set.remove(&var.id);
        set
    };
    match statement {
        Statement::Substitute { .. } => unreachable!("question 6"),
        Statement::Call { args, .. } => ids(args),
        Statement::Let {
            var, args, next, ..
        } => &without(free(next), var) | &ids(args),
        Statement::Switch { var, clauses, .. } => {
            &free_in_clauses(clauses) | &BTreeSet::from([var.id])
        }
        Statement::Create {
            var, clauses, next, ..
        } => &without(free(next), var) | &free_in_clauses(clauses),
        Statement::Invoke { var, args, .. } => &ids(args) | &BTreeSet::from([var.id]),
        Statement::Literal { var, next, .. } => without(free(next), var),
        Statement::PrintI64 { var, next, .. } => &free(next) | &BTreeSet::from([var.id]),
        Statement::Exit { var } => BTreeSet::from([var.id]),
        Statement::Op {
            fst,
            snd,
            var,
            next,
            ..
        } => &without(free(next), var) | &BTreeSet::from([fst.id, snd.id]),
        Statement::IfC {
            fst,
            snd,
            thenc,
            elsec,
            ..
        } => {
            let read = [Some(*fst), *snd].into_iter().flatten().map(|var| var.id);
            &(&free(thenc) | &free(elsec)) | &read.collect()
        }
    }
}

pub fn free_in_clauses(clauses: &[Clause]) -> BTreeSet<Id> {
    clauses
        .iter()
        .flat_map(|clause| &free(&clause.body) - &ids(&clause.params))
        .collect()
}
