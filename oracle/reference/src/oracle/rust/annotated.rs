//! The annotations of a statement on which `free_vars` was called, in the order of the records.

use super::from_rust::id;
use crate::syntax::Id;
use axcut::syntax::statements::Clause;
use axcut::syntax::{ID, Statement};

use std::collections::HashSet;

/// Appends, for the statement's record and those below it, the sets that it is annotated with: two
/// for Create, none for the kinds without an annotation.
pub fn statement(annotated: &Statement, out: &mut Vec<Vec<Vec<Id>>>) {
    match annotated {
        Statement::Call(_) | Statement::Invoke(_) | Statement::Exit(_) => out.push(Vec::new()),
        Statement::Let(r#let) => {
            out.push(vec![ascending(&r#let.free_vars_next)]);
            statement(&r#let.next, out);
        }
        Statement::Switch(switch) => {
            out.push(vec![ascending(&switch.free_vars_clauses)]);
            clauses(&switch.clauses, out);
        }
        Statement::Create(create) => {
            out.push(vec![
                ascending(&create.free_vars_clauses),
                ascending(&create.free_vars_next),
            ]);
            clauses(&create.clauses, out);
            statement(&create.next, out);
        }
        Statement::Literal(literal) => {
            out.push(vec![ascending(&literal.free_vars_next)]);
            statement(&literal.next, out);
        }
        Statement::Op(op) => {
            out.push(vec![ascending(&op.free_vars_next)]);
            statement(&op.next, out);
        }
        Statement::PrintI64(print) => {
            out.push(vec![ascending(&print.free_vars_next)]);
            statement(&print.next, out);
        }
        Statement::IfC(ifc) => {
            out.push(Vec::new());
            statement(&ifc.thenc, out);
            statement(&ifc.elsec, out);
        }
        Statement::Substitute(_) => unreachable!("question 6 refuses a Substitute"),
    }
}

fn clauses(annotated: &[Clause], out: &mut Vec<Vec<Vec<Id>>>) {
    for clause in annotated {
        out.push(Vec::new());
        statement(&clause.body, out);
    }
}

fn ascending(set: &Option<HashSet<ID>>) -> Vec<Id> {
    let set = set.as_ref().expect("free_vars annotates");
    let mut ids: Vec<Id> = set.iter().map(|&member| id(member)).collect();
    ids.sort();
    ids
}
