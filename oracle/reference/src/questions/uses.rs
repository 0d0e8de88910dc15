//! Question 9.

use super::scope::{Asked, everywhere, ids};
use crate::syntax::{Id, Prog, Statement};

struct InScope;

impl Asked for InScope {
    fn statement(&self, scope: &[Id], statement: &Statement) -> bool {
        uses(statement).iter().all(|id| scope.contains(id))
    }
}

/// "Is each variable used in scope?"
pub fn in_scope(prog: &Prog) -> bool {
    everywhere(prog, &InScope)
}

/// The variables that the statement itself uses.
fn uses(statement: &Statement) -> Vec<Id> {
    match statement {
        Statement::Substitute { rearrange, .. } => {
            rearrange.iter().map(|pair| pair.source.id).collect()
        }
        Statement::Call { args, .. } | Statement::Let { args, .. } => ids(args),
        Statement::Switch { var, .. }
        | Statement::PrintI64 { var, .. }
        | Statement::Exit { var } => vec![var.id],
        Statement::Create { environment, .. } => environment.as_deref().map_or(Vec::new(), ids),
        Statement::Invoke { var, args, .. } => {
            let mut uses = ids(args);
            uses.push(var.id);
            uses
        }
        Statement::Literal { .. } => Vec::new(),
        Statement::Op { fst, snd, .. } => vec![fst.id, snd.id],
        Statement::IfC { fst, snd, .. } => [Some(*fst), *snd]
            .into_iter()
            .flatten()
            .map(|var| var.id)
            .collect(),
    }
}
