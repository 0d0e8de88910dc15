//! The walk that questions 6 to 10 share, with what is in scope on the way: parameters and every
//! binder passed, nothing dropped. "(Create's var is not in scope in its clauses.)"

use crate::syntax::{Binding, Clause, Id, Prog, Statement};

pub trait Asked {
    /// Asked at each statement, with the IDs in scope there.
    fn statement(&self, _scope: &[Id], _statement: &Statement) -> bool {
        true
    }

    /// Asked of each list of binders, with the IDs in scope there.
    fn binders(&self, _scope: &[Id], _binders: &[Id]) -> bool {
        true
    }
}

pub fn everywhere(prog: &Prog, question: &impl Asked) -> bool {
    let mut walk = Walk {
        scope: Vec::new(),
        question,
    };
    prog.defs
        .iter()
        .all(|def| walk.below(&ids(&def.params), &def.body))
}

pub fn ids(bindings: &[Binding]) -> Vec<Id> {
    bindings.iter().map(|binding| binding.var.id).collect()
}

struct Walk<'a, Q> {
    scope: Vec<Id>,
    question: &'a Q,
}

impl<Q: Asked> Walk<'_, Q> {
    /// The binders, and then the statement with them in scope.
    fn below(&mut self, binders: &[Id], statement: &Statement) -> bool {
        let outside = self.scope.len();
        let answer = self.question.binders(&self.scope, binders) && {
            self.scope.extend(binders);
            self.statement(statement)
        };
        self.scope.truncate(outside);
        answer
    }

    fn clauses(&mut self, clauses: &[Clause]) -> bool {
        clauses
            .iter()
            .all(|clause| self.below(&ids(&clause.params), &clause.body))
    }

    fn statement(&mut self, statement: &Statement) -> bool {
        self.question.statement(&self.scope, statement)
            && match statement {
                Statement::Call { .. } | Statement::Invoke { .. } | Statement::Exit { .. } => true,
                // question 6 refuses it; its targets are no binders of the source
                Statement::Substitute { next, .. } => self.statement(next),
                Statement::Let { var, next, .. }
                | Statement::Literal { var, next, .. }
                | Statement::Op { var, next, .. } => self.below(&[var.id], next),
                // it binds nothing
                Statement::PrintI64 { next, .. } => self.statement(next),
                Statement::Switch { clauses, .. } => self.clauses(clauses),
                Statement::Create {
                    var, clauses, next, ..
                } => self.clauses(clauses) && self.below(&[var.id], next),
                Statement::IfC { thenc, elsec, .. } => {
                    self.statement(thenc) && self.statement(elsec)
                }
            }
    }
}
