//! PrintI64 and Exit.

use super::Typed;
use super::signature::{Sort, TYPES};
use crate::statements::outputs;
use reference::syntax::{Identifier, Statement};

impl Typed<'_> {
    pub(super) fn prints(&mut self) -> bool {
        outputs(self.rng, self.prints, &self.scope)
    }

    pub(super) fn print_i64(&mut self, depth: usize) -> Statement {
        Statement::PrintI64 {
            newline: self.rng.chance(8),
            var: self.variable(Sort::Int),
            next: Box::new(self.statement(depth + 1)),
        }
    }

    pub(super) fn exits(&mut self) -> bool {
        outputs(self.rng, self.exits, &self.scope)
    }

    /// Mostly of an integer; but every sort of value is shown.
    pub(super) fn exit(&mut self) -> Statement {
        let sort = match self.rng.below(4) {
            0 => Sort::Data(self.rng.below(TYPES)),
            1 => Sort::Codata(self.rng.below(TYPES)),
            _ => Sort::Int,
        };
        Statement::Exit {
            var: self.variable(sort),
        }
    }

    /// A variable of the sort, or of another where there is none, often spelled in another way. Some
    /// variable is in scope.
    fn variable(&mut self, sort: Sort) -> Identifier {
        let mut var = self.args(&[sort])[0].var;
        if self.rng.chance(8) {
            var.name = self.name();
        }
        var
    }
}
