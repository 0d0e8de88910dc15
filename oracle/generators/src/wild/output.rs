//! PrintI64 and Exit.

use super::Wild;
use crate::statements::outputs;
use reference::syntax::{Identifier, Statement};

impl Wild<'_> {
    pub(super) fn prints(&mut self) -> bool {
        outputs(self.rng, self.shape.prints, &self.scope)
    }

    pub(super) fn print_i64(&mut self, budget: usize, depth: usize) -> Statement {
        Statement::PrintI64 {
            newline: self.rng.chance(8),
            var: self.shown(),
            next: Box::new(self.statement(budget - 1, depth + 1)),
        }
    }

    pub(super) fn exits(&mut self) -> bool {
        outputs(self.rng, self.shape.exits, &self.scope)
    }

    pub(super) fn exit(&mut self) -> Statement {
        Statement::Exit { var: self.shown() }
    }

    /// A live variable, often spelled in another way.
    fn shown(&mut self) -> Identifier {
        let mut var = self.live_use().var;
        if self.rng.chance(8) {
            var.name = self.name();
        }
        var
    }
}
