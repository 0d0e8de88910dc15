//! Question 10.

use super::scope::{Asked, everywhere};
use crate::syntax::{Id, Prog};

struct UpTo(Id);

impl Asked for UpTo {
    fn binders(&self, _scope: &[Id], binders: &[Id]) -> bool {
        binders.iter().all(|&binder| binder <= self.0)
    }
}

/// "Is max_id at least every binder's ID?"
pub fn at_least_binders(prog: &Prog) -> bool {
    everywhere(prog, &UpTo(prog.max_id))
}
