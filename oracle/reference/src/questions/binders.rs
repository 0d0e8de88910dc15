//! Question 8.

use super::scope::{Asked, everywhere};
use crate::syntax::{Id, Prog};

struct New;

impl Asked for New {
    fn binders(&self, scope: &[Id], binders: &[Id]) -> bool {
        binders
            .iter()
            .enumerate()
            .all(|(place, binder)| !scope.contains(binder) && !binders[..place].contains(binder))
    }
}

/// "Does each binder take an ID not in scope there and not earlier in its list?"
pub fn new(prog: &Prog) -> bool {
    everywhere(prog, &New)
}
