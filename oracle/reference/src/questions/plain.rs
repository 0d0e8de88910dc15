//! Question 6.

use super::scope::{Asked, everywhere};
use crate::syntax::{Id, Prog, Statement};

struct Plain;

impl Asked for Plain {
    fn statement(&self, _scope: &[Id], statement: &Statement) -> bool {
        !matches!(
            statement,
            Statement::Substitute { .. }
                | Statement::Create {
                    environment: Some(_),
                    ..
                }
        )
    }
}

/// "Is it free of Substitute and of environments?"
pub fn plain(prog: &Prog) -> bool {
    everywhere(prog, &Plain)
}
