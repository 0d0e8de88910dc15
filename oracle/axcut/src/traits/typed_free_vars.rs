//! A stand-in for the trait `TypedFreeVars`, which the statements implement and the pass never
//! calls.

use crate::syntax::ContextBinding;

use std::collections::BTreeSet;

pub trait TypedFreeVars {
    fn typed_free_vars(&self, vars: &mut BTreeSet<ContextBinding>);
}

impl<T: TypedFreeVars> TypedFreeVars for Vec<T> {
    fn typed_free_vars(&self, vars: &mut BTreeSet<ContextBinding>) {
        for element in self {
            let mut free_vars = BTreeSet::new();
            element.typed_free_vars(&mut free_vars);
            vars.extend(free_vars);
        }
    }
}
