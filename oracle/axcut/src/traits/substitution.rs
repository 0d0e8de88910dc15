//! A stand-in for the trait `Subst` and its liftings, as document 01 states them: "on a list, `Rc`
//! or `Option` it maps the content, on a set each member."

use crate::syntax::{ID, Identifier};

use std::collections::HashSet;
use std::hash::Hash;
use std::rc::Rc;

pub trait Subst: Sized {
    /// Replaces each variable whose ID stands on a left side by the identifier on the right.
    fn subst_sim(self, subst: &[(ID, Identifier)]) -> Self;
}

impl<T: Subst> Subst for Vec<T> {
    fn subst_sim(self, subst: &[(ID, Identifier)]) -> Self {
        self.into_iter()
            .map(|element| element.subst_sim(subst))
            .collect()
    }
}

impl<T: Subst + Clone> Subst for Rc<T> {
    fn subst_sim(self, subst: &[(ID, Identifier)]) -> Self {
        Rc::new(Rc::unwrap_or_clone(self).subst_sim(subst))
    }
}

impl<T: Subst> Subst for Option<T> {
    fn subst_sim(self, subst: &[(ID, Identifier)]) -> Self {
        self.map(|content| content.subst_sim(subst))
    }
}

impl<T: Subst + Eq + Hash> Subst for HashSet<T> {
    fn subst_sim(self, subst: &[(ID, Identifier)]) -> Self {
        self.into_iter()
            .map(|member| member.subst_sim(subst))
            .collect()
    }
}
