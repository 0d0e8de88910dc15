//! Bindings.

use super::{Identifier, Ty};

#[derive(Debug, Clone, Copy, PartialEq, Eq)]
pub enum Chirality {
    Prd,
    Cns,
    Ext,
}

/// "Two bindings are equal when name, ID, chirality and type are."
#[derive(Debug, Clone, Copy, PartialEq, Eq)]
pub struct Binding {
    pub var: Identifier,
    pub chi: Chirality,
    pub ty: Ty,
}
