//! Definitions and programs.

use super::{Binding, Id, Identifier, Statement};

#[derive(Debug, Clone, PartialEq, Eq)]
pub struct Def {
    pub name: Identifier,
    pub params: Vec<Binding>,
    pub body: Statement,
}

#[derive(Debug, Clone, PartialEq, Eq)]
pub struct Prog {
    pub defs: Vec<Def>,
    pub max_id: Id,
}
