//! The unchanged Rust at work on a tree.

mod annotated;
pub mod from_rust;
pub mod to_rust;

use crate::syntax::{Id, Prog};
use axcut::traits::free_vars::FreeVars;

use std::collections::HashSet;

/// `Prog::linearize`.
pub fn linearize(prog: &Prog) -> Prog {
    let mut rust = to_rust::prog(prog);
    rust.linearize();
    from_rust::prog(&rust)
}

/// For each record the sets that `free_vars` of its definition's body, begun with an empty set, has
/// annotated it with, ascending.
pub fn annotations(prog: &Prog) -> Vec<Vec<Vec<Id>>> {
    let mut out = Vec::new();
    for def in &prog.defs {
        out.push(Vec::new());
        let body = to_rust::statement(&def.body).free_vars(&mut HashSet::new());
        annotated::statement(&body, &mut out);
    }
    out
}
