//! Programs as trees.

mod context;
mod names;
mod program;
mod statements;
mod types;

pub use context::{Binding, Chirality};
pub use names::{Id, Identifier, Name};
pub use program::{Def, Prog};
pub use statements::{BinOp, Clause, IfSort, Pair, Statement};
pub use types::Ty;
