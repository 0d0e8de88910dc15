//! An independent reading of document 01, around the unchanged Rust of `docs/src`: the image and its
//! questions, the four calls, and the two machines with the claim of demand 3 about their runs. The
//! pass itself and the free variables are the Rust's own.

pub mod calls;
pub mod demand3;
pub mod image;
pub mod machines;
pub mod oracle;
pub mod questions;
pub mod syntax;
