//! The unchanged Rust on small statements.

mod build;
mod output;
mod rows;
mod surprises;
