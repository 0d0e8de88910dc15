//! The Rust of `docs/src`, unchanged: `build.rs` gives each of its files as a module. Here stands
//! only what those files lean on and what is in none of them.

pub mod syntax;
pub mod traits;
