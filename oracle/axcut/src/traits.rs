//! The traits; `substitution` and `typed_free_vars` are stand-ins.

include!(concat!(env!("OUT_DIR"), "/traits.rs"));

pub mod substitution;
pub mod typed_free_vars;
