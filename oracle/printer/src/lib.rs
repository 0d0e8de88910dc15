//! A stand-in for the pretty printer that the Rust of `docs/src` leans on. It has just enough for
//! that Rust to compile; documents are plain text without layout. No answer of the oracle uses it.

mod doc;
mod print;
pub mod theme;
pub mod tokens;
pub mod util;

pub use doc::{Alloc, Builder, DocAllocator};
pub use print::{Print, PrintCfg};
