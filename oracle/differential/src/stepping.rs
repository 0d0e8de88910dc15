//! The library's steppers against the oracle's: number, steps, event bytes, and every byte of both
//! buffers, over random calls.

mod compare;
mod images;
mod report;
mod run;
mod session;
pub mod subject;

pub use report::Report;
pub use run::{Sessions, run};
pub use session::CALLS;
pub use subject::{LINKED, Steppers};
