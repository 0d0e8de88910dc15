//! The library against the oracle: number, length, max_id and every byte of every buffer, on the same
//! cases; and its steppers, in the same calls.

mod accepted;
mod compare;
mod fault;
mod guarded;
pub mod pages;
mod run;
mod stack;
pub mod stepping;
pub mod subject;

pub use accepted::Accepted;
pub use compare::Mismatch;
pub use fault::watch_for_faults;
pub use run::{Report, run};
pub use stack::calls_with_stack;
