//! The steppers of request A.2, read a second time: a state of either machine as bytes in a lent store,
//! its steps and its events. docs/FORMAT.md ("Stores, events and starts") says the bytes.
//!
//! The image and its questions are those of `reference`. The rules of the machines are written down here
//! once more, over record indexes, and not upon the machines there: the two are two readings of document
//! 01, and the tests hold one against the other.

mod arithmetic;
mod calls;
mod event;
mod linear;
mod program;
mod slot;
mod source;
mod state;
mod step;
pub mod store;

pub use calls::{Answer, Machine, NO_ROOM, REFUSED, Stepper, start, step};
pub use program::Program;
pub use state::{Cell, Entry, State, Value};
