//! The two machines.

mod event;
mod integers;
mod linear;
mod lookup;
mod source;
mod state;

pub use event::{Event, Outcome};
pub use integers::{evaluate, holds};
pub use linear::Linear;
pub use source::Source;
pub use state::{Cell, Given, Start, State, Value};
