//! What a step shows, and what becomes of one.

use super::Value;
use crate::syntax::Name;

/// "Events, one per step other than Substitute: kind, and Literal or Op its integer, IfC its branch,
/// Let and Create the cell (Let the tag), Switch and Invoke the cell and tag, Call the label. Invoke
/// of an outside number shows it, the tag and argument values, and ends the run." "PrintI64 needs an
/// integer, reads it and shows it with the newline byte; Exit shows its value, of whatever sort, and
/// ends the run." A label or tag is its name.
#[derive(Debug, Clone, PartialEq, Eq)]
pub enum Event {
    Literal(i64),
    Op(i64),
    IfC {
        then_branch: bool,
    },
    Let {
        cell: usize,
        tag: Name,
    },
    Create {
        cell: usize,
    },
    Switch {
        cell: usize,
        tag: Name,
    },
    Invoke {
        cell: usize,
        tag: Name,
    },
    Call {
        label: Name,
    },
    InvokeOutside {
        number: u8,
        tag: Name,
        args: Vec<Value>,
    },
    PrintI64 {
        value: i64,
        newline: bool,
    },
    Exit {
        value: Value,
    },
}

/// What became of a step. Where there is none, the state is as it was.
#[derive(Debug, Clone, PartialEq, Eq)]
pub enum Outcome {
    Shows(Event),
    /// The step of a Substitute.
    Silent,
    /// No next step.
    Halts,
    /// No next step because of an ID.
    Stops,
}
