//! A next step, and what both machines look up on the way to it.

use crate::event::Event;
use crate::state::{Cell, Entry, State, Value};
use reference::syntax::{Binding, Id};

/// What a step makes of a state.
#[derive(Debug, Clone, PartialEq, Eq)]
pub enum Change {
    /// The run goes on there with these entries, and perhaps with one cell more.
    Goes {
        position: usize,
        entries: Vec<Entry>,
        cell: Option<Cell>,
    },
    /// The run ends, and everything stays.
    Ends,
}

/// A step and what it shows; a Substitute shows nothing.
#[derive(Debug, Clone, PartialEq, Eq)]
pub struct Step {
    pub change: Change,
    pub event: Option<Event>,
}

impl Step {
    pub fn goes(event: Event, position: usize, entries: Vec<Entry>) -> Step {
        Step {
            change: Change::Goes {
                position,
                entries,
                cell: None,
            },
            event: Some(event),
        }
    }

    pub fn makes(event: Event, position: usize, entries: Vec<Entry>, cell: Cell) -> Step {
        Step {
            change: Change::Goes {
                position,
                entries,
                cell: Some(cell),
            },
            event: Some(event),
        }
    }

    pub fn ends(event: Event) -> Step {
        Step {
            change: Change::Ends,
            event: Some(event),
        }
    }
}

/// Why there is no next step.
#[derive(Debug, Clone, Copy, PartialEq, Eq)]
pub enum No {
    /// Ended or stuck.
    Next,
    /// "To stop is to have no next step because of an ID."
    Id,
}

/// The value of the first entry with that ID. No ID is cut: a store's may be wider than an image's.
pub fn find(entries: &[Entry], id: Id) -> Option<Value> {
    let entry = entries.iter().find(|entry| entry.id == id.0)?;
    Some(entry.value)
}

pub fn integer(value: Value) -> Option<i64> {
    match value {
        Value::Integer(integer) => Some(integer),
        Value::Cell(_) | Value::Outside(_) => None,
    }
}

/// The values under the parameters' IDs, in the parameters' order, where the counts agree.
pub fn bound(params: &[Binding], values: &[Value]) -> Option<Vec<Entry>> {
    let entry = |(param, value): (&Binding, &Value)| Entry {
        id: param.var.id.0,
        value: *value,
    };
    (params.len() == values.len()).then(|| params.iter().zip(values).map(entry).collect())
}

/// The number, tag and values of a Let's cell.
pub fn matched(state: &State, value: Value) -> Option<(usize, u16, &[Value])> {
    match value {
        Value::Cell(number) => match &state.cells[number] {
            Cell::Let { tag, values } => Some((number, *tag, values)),
            Cell::Create { .. } => None,
        },
        Value::Integer(_) | Value::Outside(_) => None,
    }
}

/// The number of a Create's cell, the index of the Create and the entries.
pub fn closure(state: &State, value: Value) -> Option<(usize, usize, &[Entry])> {
    match value {
        Value::Cell(number) => match &state.cells[number] {
            Cell::Create { place, entries } => Some((number, *place, entries)),
            Cell::Let { .. } => None,
        },
        Value::Integer(_) | Value::Outside(_) => None,
    }
}
