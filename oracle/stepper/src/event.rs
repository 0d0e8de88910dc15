//! What a step shows, as bytes.

use crate::slot::{SLOT, sort};
use crate::state::Value;
use crate::store::value_slot;
use reference::syntax::Name;

/// An event: 16 bytes, and 16 for each argument value.
#[derive(Debug, Clone, PartialEq, Eq)]
pub struct Event {
    /// Byte 0: the kind of the statement's record.
    kind: u8,
    /// Byte 1: what bytes 8 to 15 are; of an IfC the branch, of a PrintI64 the newline byte.
    sort: u8,
    /// Bytes 2 and 3: a tag or a label.
    name: u16,
    /// Bytes 8 to 15.
    long: u64,
    /// The argument values of an Invoke of an outside number.
    args: Vec<Value>,
}

impl Event {
    fn new(kind: u8, sort: u8, name: u16, long: u64) -> Event {
        let args = Vec::new();
        Event {
            kind,
            sort,
            name,
            long,
            args,
        }
    }

    pub fn call(label: Name) -> Event {
        Event::new(3, 0, label.0, 0)
    }

    pub fn r#let(cell: usize, tag: Name) -> Event {
        Event::new(4, sort::CELL, tag.0, cell as u64)
    }

    pub fn switch(cell: usize, tag: Name) -> Event {
        Event::new(5, sort::CELL, tag.0, cell as u64)
    }

    pub fn create(cell: usize) -> Event {
        Event::new(6, sort::CELL, 0, cell as u64)
    }

    pub fn invoke(cell: usize, tag: Name) -> Event {
        Event::new(7, sort::CELL, tag.0, cell as u64)
    }

    pub fn invoke_outside(number: u8, tag: Name, args: Vec<Value>) -> Event {
        let event = Event::new(7, sort::OUTSIDE, tag.0, number.into());
        Event { args, ..event }
    }

    pub fn literal(integer: i64) -> Event {
        Event::new(8, sort::INTEGER, 0, integer as u64)
    }

    pub fn op(integer: i64) -> Event {
        Event::new(9, sort::INTEGER, 0, integer as u64)
    }

    pub fn ifc(then_branch: bool) -> Event {
        Event::new(10, then_branch.into(), 0, 0)
    }

    pub fn print_i64(integer: i64, newline: bool) -> Event {
        Event::new(12, newline.into(), 0, integer as u64)
    }

    pub fn exit(value: Value) -> Event {
        let slot = value_slot(0, value, shown(value));
        Event::new(13, slot.sort, 0, slot.long)
    }

    pub fn bytes(&self) -> Vec<u8> {
        let count = u32::try_from(self.args.len()).expect("a store has fewer entries");
        let mut out = Vec::with_capacity(SLOT * (1 + self.args.len()));
        out.extend([self.kind, self.sort]);
        out.extend(self.name.to_le_bytes());
        out.extend(count.to_le_bytes());
        out.extend(self.long.to_le_bytes());
        for &value in &self.args {
            value_slot(0, value, shown(value)).write(&mut out);
        }
        out
    }
}

/// An event shows a cell by its number.
fn shown(value: Value) -> u64 {
    match value {
        Value::Cell(number) => number as u64,
        Value::Integer(_) | Value::Outside(_) => 0,
    }
}
