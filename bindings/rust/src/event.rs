//! Values and events, and their bytes.

use crate::SLOT;

/// A value that a start gives to a parameter.
#[derive(Debug, Clone, Copy, PartialEq, Eq, Hash)]
pub enum Given {
    Integer(i64),
    /// Something outside of the program, by a number of the caller's. Its Invoke ends the run.
    Outside(u8),
}

impl Given {
    /// The bytes of the value.
    pub fn slot(self) -> [u8; SLOT] {
        let (sort, number) = match self {
            Given::Integer(integer) => (0, integer as u64),
            Given::Outside(number) => (2, number.into()),
        };
        let mut slot = [0; SLOT];
        slot[0] = sort;
        slot[8..].copy_from_slice(&number.to_le_bytes());
        slot
    }
}

/// A value that an event shows.
#[derive(Debug, Clone, Copy, PartialEq, Eq, Hash)]
pub enum Value {
    Integer(i64),
    /// A cell by its number: the cells of a run are numbered from 0, as they are made.
    Cell(u64),
    Outside(u8),
}

impl Value {
    fn new(sort: u8, number: u64) -> Option<Value> {
        match sort {
            0 => Some(Value::Integer(number as i64)),
            1 => Some(Value::Cell(number)),
            2 => number.try_into().ok().map(Value::Outside),
            _ => None,
        }
    }

    /// The value of an argument's slot.
    fn read(slot: &[u8]) -> Option<Value> {
        let zero = slot[1..8].iter().all(|&byte| byte == 0);
        Value::new(slot[0], long(slot)).filter(|_| zero)
    }
}

/// What a step showed. Labels and tags are name numbers. A Substitute is a step without an event.
#[derive(Debug, Clone, PartialEq, Eq, Hash)]
pub enum Event {
    Call {
        label: u16,
    },
    Let {
        tag: u16,
        cell: u64,
    },
    Switch {
        tag: u16,
        cell: u64,
    },
    Create {
        cell: u64,
    },
    Invoke {
        tag: u16,
        cell: u64,
    },
    /// An Invoke of an outside number, which ends the run.
    InvokeOutside {
        tag: u16,
        outside: u8,
        args: Vec<Value>,
    },
    Literal(i64),
    Op(i64),
    IfC {
        then_branch: bool,
    },
    PrintI64 {
        integer: i64,
        newline: bool,
    },
    /// Ends the run.
    Exit(Value),
}

impl Event {
    /// The first event in these bytes and the bytes behind it, or `None` where they begin with none.
    ///
    /// ```
    /// use axcut::Event;
    /// let bytes = [12, 1, 0, 0, 0, 0, 0, 0, 7, 0, 0, 0, 0, 0, 0, 0];
    /// let (event, rest) = Event::read(&bytes).unwrap();
    /// assert_eq!(event, Event::PrintI64 { integer: 7, newline: true });
    /// assert!(rest.is_empty());
    /// ```
    pub fn read(bytes: &[u8]) -> Option<(Event, &[u8])> {
        let slot = bytes.get(..SLOT)?;
        let count = u32::from_le_bytes(slot[4..8].try_into().expect("4 bytes"));
        let end = usize::try_from(count).ok()?.checked_add(1)?;
        let args = bytes.get(SLOT..end.checked_mul(SLOT)?)?;
        let event = Event::of_slot(slot, args)?;
        Some((event, &bytes[SLOT + args.len()..]))
    }

    /// Only an Invoke of an outside number has argument values, only an event about a cell or a label a
    /// name, and what is spare is zero.
    fn of_slot(slot: &[u8], args: &[u8]) -> Option<Event> {
        let name = u16::from_le_bytes([slot[2], slot[3]]);
        let number = long(slot);
        let integer = number as i64;
        let event = match (slot[0], slot[1], name, number) {
            (3, 0, label, 0) => Event::Call { label },
            (4, 1, tag, cell) => Event::Let { tag, cell },
            (5, 1, tag, cell) => Event::Switch { tag, cell },
            (6, 1, 0, cell) => Event::Create { cell },
            (7, 1, tag, cell) => Event::Invoke { tag, cell },
            (7, 2, tag, number) => {
                let outside = number.try_into().ok()?;
                let args = arguments(args)?;
                return Some(Event::InvokeOutside { tag, outside, args });
            }
            (8, 0, 0, _) => Event::Literal(integer),
            (9, 0, 0, _) => Event::Op(integer),
            (10, branch @ (0 | 1), 0, 0) => Event::IfC {
                then_branch: branch == 1,
            },
            (12, newline @ (0 | 1), 0, _) => Event::PrintI64 {
                integer,
                newline: newline == 1,
            },
            (13, sort, 0, _) => Event::Exit(Value::new(sort, number)?),
            _ => return None,
        };
        args.is_empty().then_some(event)
    }
}

/// All events in these bytes, in order, or `None` where the bytes are not those of events.
pub fn events(bytes: &[u8]) -> Option<Vec<Event>> {
    let mut events = Vec::with_capacity(bytes.len() / SLOT);
    let mut rest = bytes;
    while !rest.is_empty() {
        let (event, behind) = Event::read(rest)?;
        events.push(event);
        rest = behind;
    }
    Some(events)
}

fn arguments(slots: &[u8]) -> Option<Vec<Value>> {
    slots.chunks_exact(SLOT).map(Value::read).collect()
}

/// Bytes 8 to 15 of a slot.
fn long(slot: &[u8]) -> u64 {
    u64::from_le_bytes(slot[8..SLOT].try_into().expect("8 bytes"))
}
