//! The two machines over lent buffers.

use crate::{library, Given, Refusal};

/// The bytes of a state without cells and entries.
pub const STORE_HEADER: usize = 64;

/// The bytes of each cell, entry, value and event.
pub const SLOT: usize = 16;

/// The machine that runs an image. Its calls keep a run as bytes in a lent store, and write what it shows
/// into a second buffer; they take no memory but the stack.
///
/// ```
/// use axcut::{events, Event, Given, Header, Machine, Value};
///
/// let image = include_bytes!("../../../examples/handset/program.axc");
/// let values = axcut::values(&[800, 760, 20].map(Given::Integer));
/// let (mut store, mut shown) = ([0; 1_024], [0; 256]);
/// Machine::Source.start(image, 0, &values, &mut store)?;
/// let stepped = Machine::Source.step(image, 1_000, &mut store, &mut shown)?;
/// assert_eq!((stepped.made, stepped.length, stepped.full), (11, 176, false));
/// assert!(Header::read(&store).unwrap().ended);
/// let shown = events(&shown[..stepped.length]).unwrap();
/// assert_eq!(shown[10], Event::Exit(Value::Integer(20)));
/// # Ok::<(), axcut::Refusal>(())
/// ```
#[derive(Debug, Clone, Copy, PartialEq, Eq, Hash)]
pub enum Machine {
    /// Runs the programs that [`check`](crate::check) accepts. Every call asks questions 1 to 10 first.
    Source,
    /// Runs every image, the outputs of [`linearize`](crate::linearize) among them. Every call asks
    /// questions 1 to 5 first.
    Linear,
}

/// What a call for steps made.
#[derive(Debug, Clone, Copy, PartialEq, Eq)]
pub struct Stepped {
    pub made: u64,
    /// The bytes of their events, from the beginning of the event buffer.
    pub length: usize,
    /// Whether a next step was asked for and had no room in the store or in the event buffer (15). It
    /// changed neither. Where this is false and fewer steps were made than asked for, the run has no next
    /// step: it has ended or stopped, which [`Header`] tells, or is stuck.
    pub full: bool,
}

impl Machine {
    /// Writes the first state of a run to the beginning of `store`: at the definition with this place
    /// among the definitions, from 0, with a value of [`SLOT`] bytes for each of its parameters, as
    /// [`values`](crate::values) gives them. After the image's questions come 14 and 15. A refusal changes
    /// nothing.
    pub fn start(
        self,
        image: &[u8],
        definition: usize,
        values: &[u8],
        store: &mut [u8],
    ) -> Result<(), Refusal> {
        library::start(self, image, definition, values, store)
    }

    /// Makes at most so many steps from the state in `store`, leaves there the state after them, and
    /// writes their events to the beginning of `events`. After the image's questions comes 14; these
    /// refusals change nothing. 15 is no refusal here but [`Stepped::full`], beside what was made: a call
    /// with more room goes on from there.
    pub fn step(
        self,
        image: &[u8],
        steps: u64,
        store: &mut [u8],
        events: &mut [u8],
    ) -> Result<Stepped, Refusal> {
        library::step(self, image, steps, store, events)
    }
}

/// The bytes of a start's values.
pub fn values(given: &[Given]) -> Vec<u8> {
    given.iter().flat_map(|value| value.slot()).collect()
}

/// What the header of a store says.
#[derive(Debug, Clone, Copy, PartialEq, Eq)]
pub struct Header {
    /// The index of the record of the statement at hand.
    pub position: u32,
    /// Whether a step has ended the run.
    pub ended: bool,
    /// Whether the linear machine has no next step because of an ID.
    pub stopped: bool,
    pub cells: u64,
    /// The slots of all cells: one for each, and one for each value or entry in it.
    pub slots: usize,
    /// The entries of the environment.
    pub entries: usize,
}

impl Header {
    /// The header of a store, or `None` where it is none: the slots that it counts lie inside the store,
    /// a flag is 0 or 1, and what is spare is zero. Question 14 asks more, of the image and of each slot.
    pub fn read(store: &[u8]) -> Option<Header> {
        let header = store.get(..STORE_HEADER)?;
        let long = |at: usize| u64::from_le_bytes(header[at..at + 8].try_into().expect("8 bytes"));
        let room = ((store.len() - STORE_HEADER) / SLOT) as u64;
        let (slots, entries) = (long(16), long(24));
        let inside = slots <= room && entries <= room - slots;
        let mut spare = header[6..8].iter().chain(&header[32..]);
        (inside && spare.all(|&byte| byte == 0)).then_some(Header {
            position: u32::from_le_bytes(header[..4].try_into().expect("4 bytes")),
            ended: flag(header[4])?,
            stopped: flag(header[5])?,
            cells: long(8),
            slots: slots as usize,
            entries: entries as usize,
        })
    }

    /// The bytes of the whole state: a store of this length holds it.
    pub fn size(&self) -> usize {
        STORE_HEADER + SLOT * (self.slots + self.entries)
    }
}

fn flag(byte: u8) -> Option<bool> {
    match byte {
        0 => Some(false),
        1 => Some(true),
        _ => None,
    }
}
