//! A run that keeps its own store.

use crate::{events, values, Event, Given, Header, Machine, Refusal, SLOT, STORE_HEADER};

/// A run on an image, with a store of its own that grows as the run needs it.
///
/// ```
/// use axcut::{Event, Given, Machine, Run, Value};
///
/// let image = include_bytes!("../../../examples/hysteresis/program.axc");
/// // pressure, low, margin, whether it was low before, and the report
/// let mut given = [640, 650, 30, 0].map(Given::Integer).to_vec();
/// given.push(Given::Outside(7));
/// let mut run = Run::start(Machine::Source, image, 0, &given)?;
/// let shown = run.step(1_000);
/// let Some(Event::InvokeOutside { outside: 7, args, .. }) = shown.events.last() else {
///     panic!("no report");
/// };
/// assert_eq!(args[..], [640, 10].map(Value::Integer));
/// assert!(run.header().ended);
/// # Ok::<(), axcut::Refusal>(())
/// ```
#[derive(Debug, Clone)]
pub struct Run<'a> {
    machine: Machine,
    image: &'a [u8],
    /// A state of the image, and behind it any bytes.
    store: Vec<u8>,
}

/// The steps of a call and their events; a Substitute is a step without one.
#[derive(Debug, Clone, Default, PartialEq, Eq)]
pub struct Shown {
    pub made: u64,
    pub events: Vec<Event>,
}

/// A call has room for the events of so many steps.
const BATCH: u64 = 4_096;
/// A list in an image has no more bindings.
const LONGEST_LIST: usize = 128;
/// The bytes of a store that has to grow, at least.
const LEAST_STORE: usize = 4_096;

impl<'a> Run<'a> {
    /// A run from the definition with this place among the definitions, from 0, with one value for each of
    /// its parameters. Questions 1 to 10 or 1 to 5, then 14.
    pub fn start(
        machine: Machine,
        image: &'a [u8],
        definition: usize,
        given: &[Given],
    ) -> Result<Run<'a>, Refusal> {
        let mut store = vec![0; STORE_HEADER + SLOT * given.len()];
        machine.start(image, definition, &values(given), &mut store)?;
        Ok(Run {
            machine,
            image,
            store,
        })
    }

    /// A run from a state, such as [`Run::state`] gives. Questions 1 to 10 or 1 to 5, then 14.
    pub fn resume(machine: Machine, image: &'a [u8], state: &[u8]) -> Result<Run<'a>, Refusal> {
        let mut store = state.to_vec();
        machine.step(image, 0, &mut store, &mut [])?;
        Ok(Run {
            machine,
            image,
            store,
        })
    }

    /// Makes at most so many steps; fewer only where the run has no next step. A run that goes on making
    /// cells takes more memory with every step that is asked for.
    pub fn step(&mut self, steps: u64) -> Shown {
        let mut shown = Shown::default();
        loop {
            let left = steps - shown.made;
            let mut buffer = vec![0; self.room_for_events(left)];
            let stepped = self
                .machine
                .step(self.image, left, &mut self.store, &mut buffer)
                .expect("a state of the image");
            shown.made += stepped.made;
            let bytes = &buffer[..stepped.length];
            shown.events.extend(events(bytes).expect("events"));
            if !stepped.full {
                return shown;
            }
            if stepped.made == 0 {
                self.grow();
            }
        }
    }

    /// Where the run is.
    pub fn header(&self) -> Header {
        Header::read(&self.store).expect("a state of the image")
    }

    /// The bytes of the state.
    pub fn state(&self) -> &[u8] {
        &self.store[..self.header().size()]
    }

    /// Room for any one event, also for one that shows the whole environment: where a call makes no step
    /// for want of room, it is the store that is too small.
    fn room_for_events(&self, steps: u64) -> usize {
        let arguments = LONGEST_LIST.max(self.header().entries);
        SLOT * (1 + arguments + steps.min(BATCH) as usize)
    }

    fn grow(&mut self) {
        let length = LEAST_STORE.max(2 * self.store.len());
        self.store.resize(length, 0);
    }
}
