//! The subject's calls on a run, over a store and an event buffer.

use super::machines::{Oracle, put, values};
use super::runs::Run;
use differential::stepping::Steppers;

/// The store has room for every run, and the event buffer for the steps of every timed stretch.
const STORE: usize = 64 << 20;
const EVENTS: usize = 1 << 20;

/// The number of a call that could not go on for space.
const NO_ROOM: u32 = 15;

pub struct Calls {
    subject: Steppers,
    store: Vec<u8>,
    events: Vec<u8>,
    /// For the events of the oracle's machine.
    pub shown: Vec<u8>,
}

/// What a call for steps reported.
#[derive(Debug, Clone, Copy, PartialEq, Eq)]
pub struct Stepped {
    pub number: u32,
    pub made: u64,
    pub length: usize,
}

impl Calls {
    pub fn new(subject: Steppers) -> Calls {
        Calls {
            subject,
            store: vec![0; STORE],
            events: vec![0; EVENTS],
            shown: Vec::with_capacity(EVENTS),
        }
    }

    pub fn start(&mut self, run: &Run, values: &[u8]) -> u32 {
        let call = self.subject.start(run.machine);
        let (image, store) = (&run.image, &mut self.store);
        // SAFETY: the pointers and lengths are those of the slices.
        unsafe {
            call(
                image.as_ptr(),
                image.len(),
                run.definition,
                values.as_ptr(),
                values.len(),
                store.as_mut_ptr(),
                store.len(),
            )
        }
    }

    /// At most so many steps from the state in the store.
    pub fn step(&mut self, run: &Run, steps: u64) -> Stepped {
        let call = self.subject.step(run.machine);
        let (image, store, events) = (&run.image, &mut self.store, &mut self.events);
        let (mut made, mut length) = (0, 0);
        // SAFETY: as above.
        let number = unsafe {
            call(
                image.as_ptr(),
                image.len(),
                steps,
                store.as_mut_ptr(),
                store.len(),
                events.as_mut_ptr(),
                events.len(),
                &mut made,
                &mut length,
            )
        };
        Stepped {
            number,
            made,
            length,
        }
    }

    /// The bytes of the state in the store.
    pub fn state(&self) -> &[u8] {
        let (_, slots, entries) = self.counts();
        &self.store[..64 + 16 * (slots + entries)]
    }

    /// Puts a state into the store.
    pub fn load(&mut self, state: &[u8]) {
        self.store[..state.len()].copy_from_slice(state);
    }

    /// The cells, their slots and the entries of the state.
    pub fn counts(&self) -> (usize, usize, usize) {
        let count = |at: usize| {
            let bytes = self.store[at..].first_chunk().expect("8 bytes");
            u64::from_le_bytes(*bytes) as usize
        };
        (count(8), count(16), count(24))
    }

    /// Starts the run and makes all its steps, those before the stretch in calls of their own: whether
    /// every step shows the bytes of the oracle's event, and as many cells and entries are left. The state
    /// before the stretch is given back.
    pub fn agrees(&mut self, run: &Run) -> Option<Vec<u8>> {
        let mut machine = Oracle::start(run)?;
        if self.start(run, &values(run)) != 0 {
            return None;
        }
        let mut left = run.before;
        while left > 0 {
            left -= self
                .same_steps(run, &mut machine, left)
                .filter(|&made| made > 0)?;
        }
        let state = self.state().to_vec();
        (self.same_steps(run, &mut machine, run.steps) == Some(run.steps)).then_some(state)
    }

    /// A call for at most so many steps, and the same number by the machine.
    fn same_steps(&mut self, run: &Run, machine: &mut Oracle, steps: u64) -> Option<u64> {
        self.events.fill(0xA5);
        let stepped = self.step(run, steps);
        let whole = stepped.number == 0 && stepped.made == steps;
        let full = stepped.number == NO_ROOM && stepped.made < steps;
        let mut shown = Vec::new();
        let made = machine.advance(stepped.made, |event| {
            event.iter().for_each(|event| put(event, &mut shown));
        });
        let state = machine.state();
        let (cells, _, entries) = self.counts();
        let (written, rest) = self.events.split_at_checked(stepped.length)?;
        let same = (whole || full)
            && made == stepped.made
            && written == shown
            && rest.iter().all(|&byte| byte == 0xA5)
            && (cells, entries) == (state.cells.len(), state.entries.len());
        same.then_some(made)
    }
}
