//! Calls of the steppers with what the oracle answers and leaves.

use generators::stores;
use stepper::{Answer, Machine, Stepper};

/// The bytes of the array that a store is the beginning of.
pub const ARRAY: usize = 65_600;
/// An image has at most so many calls. The further calls of a session come with its image again.
pub const MOST_CALLS: usize = 255;

/// What is called, with all that goes in beside the image and the store.
pub enum What {
    Start { definition: usize, values: Vec<u8> },
    Step { steps: u64, events: usize },
}

/// A call, and what it must leave.
pub struct Call {
    pub what: What,
    /// The event buffer is full of this byte before the call, and the store before a start.
    pub old: u8,
    pub before: Vec<u8>,
    pub answer: Answer,
    pub after: Vec<u8>,
    /// What the event buffer begins with after the call; the rest of it stays.
    pub shown: Vec<u8>,
}

impl Call {
    /// The bytes of the state that the call left.
    pub fn state(&self) -> Vec<u8> {
        self.after[..stores::size(&self.after)].to_vec()
    }
}

/// The calls of one stepper on one image.
pub struct Session {
    pub machine: Machine,
    pub image: Vec<u8>,
    pub calls: Vec<Call>,
    stepper: Stepper,
    /// All stores are beginnings of one array, which goes from call to call: so what a store has behind
    /// its state is what earlier calls left there.
    array: Vec<u8>,
}

impl Session {
    pub fn new(machine: Machine, image: Vec<u8>) -> Session {
        Session {
            machine,
            stepper: Stepper::new(machine, &image),
            image,
            calls: Vec::new(),
            array: vec![0; ARRAY],
        }
    }

    /// A start with a store of that length.
    pub fn start(&mut self, definition: usize, values: &[u8], room: usize) -> &Call {
        let old = self.old();
        self.array.fill(old);
        let store = &mut self.array[..room];
        let before = store.to_vec();
        let number = self.stepper.start(definition, values, store);
        let after = store.to_vec();
        let values = values.to_vec();
        self.made(Call {
            what: What::Start { definition, values },
            old,
            before,
            answer: Answer {
                number,
                made: 0,
                length: 0,
            },
            after,
            shown: Vec::new(),
        })
    }

    /// Steps from a store of that length which begins with these bytes, or with as many as it has, and
    /// an event buffer of that length.
    pub fn step(&mut self, begin: &[u8], room: usize, steps: u64, events: usize) -> &Call {
        let old = self.old();
        let store = &mut self.array[..room];
        let part = begin.len().min(room);
        store[..part].copy_from_slice(&begin[..part]);
        let before = store.to_vec();
        let mut shown = vec![old; events];
        let answer = self.stepper.step(steps, store, &mut shown);
        let after = store.to_vec();
        let rest = shown.split_off(answer.length);
        assert!(rest.iter().all(|&byte| byte == old));
        self.made(Call {
            what: What::Step { steps, events },
            old,
            before,
            answer,
            after,
            shown,
        })
    }

    /// The function of a call by its number in the file.
    pub fn function(&self, call: &Call) -> usize {
        let first = match self.machine {
            Machine::Source => 4,
            Machine::Linear => 6,
        };
        first + usize::from(matches!(call.what, What::Step { .. }))
    }

    /// A byte that is not 0, another one for each call.
    fn old(&self) -> u8 {
        (self.calls.len() % 255) as u8 + 1
    }

    fn made(&mut self, call: Call) -> &Call {
        self.calls.push(call);
        if self.calls.len().is_multiple_of(MOST_CALLS) {
            self.array.fill(0);
        }
        self.calls.last().expect("the call just made")
    }
}
