//! What the calls of the steppers are: starts of every kind, runs cut into calls, buffers around what a
//! step needs, every reason to have no next step, stores with one field damaged, the operators and comparisons at the ends of the integers,
//! refused images, and drawn sessions.

mod arithmetic;
mod drawn;
mod forged;
mod programs;
mod refused;
mod rooms;
mod rules;
mod starts;

use crate::Session;
use generators::stores;
use stepper::{Machine, Stepper};

const MACHINES: [Machine; 2] = [Machine::Source, Machine::Linear];
/// Room for every state of a run that is looked at, and for its events.
const PLENTY: usize = 1 << 14;

/// The sessions, the same every time.
pub fn sessions() -> Vec<Session> {
    [
        starts::sessions(),
        rooms::sessions(),
        rules::sessions(),
        forged::sessions(),
        arithmetic::sessions(),
        refused::sessions(),
        drawn::sessions(),
    ]
    .into_iter()
    .flatten()
    .filter(|session| !session.calls.is_empty())
    .collect()
}

/// The states of a run from a start, after each step, and the event bytes of each step.
struct Trace {
    states: Vec<Vec<u8>>,
    events: Vec<usize>,
}

impl Trace {
    /// At most so many steps from a right start of the first definition.
    fn of(machine: Machine, image: &[u8], values: &[u8], steps: usize) -> Trace {
        let stepper = Stepper::new(machine, image);
        let mut store = vec![0; PLENTY];
        assert_eq!(stepper.start(0, values, &mut store), 0);
        let mut trace = Trace {
            states: vec![state(&store)],
            events: Vec::new(),
        };
        let mut events = vec![0; PLENTY];
        while trace.events.len() < steps {
            let answer = stepper.step(1, &mut store, &mut events);
            if answer.made == 0 {
                break;
            }
            trace.states.push(state(&store));
            trace.events.push(answer.length);
        }
        trace
    }
}

/// The bytes of the state that begins a store.
fn state(store: &[u8]) -> Vec<u8> {
    store[..stores::size(store)].to_vec()
}
