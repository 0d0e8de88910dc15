//! Stores with one field damaged, and stores of no meaning.

use super::programs::{self, Run};
use super::{MACHINES, Trace};
use crate::Session;
use generators::stores::{self, Field, HEADER};
use stepper::Machine;

/// So many other values of a field of the header, and of a slot, are tried.
const OF_HEADER: usize = 8;
const OF_SLOT: usize = 4;

pub fn sessions() -> Vec<Session> {
    let mut all = Vec::new();
    for machine in MACHINES {
        for (run, steps) in [
            (programs::cells(), 3),
            (programs::closure(), 1),
            (programs::outside(), 1),
        ] {
            all.push(of_state(machine, &run, steps));
        }
        all.push(of_no_meaning(machine));
    }
    all
}

/// The state after so many steps, with each field of it damaged.
fn of_state(machine: Machine, run: &Run, steps: usize) -> Session {
    let image = run.image(machine);
    let trace = Trace::of(machine, &image, &run.values(), steps);
    let state = &trace.states[steps];
    let mut session = Session::new(machine, image);
    for field in stores::fields(state) {
        let others = stores::others(state, field);
        let most = if field.at < HEADER {
            OF_HEADER
        } else {
            OF_SLOT
        };
        let stride = others.len().div_ceil(most);
        // not always the same ones
        for &number in others.iter().skip(field.at % stride).step_by(stride) {
            forge(&mut session, state, field, number);
        }
    }
    places(&mut session, state);
    session
}

/// Every place of a record, and some behind, as the position and as the place in a Create's cell.
fn places(session: &mut Session, state: &[u8]) {
    let slots = (HEADER..state.len()).step_by(stores::SLOT);
    let creates = slots.filter(|&slot| state[slot] == 4).map(|slot| slot + 4);
    for at in creates.chain([0]) {
        for number in 0..12 {
            forge(session, state, Field { at, bytes: 4 }, number);
        }
    }
}

fn forge(session: &mut Session, state: &[u8], field: Field, number: u64) {
    let mut store = state.to_vec();
    field.write(&mut store, number);
    session.step(&store, store.len() + 80, 2, 64);
}

/// Stores that are too short, all zero, all one byte, or longer than what they count.
fn of_no_meaning(machine: Machine) -> Session {
    let run = programs::cells();
    let mut session = Session::new(machine, run.image(machine));
    for length in [0, 1, 63, 64, 65, 80, 300] {
        for byte in [0, 1, 255] {
            session.step(&vec![byte; length], length, 1, 16);
        }
        let mut zero = vec![0; length];
        if let Some(position) = zero.first_mut() {
            *position = 1;
        }
        session.step(&zero, length, 0, 0);
        session.step(&zero, length, 3, 48);
    }
    session
}
