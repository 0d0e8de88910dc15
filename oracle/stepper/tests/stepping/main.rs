//! The steppers against the machines of `reference`, in calls of all sizes, and on forged stores.

mod against;
mod cuts;
mod forged;
mod long;
mod machines;
mod rooms;
mod rules;
mod worked;

use generators::{Rng, build, linear, stores, typed, wild};
use stepper::{Machine, Stepper};

/// Room for every state and for the events of every run here.
const PLENTY: usize = 1 << 18;

/// An image for that machine, and a stepper of it.
fn image(rng: &mut Rng, machine: Machine) -> Vec<u8> {
    match machine {
        Machine::Source if rng.chance(12) => build::image(&typed::program(rng)),
        Machine::Source => build::image(&wild::program(rng)),
        Machine::Linear => linear::image(rng),
    }
}

/// A store of that length that a right start of the image left, where it has one.
fn started(rng: &mut Rng, image: &[u8], stepper: &Stepper, length: usize) -> Option<Vec<u8>> {
    let oracle = reference::oracle::Oracle::new(image);
    let (place, given) = generators::starts::start(rng, oracle.program().ok()?);
    let mut store = filled(rng, length);
    let number = stepper.start(place, &stores::values(&given), &mut store);
    (number == 0).then_some(store)
}

/// So many bytes of no meaning.
fn filled(rng: &mut Rng, length: usize) -> Vec<u8> {
    let mut bytes = vec![rng.below(256) as u8; length];
    if let Some(last) = bytes.last_mut() {
        *last ^= 1;
    }
    bytes
}
