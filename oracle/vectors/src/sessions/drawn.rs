//! Drawn sessions, as `differential` makes them by the million, but small.

use super::PLENTY;
use crate::Session;
use generators::{Rng, build, damage, linear, stores, typed, wild};
use reference::oracle::Oracle;
use reference::syntax::Prog;
use stepper::{Machine, Stepper};

/// The sessions are drawn from this seed.
const SEED: u64 = 2026;
/// So many sessions, of so many calls each.
const SESSIONS: usize = 200;
const CALLS: usize = 12;
/// No image is larger, and no run goes on from a larger state.
const LARGEST_IMAGE: usize = 500;
const LARGEST_STATE: usize = 700;

pub fn sessions() -> Vec<Session> {
    (0..)
        .map(|number| Rng::of_case(SEED, number))
        .filter_map(drawn)
        .take(SESSIONS)
        .collect()
}

fn drawn(mut rng: Rng) -> Option<Session> {
    let (machine, image) = picked(&mut rng);
    if image.len() > LARGEST_IMAGE {
        return None;
    }
    let oracle = Oracle::new(&image);
    let mut drawing = Drawing {
        stepper: Stepper::new(machine, &image),
        prog: oracle.program().ok(),
        session: Session::new(machine, image.clone()),
        run: None,
        rng,
    };
    for _ in 0..CALLS {
        drawing.call();
    }
    Some(drawing.session)
}

/// A machine and an image for it; now and then one that is refused.
fn picked(rng: &mut Rng) -> (Machine, Vec<u8>) {
    let machine = *rng.pick(&super::MACHINES);
    let image = match rng.below(16) {
        0 => {
            let prog = typed::program(rng);
            damage::image(rng, &prog)
        }
        1 => linear::image(rng),
        2..5 if machine == Machine::Source => build::image(&wild::program(rng)),
        _ if machine == Machine::Source => build::image(&typed::program(rng)),
        _ => linear::image(rng),
    };
    (machine, image)
}

struct Drawing<'a> {
    stepper: Stepper,
    /// The program, where the image reads.
    prog: Option<&'a Prog>,
    session: Session,
    /// The bytes of the state of the run at hand.
    run: Option<Vec<u8>>,
    rng: Rng,
}

impl Drawing<'_> {
    fn call(&mut self) {
        match self.run.take() {
            None => self.start(),
            Some(run) => match self.rng.below(16) {
                0 => self.start(),
                1..5 => self.forged(run),
                _ => self.step(run),
            },
        }
    }

    fn start(&mut self) {
        let (definition, values) = match self.prog {
            Some(prog) => stores::start(&mut self.rng, prog),
            None => (self.rng.below(3), Vec::new()),
        };
        let room = around(&mut self.rng, stores::HEADER + values.len());
        let call = self.session.start(definition, &values, room);
        self.run = (call.answer.number == 0).then(|| call.state());
    }

    /// Steps of the run, in buffers around what they need.
    fn step(&mut self, run: Vec<u8>) {
        let steps = match self.rng.below(8) {
            0..3 => 1,
            3 => 1 << self.rng.within(40, 63),
            _ => self.rng.below(8) as u64,
        };
        let (mut store, mut events) = (run.clone(), vec![0; 16 * 12]);
        store.resize(run.len() + PLENTY, 0);
        let tried = self.stepper.step(steps, &mut store, &mut events);
        let size = stores::size(&store);
        let room = match self.rng.below(8) {
            0 => size - 1,
            1 => run.len(),
            _ => size.max(run.len()) + self.rng.below(60),
        };
        let events = around(&mut self.rng, tried.length);
        let call = self.session.step(&run, room, steps, events);
        let next = match call.answer.number {
            14 => run,
            _ => call.state(),
        };
        // now and then a run that has no next step is asked once more
        let goes_on = call.answer.number != 0 || call.answer.made == steps || self.rng.chance(6);
        self.run = (goes_on && next.len() <= LARGEST_STATE).then_some(next);
    }

    /// A call on a copy of the run's store in which one field is another.
    fn forged(&mut self, run: Vec<u8>) {
        let mut damaged = run.clone();
        stores::damage(&mut self.rng, &mut damaged);
        let steps = self.rng.below(6) as u64;
        let room = damaged.len() + self.rng.below(120);
        let events = self.rng.below(120);
        let call = self.session.step(&damaged, room, steps, events);
        // mostly the run itself goes on
        let goes_on = call.answer.number != 14 && self.rng.chance(4);
        self.run = Some(if goes_on { call.state() } else { run });
    }
}

/// A room that is right, too small or larger, mostly by little.
fn around(rng: &mut Rng, needed: usize) -> usize {
    match rng.below(16) {
        0 => 0,
        1 => rng.below(needed + 1),
        2 => needed.saturating_sub(1),
        3 => needed.saturating_sub(16),
        4 => needed + 1,
        5..12 => needed,
        _ => needed + rng.below(100),
    }
}
