//! A session: an image, and some calls of one stepper on it. Sessions by number: the same seed and number
//! give the same calls.

use super::compare::{At, Bench, Compared};
use super::images::Images;
use super::report::{Failing, Report};
use super::subject::Steppers;
use generators::{Rng, stores};
use reference::oracle::Oracle;
use reference::syntax::Prog;
use stepper::{Answer, Stepper};

/// The calls of a session.
pub const CALLS: u64 = 25;

const LARGEST_IMAGE: usize = 65_536;
const LARGEST_VALUES: usize = 1 << 13;
const LARGEST_STORE: usize = 1 << 18;
const LARGEST_EVENTS: usize = 1 << 16;
/// A run whose state is larger is not gone on with.
const LONGEST_RUN: usize = 1 << 14;
/// The event bytes of a call, but for few.
const FEW_EVENTS: usize = 1 << 13;

/// One thread's part of the sessions.
pub struct Worker<'a> {
    images: &'a Images,
    seed: u64,
    bench: Bench,
    pub report: Report,
}

impl Worker<'_> {
    pub fn new(subject: Steppers, images: &Images, seed: u64) -> Worker<'_> {
        let bench = Bench::new(
            subject,
            LARGEST_IMAGE,
            LARGEST_VALUES,
            LARGEST_STORE,
            LARGEST_EVENTS,
        );
        Worker {
            images,
            seed,
            bench,
            report: Report::default(),
        }
    }

    pub fn session(&mut self, number: u64) {
        let mut rng = Rng::of_case(self.seed, number);
        let (machine, image) = self.images.pick(&mut rng);
        let stepper = Stepper::new(machine, &image);
        let oracle = Oracle::new(&image);
        let mut session = Session {
            number,
            at: At {
                machine,
                image: &image,
                stepper: &stepper,
            },
            prog: oracle.program().ok(),
            run: None,
            bench: &mut self.bench,
            report: &mut self.report,
            rng,
        };
        for _ in 0..CALLS {
            session.call();
        }
        self.report.sessions += 1;
    }
}

struct Session<'a> {
    number: u64,
    at: At<'a>,
    /// The program, where the image reads.
    prog: Option<&'a Prog>,
    /// The bytes of the state of the run at hand.
    run: Option<Vec<u8>>,
    bench: &'a mut Bench,
    report: &'a mut Report,
    rng: Rng,
}

impl Session<'_> {
    fn call(&mut self) {
        match self.run.take() {
            None if self.rng.chance(15) => self.start(),
            None => self.junk(),
            Some(run) => match self.rng.below(16) {
                0 => self.start(),
                1..5 => self.forged(run),
                5 => self.junk(),
                _ => self.step(run),
            },
        }
    }

    fn start(&mut self) {
        let (definition, values) = match self.prog {
            Some(prog) => stores::start(&mut self.rng, prog),
            None => (self.rng.below(3), Vec::new()),
        };
        let needed = stores::HEADER + values.len();
        let room = around(&mut self.rng, needed, stores::HEADER);
        let mut store = self.filled(room);
        let before = store.clone();
        let (number, compared) = self.bench.start(&self.at, definition, &values, &mut store);
        self.report.count(self.at.machine, true, number);
        let what = || {
            format!(
                "start of {definition} with {} bytes of values, store {room}",
                values.len()
            )
        };
        self.found(compared, &before, what);
        if number == 0 {
            self.run = Some(state(&store));
        }
    }

    /// Steps of the run, in buffers around what they need.
    fn step(&mut self, run: Vec<u8>) {
        let steps = match self.rng.below(16) {
            0 => 0,
            1..5 => 1,
            5..9 => self.rng.below(12) as u64,
            9..15 => self.rng.below(120) as u64,
            // no count of steps is cut to fewer bits
            _ => *self.rng.pick(&[1 << 32, 1 << 63, u64::MAX - 1, u64::MAX]),
        };
        // what it needs, from a call with plenty of room
        let mut store = run.clone();
        store.resize(run.len() + LONGEST_RUN, 0);
        let few = self.rng.below(64) > 0;
        let mut events = vec![0; if few { FEW_EVENTS } else { LARGEST_EVENTS / 2 }];
        let tried = self.at.stepper.step(steps, &mut store, &mut events);
        let room = match self.rng.below(8) {
            // too small for the state that it has
            0 if self.rng.chance(4) => self.rng.below(run.len()),
            0 => run.len(),
            1 => run.len() + self.rng.below(64),
            2 => stores::size(&store).max(run.len()) - 1,
            3 => stores::size(&store).max(run.len()),
            _ => stores::size(&store).max(run.len()) + self.rng.below(400),
        };
        let events = around(&mut self.rng, tried.length, 16);
        let (answer, store) = self.steps(&run, steps, room, events);
        let ended = answer.number == 0 && answer.made < steps;
        self.ends(&store, ended);
        // now and then a run that has no next step is asked once more
        let goes_on = answer.number == 14 || self.rng.chance(if ended { 3 } else { 15 });
        if goes_on && run.len() <= LONGEST_RUN {
            let next = (answer.number != 14).then(|| state(&store));
            self.run = Some(next.unwrap_or(run));
        }
    }

    /// A call on a copy of the run's store in which one field is another.
    fn forged(&mut self, run: Vec<u8>) {
        let mut damaged = run.clone();
        stores::damage(&mut self.rng, &mut damaged);
        let steps = self.rng.below(8) as u64;
        let room = damaged.len() + 16 * self.rng.below(8) + self.rng.below(300);
        let events = 16 * self.rng.below(40) + self.rng.below(16);
        let (answer, store) = self.steps(&damaged, steps, room, events);
        self.report.forged[1] += 1;
        self.report.forged[0] += u64::from(answer.number != 14);
        // mostly the run itself goes on
        let goes_on = answer.number != 14 && self.rng.chance(4);
        self.run = Some(if goes_on { state(&store) } else { run });
    }

    /// A call on a store of no meaning.
    fn junk(&mut self) {
        let length = self.rng.below(200);
        let mut store = self.filled(length);
        if self.rng.chance(8) {
            store.fill(0);
        }
        if let (true, Some(position)) = (self.rng.chance(8), store.first_mut()) {
            *position = self.rng.below(20) as u8;
        }
        let (answer, store) = self.steps(&store, 3, length, 64);
        if answer.number != 14 && answer.made > 0 {
            self.run = Some(state(&store));
        }
    }

    /// Steps by both sides from a store that begins with these bytes, in buffers of these lengths.
    fn steps(&mut self, begin: &[u8], steps: u64, room: usize, events: usize) -> (Answer, Vec<u8>) {
        let mut store = self.filled(room.min(LARGEST_STORE));
        let part = begin.len().min(store.len());
        store[..part].copy_from_slice(&begin[..part]);
        let before = store.clone();
        let mut shown = self.filled(events.min(LARGEST_EVENTS));
        let (answer, compared) = self.bench.step(&self.at, steps, &mut store, &mut shown);
        self.report.count(self.at.machine, false, answer.number);
        self.report.steps += answer.made;
        self.report.event_bytes += answer.length as u64;
        let what = || format!("{steps} steps, store {room}, events {events}");
        self.found(compared, &before, what);
        (answer, store)
    }

    fn ends(&mut self, store: &[u8], no_next_step: bool) {
        if no_next_step {
            let end = match store[4..6] {
                [1, _] => 0,
                [_, 1] => 1,
                _ => 2,
            };
            self.report.ends[end] += 1;
        }
    }

    fn found(&mut self, compared: Compared, store: &[u8], call: impl Fn() -> String) {
        if let Some(what) = compared {
            self.report.mismatch(Failing {
                session: self.number,
                image: self.at.image.to_vec(),
                store: store.to_vec(),
                what: format!("{:?}, {}: {what}", self.at.machine, call()),
            });
        }
    }

    /// So many bytes that no call wrote.
    fn filled(&mut self, length: usize) -> Vec<u8> {
        let mut bytes = Vec::with_capacity(length + 8);
        while bytes.len() < length {
            bytes.extend(self.rng.number().to_le_bytes());
        }
        bytes.truncate(length);
        bytes
    }
}

/// The bytes of the state that begins a store.
fn state(store: &[u8]) -> Vec<u8> {
    store[..stores::size(store)].to_vec()
}

/// A room that is right, too small or larger, mostly by little.
fn around(rng: &mut Rng, needed: usize, part: usize) -> usize {
    match rng.below(16) {
        0 => 0,
        1 => rng.below(needed + 1),
        2 => needed.saturating_sub(1),
        3 => needed.saturating_sub(part),
        4 => rng.below(part + 1),
        5 => needed + 1,
        6..10 => needed,
        _ => needed + rng.below(300),
    }
}
