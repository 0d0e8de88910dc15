//! Runs cut into calls, with stores and event buffers around what is needed.

use super::{MACHINES, Trace, programs};
use crate::Session;
use generators::{build, linear, stores};
use reference::machines::Given::{Int, Outside};
use stepper::Machine;

/// Every run here is shorter.
const LONGEST: usize = 20;
/// So many values make a list that is longer than any count in an image.
const MANY: u32 = 44;

pub fn sessions() -> Vec<Session> {
    let mut all = Vec::new();
    for run in programs::all() {
        for machine in MACHINES {
            all.push(of_run(machine, run.image(machine), &run.values()));
        }
    }
    all.push(of_many());
    all
}

fn of_run(machine: Machine, image: Vec<u8>, values: &[u8]) -> Session {
    let trace = Trace::of(machine, &image, values, LONGEST);
    let mut session = Session::new(machine, image);
    session.start(0, values, trace.states[0].len());
    single(&mut session, &trace);
    several(&mut session, &trace);
    cut(&mut session, &trace);
    ended(&mut session, &trace);
    session
}

/// One step from each state, in buffers that have just room, or a byte too few.
fn single(session: &mut Session, trace: &Trace) {
    for (place, events) in trace.events.iter().copied().enumerate() {
        let (now, next) = (&trace.states[place], &trace.states[place + 1]);
        let room = now.len().max(next.len());
        session.step(now, room, 1, events);
        if events > 0 {
            session.step(now, room, 1, events - 1);
            session.step(now, room, 1, 0);
        }
        if room > now.len() {
            session.step(now, room - 1, 1, events);
            session.step(now, now.len(), 1, events + 5);
        }
        // the state itself is cut off: that is question 14
        session.step(now, now.len() - 1, 1, events);
    }
}

/// The whole run in one call, in buffers around what it needs.
fn several(session: &mut Session, trace: &Trace) {
    let sizes = trace.states.iter().map(Vec::len);
    let store = sizes.max().expect("a state");
    let events: usize = trace.events.iter().sum();
    let first = &trace.states[0];
    let steps = trace.events.len() as u64;
    for steps in [
        0,
        1,
        steps - 1,
        steps,
        steps + 1,
        1 << 32,
        1 << 63,
        u64::MAX,
    ] {
        session.step(first, store + 30, steps, events + 30);
    }
    for less in [1, 15, 16, 17, 32] {
        session.step(first, store + 1, u64::MAX, events.saturating_sub(less));
        session.step(first, first.len().max(store - less), u64::MAX, events);
    }
    session.step(first, store, u64::MAX, events);
    session.step(first, first.len(), u64::MAX, 0);
}

/// The run in calls of one, two, three .. steps, each from what the call before left, with as much store
/// as that has and a little more.
fn cut(session: &mut Session, trace: &Trace) {
    for first in 1..4 {
        let mut now = trace.states[0].clone();
        for steps in first..LONGEST as u64 {
            let call = session.step(&now, now.len() + 100, steps, 200);
            now = call.state();
            if call.answer.made < steps {
                break;
            }
        }
    }
}

/// The last state is asked once more.
fn ended(session: &mut Session, trace: &Trace) {
    let last = trace.states.last().expect("a state");
    for (steps, events) in [(0, 0), (1, 0), (1, 64), (u64::MAX, 16)] {
        session.step(last, last.len(), steps, events);
    }
}

/// A list that is longer than any count in an image, at last as the arguments of an outside number.
fn of_many() -> Session {
    let image = build::image(&linear::long(MANY));
    let mut given = vec![Int(-1); MANY as usize];
    given[MANY as usize - 1] = Outside(77);
    let values = stores::values(&given);
    let trace = Trace::of(Machine::Linear, &image, &values, LONGEST);
    let mut session = Session::new(Machine::Linear, image);
    session.start(0, &values, trace.states[0].len());
    for (place, events) in trace.events.iter().copied().enumerate() {
        let room = trace.states[place + 1].len().max(trace.states[place].len());
        session.step(&trace.states[place], room, 1, events);
    }
    let before_last = &trace.states[trace.events.len() - 1];
    let needed = trace.events.last().expect("a step");
    session.step(before_last, before_last.len(), 1, needed - 1);
    session
}
