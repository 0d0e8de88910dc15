//! Stores and event buffers of every length around what is needed.

use crate::{PLENTY, filled, image, started};
use generators::{Rng, build, stores};
use stepper::{Answer, Machine, Stepper};

/// The states and events of a run, step by step.
struct Trace {
    /// The state's bytes: after the start, and after each step.
    states: Vec<Vec<u8>>,
    events: Vec<Vec<u8>>,
}

impl Trace {
    fn of(stepper: &Stepper, mut store: Vec<u8>, steps: usize) -> Trace {
        let state = |store: &[u8]| store[..stores::size(store)].to_vec();
        let mut trace = Trace {
            states: vec![state(&store)],
            events: Vec::new(),
        };
        let mut events = vec![0; PLENTY];
        for _ in 0..steps {
            let answer = stepper.step(1, &mut store, &mut events);
            assert_eq!(answer.number, 0);
            if answer.made == 0 {
                break;
            }
            trace.states.push(state(&store));
            trace.events.push(events[..answer.length].to_vec());
        }
        trace
    }

    /// What a call must do: each step that is asked for, is there and fits.
    fn expected(&self, steps: u64, store: &mut [u8], events: &mut [u8]) -> Answer {
        let mut answer = Answer {
            number: 0,
            made: 0,
            length: 0,
        };
        for (state, shown) in self.states[1..].iter().zip(&self.events) {
            if answer.made == steps {
                break;
            }
            let end = answer.length + shown.len();
            if state.len() > store.len() || end > events.len() {
                answer.number = 15;
                break;
            }
            store[..state.len()].copy_from_slice(state);
            events[answer.length..end].copy_from_slice(shown);
            answer.made += 1;
            answer.length = end;
        }
        answer
    }

    fn compare(&self, rng: &mut Rng, stepper: &Stepper, steps: u64, rooms: [usize; 2]) -> u8 {
        let [store_room, events_room] = rooms;
        let mut store = filled(rng, store_room);
        let mut events = filled(rng, events_room);
        let begin = &self.states[0];
        let fits = begin.len() <= store_room;
        let part = begin.len().min(store_room);
        store[..part].copy_from_slice(&begin[..part]);
        let (mut store_after, mut events_after) = (store.clone(), events.clone());
        let expected = if fits {
            self.expected(steps, &mut store_after, &mut events_after)
        } else {
            Answer {
                number: 14,
                made: 0,
                length: 0,
            }
        };
        let answer = stepper.step(steps, &mut store, &mut events);
        assert_eq!(answer, expected, "{steps} steps, rooms {rooms:?}");
        assert!(store == store_after && events == events_after);
        answer.number
    }
}

#[test]
fn of_steps() {
    let mut numbers = [0; 16];
    for index in 0..400 {
        let mut rng = Rng::of_case(41, index);
        let machine = [Machine::Source, Machine::Linear][index as usize % 2];
        let image = image(&mut rng, machine);
        let stepper = Stepper::new(machine, &image);
        let Some(store) = started(&mut rng, &image, &stepper, PLENTY) else {
            continue;
        };
        let length = rng.within(1, 20);
        let trace = Trace::of(&stepper, store, length);
        let made = trace.events.len();
        let size = trace.states.iter().map(Vec::len).max().unwrap();
        let shown: usize = trace.events.iter().map(Vec::len).sum();
        // no step more than the trace has, unless it ended there
        let steps = if made < length { u64::MAX } else { made as u64 };
        let plenty = [size + 100, shown + 100];
        let mut compare = |steps, rooms| {
            let number = trace.compare(&mut rng, &stepper, steps, rooms);
            numbers[usize::from(number)] += 1;
        };
        for steps in 0..=made as u64 {
            compare(steps, plenty);
            compare(steps, [trace.states[0].len(), 0]);
        }
        for room in 0..shown + 20 {
            compare(steps, [plenty[0], room]);
        }
        for room in 0..size + 20 {
            compare(steps, [room, plenty[1]]);
        }
        for state in &trace.states {
            for room in state.len() - 2..state.len() + 2 {
                compare(steps, [room, shown]);
            }
        }
    }
    println!("{numbers:?}");
    assert!(numbers[0] > 1_000 && numbers[14] > 1_000 && numbers[15] > 10_000);
}

/// "A store too small for the state" is 15 at a start, also below 64 bytes.
#[test]
fn of_starts() {
    for params in [0, 1, 3] {
        let prog = build::one(3, build::exts(1, params), build::exit(1));
        let image = build::image(&prog);
        let stepper = Stepper::new(Machine::Linear, &image);
        let values = vec![0; 16 * params as usize];
        let needed = 64 + values.len();
        for room in 0..needed + 40 {
            let mut store = vec![0xA5; room];
            let number = stepper.start(0, &values, &mut store);
            assert_eq!(number, if room < needed { 15 } else { 0 });
            if number == 15 {
                assert_eq!(store, vec![0xA5; room]);
            } else {
                assert_eq!(store[needed..], vec![0xA5; room - needed]);
            }
        }
        // 14 goes first
        for length in (0..needed).filter(|&length| length != values.len()) {
            assert_eq!(stepper.start(0, &vec![0; length], &mut []), 14);
        }
        assert_eq!(stepper.start(1, &values, &mut []), 14);
    }
}
