//! A run in one call and the same run in many calls: the same events, and the same bytes in the store.

use crate::{PLENTY, filled, image, started};
use generators::{Rng, stores};
use stepper::{Machine, Stepper, store};

const STEPS: u64 = 120;

/// For each index the machine, its image, a stepper and a store after a start.
fn each(seed: u64, count: u64, mut compare: impl FnMut(&mut Rng, &Stepper, Vec<u8>)) {
    let mut runs = 0;
    for index in 0..count {
        let mut rng = Rng::of_case(seed, index);
        let machine = [Machine::Source, Machine::Linear][index as usize % 2];
        let image = image(&mut rng, machine);
        let stepper = Stepper::new(machine, &image);
        if let Some(store) = started(&mut rng, &image, &stepper, PLENTY) {
            runs += 1;
            compare(&mut rng, &stepper, store);
        }
    }
    assert!(runs > count / 2, "{runs}");
}

/// All steps in one call.
fn whole(stepper: &Stepper, store: &mut [u8]) -> (u64, Vec<u8>) {
    let mut events = vec![0; PLENTY];
    let answer = stepper.step(STEPS, store, &mut events);
    assert_eq!(answer.number, 0);
    events.truncate(answer.length);
    (answer.made, events)
}

/// Calls of some steps each, some of them with an event buffer that is too short: every byte of the
/// store is as in one call, those behind the state too.
#[test]
fn any_cut_gives_the_same() {
    let mut short = 0;
    each(31, 1_500, |rng, stepper, mut store| {
        let mut cut = store.clone();
        let (made, shown) = whole(stepper, &mut store);
        let (mut steps, mut events) = (0, Vec::<u8>::new());
        while steps < made {
            let asked = rng.below(12) as u64;
            let room = 16 * rng.below(14);
            let mut buffer = filled(rng, room);
            let before = buffer.clone();
            let answer = stepper.step(asked.min(STEPS - steps), &mut cut, &mut buffer);
            assert!(buffer[answer.length..] == before[answer.length..]);
            short += usize::from(answer.number == 15);
            if answer.number == 15 && answer.made == 0 {
                // the next event may be longer than every buffer here
                let mut buffer = vec![0; PLENTY];
                let answer = stepper.step(1, &mut cut, &mut buffer);
                assert_eq!((answer.number, answer.made), (0, 1));
                events.extend(&buffer[..answer.length]);
                steps += 1;
                continue;
            }
            steps += answer.made;
            events.extend(&buffer[..answer.length]);
        }
        assert_eq!(steps, made);
        assert!(events == shown && cut == store);
    });
    assert!(short > 1_000, "{short}");
}

/// A store that was too small is copied into a longer one, and the run goes on.
#[test]
fn a_store_can_grow() {
    let mut grown = 0;
    each(32, 800, |rng, stepper, mut store| {
        let mut small = store[..stores::size(&store)].to_vec();
        let (made, shown) = whole(stepper, &mut store);
        let (mut steps, mut events) = (0, Vec::<u8>::new());
        while steps < made {
            let mut buffer = vec![0; PLENTY];
            let answer = stepper.step(made - steps, &mut small, &mut buffer);
            steps += answer.made;
            events.extend(&buffer[..answer.length]);
            if answer.number == 15 {
                let size = stores::size(&small);
                let longer = small.len() + rng.within(1, 300);
                let mut longer = filled(rng, longer);
                longer[..size].copy_from_slice(&small[..size]);
                small = longer;
                grown += 1;
            }
        }
        let size = stores::size(&store);
        assert!(events == shown && small[..size] == store[..size]);
    });
    assert!(grown > 1_000, "{grown}");
}

/// "It takes exactly 64 bytes, and 16 for each cell and for each entry of the environment or a cell": of
/// every state of some runs; and its bytes and the state are each other's inverse.
#[test]
fn every_state_is_its_bytes() {
    let mut states = 0;
    each(33, 600, |_, stepper, mut store| {
        let program = stepper.program().unwrap();
        for _ in 0..STEPS {
            let state = store::state(program, &store).expect("a state");
            let bytes = store::bytes(&state);
            assert_eq!(bytes.len(), state.size());
            assert_eq!(bytes.len(), stores::size(&store));
            assert!(bytes == store[..bytes.len()]);
            assert_eq!(store::state(program, &bytes), Some(state));
            assert_eq!(store::state(program, &bytes[..bytes.len() - 1]), None);
            states += 1;
            if stepper.step(1, &mut store, &mut vec![0; PLENTY]).made == 0 {
                break;
            }
        }
    });
    assert!(states > 10_000, "{states}");
}
