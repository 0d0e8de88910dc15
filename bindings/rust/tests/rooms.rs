//! Starts and stores that are refused, and buffers that are too small.

mod files;
mod runs;

use axcut::{values, Given, Machine, Refusal, Run, Stepped, SLOT, STORE_HEADER};
use files::file;
use runs::{image, starts, whole, ROOM, STEPS};

#[test]
fn starts_that_are_refused() {
    let image = file("handset", "program.axc");
    let given = [800, 811, 20].map(Given::Integer);
    let right = values(&given);
    let start = |machine: Machine, definition: usize, values: &[u8], room: usize| {
        let mut store = vec![7; room];
        let begun = machine.start(&image, definition, values, &mut store);
        assert!(begun.is_ok() || store.iter().all(|&byte| byte == 7));
        assert!(begun.is_err() || store[STORE_HEADER + right.len()..].iter().all(|&b| b == 7));
        begun
    };
    let enough = STORE_HEADER + right.len();
    for machine in [Machine::Source, Machine::Linear] {
        assert_eq!(start(machine, 0, &right, enough + 5), Ok(()));
        assert_eq!(start(machine, 0, &right, enough), Ok(()));
        for room in [0, 63, 64, enough - 1] {
            assert_eq!(start(machine, 0, &right, room), Err(Refusal::Space));
        }
        // the second definition has two parameters, and there is no third
        assert_eq!(start(machine, 1, &right, ROOM), Err(Refusal::State));
        assert_eq!(start(machine, 1, &right[SLOT..], ROOM), Ok(()));
        assert_eq!(start(machine, 2, &[], ROOM), Err(Refusal::State));
        let missing = start(machine, usize::MAX, &right, ROOM);
        assert_eq!(missing, Err(Refusal::State));
        // one byte short, a cell, a spare byte, an ID, an outside number above 255
        let cut = start(machine, 0, &right[1..], ROOM);
        assert_eq!(cut, Err(Refusal::State));
        for (place, byte) in [(0, 1), (1, 1), (4, 1)] {
            let mut wrong = right.clone();
            wrong[place] = byte;
            assert_eq!(start(machine, 0, &wrong, ROOM), Err(Refusal::State));
        }
        let mut outside = values(&[Given::Outside(255), given[1], given[2]]);
        assert_eq!(start(machine, 0, &outside, ROOM), Ok(()));
        outside[9] = 1;
        assert_eq!(start(machine, 0, &outside, ROOM), Err(Refusal::State));
    }
}

#[test]
fn images_are_asked_first() {
    let linear = file("axle", "linear.axc");
    let (mut store, mut shown) = ([7; 8], [7; 8]);
    let start = Machine::Source.start(&linear, 9, &[], &mut store);
    assert_eq!(start, Err(Refusal::Linearized));
    let step = Machine::Source.step(&linear, 1, &mut store, &mut shown);
    assert_eq!(step, Err(Refusal::Linearized));
    let step = Machine::Linear.step(&linear[1..], 1, &mut store, &mut shown);
    assert_eq!(step, Err(Refusal::LayoutNumber));
    let step = Machine::Linear.step(&linear, 1, &mut store, &mut shown);
    assert_eq!(step, Err(Refusal::State));
    assert_eq!((store, shown), ([7; 8], [7; 8]));
}

/// Each byte of a store changed: refused with 14 and left as it was, or taken for a state.
#[test]
fn damaged_stores_are_answered() {
    let (example, given) = starts().remove(4);
    for machine in [Machine::Source, Machine::Linear] {
        let image = image(example, machine);
        let mut run = Run::start(machine, &image, 0, &given).unwrap();
        run.step(12);
        let mut refused = 0;
        for place in 0..run.state().len() {
            let mut store = run.state().to_vec();
            store[place] ^= 0x55;
            let damaged = store.clone();
            let mut shown = [7; 256];
            let answer = machine.step(&image, 3, &mut store, &mut shown);
            match answer {
                Ok(stepped) => assert!(stepped.made <= 3),
                Err(refusal) => {
                    assert_eq!((refusal, &store), (Refusal::State, &damaged));
                    assert_eq!(shown, [7; 256]);
                    refused += 1;
                }
            }
        }
        assert!(refused > STORE_HEADER / 2);
        let short = machine.step(&image, 3, &mut [0; 63], &mut []);
        assert_eq!(short, Err(Refusal::State));
    }
}

/// A run whose store grows by a byte at each 15: the steps, the events and the store.
fn growing(machine: Machine, image: &[u8], given: &[Given]) -> (u64, Vec<u8>, Vec<u8>) {
    let mut store = vec![0; STORE_HEADER + SLOT * given.len()];
    let begun = machine.start(image, 0, &values(given), &mut store);
    assert_eq!(begun, Ok(()));
    let (mut sum, mut all) = (0, Vec::new());
    loop {
        let before = store.clone();
        let mut shown = vec![0; ROOM];
        let stepped = machine.step(image, STEPS, &mut store, &mut shown).unwrap();
        sum += stepped.made;
        all.extend(&shown[..stepped.length]);
        if !stepped.full {
            return (sum, all, store);
        }
        assert!(stepped.made > 0 || store == before);
        store.resize(store.len() + 1, 7);
    }
}

#[test]
fn a_larger_store() {
    for machine in [Machine::Source, Machine::Linear] {
        for (example, given) in starts() {
            let image = image(example, machine);
            let (made, shown, left) = whole(machine, example, &given);
            let (sum, all, store) = growing(machine, &image, &given);
            assert_eq!((sum, all), (made, shown), "{example} {machine:?}");
            assert_eq!(store[..left.len()], left);
            // the worked case makes one entry, and others need more room than at the start too
            assert!(store.len() > STORE_HEADER + SLOT * given.len());
        }
    }
}

/// An event buffer with room for one event after the other; bytes past the length stay.
#[test]
fn a_small_event_buffer() {
    let image = file("handset", "program.axc");
    let given = [800, 760, 20].map(Given::Integer);
    let (_, shown, _) = whole(Machine::Source, "handset", &given);
    let mut store = vec![0; ROOM];
    let values = values(&given);
    Machine::Source
        .start(&image, 0, &values, &mut store)
        .unwrap();
    let mut step = |steps: u64, room: usize| {
        let mut buffer = vec![7; room];
        let stepped = Machine::Source.step(&image, steps, &mut store, &mut buffer);
        let stepped = stepped.unwrap();
        assert!(buffer[stepped.length..].iter().all(|&byte| byte == 7));
        (stepped, buffer)
    };
    let full = |made: u64, length: usize| Stepped {
        made,
        length,
        full: true,
    };
    assert_eq!(step(STEPS, 15).0, full(0, 0));
    assert_eq!(step(STEPS, 0).0, full(0, 0));
    let (stepped, buffer) = step(STEPS, 40);
    assert_eq!((stepped, &buffer[..32]), (full(2, 32), &shown[..32]));
    // as many steps as asked for, or none: no room is missing
    assert!(!step(1, 16).0.full);
    assert!(!step(0, 0).0.full);
    let (stepped, buffer) = step(STEPS, ROOM);
    assert_eq!(buffer[..stepped.length], shown[48..]);
    // the run has ended: nothing more, whatever the room
    let over = Stepped {
        made: 0,
        length: 0,
        full: false,
    };
    assert_eq!(step(STEPS, 0).0, over);
}
