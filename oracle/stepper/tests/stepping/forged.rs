//! Stores that no stepper left: question 14 read once more, field by field.

use crate::{PLENTY, filled, image, started};
use generators::{Rng, stores};
use reference::image::{Frame, Record};
use stepper::{Answer, Machine, Stepper, store};

/// Question 14 of a store, by the sentences of docs/FORMAT.md one after the other.
fn passes(kinds: &[u8], store: &[u8]) -> bool {
    let number = |at: usize, bytes: usize| -> u64 {
        let all = store[at..at + bytes].iter().rev();
        all.fold(0, |number, &byte| number << 8 | u64::from(byte))
    };
    if store.len() < 64 {
        return false;
    }
    let spare = (6..8).chain(32..64).all(|at| store[at] == 0);
    let flags = store[4] <= 1 && store[5] <= 1;
    let position = kinds.get(number(0, 4) as usize);
    let statement = position.is_some_and(|kind| ![1, 11].contains(kind));
    let (cells, slots, entries) = (number(8, 8), number(16, 8), number(24, 8));
    let bytes = 64 + 16 * (u128::from(slots) + u128::from(entries));
    if !(spare && flags && statement && bytes <= store.len() as u128) {
        return false;
    }
    let slots = slots as usize;
    let sort = |place: usize| store[64 + 16 * place];
    let word = |place: usize| number(68 + 16 * place, 4);
    let long = |place: usize| number(72 + 16 * place, 8);
    let own: Vec<usize> = (0..slots)
        .filter(|&place| [3, 4].contains(&sort(place)))
        .collect();
    let mut of_a_let = false;
    let mut numbered = 0;
    for place in 0..slots + entries as usize {
        let in_cells = place < slots;
        let right = store[65 + 16 * place..68 + 16 * place] == [0; 3]
            && (in_cells || sort(place) < 3)
            && match sort(place) {
                0 => true,
                1 => own.iter().any(|&cell| cell as u64 == long(place)),
                2 => long(place) < 256,
                3 => word(place) < 65_536 && long(place) == numbered,
                4 => kinds.get(word(place) as usize) == Some(&6) && long(place) == numbered,
                _ => false,
            };
        if in_cells && sort(place) > 2 {
            of_a_let = sort(place) == 3;
            numbered += 1;
        } else if in_cells && of_a_let && word(place) != 0 {
            return false;
        }
        if !right {
            return false;
        }
    }
    cells == own.len() as u64
        && own.first().is_none_or(|&first| first == 0)
        && (slots == 0 || !own.is_empty())
}

/// Stores on the way of runs, each with its stepper and the kinds of its image's records.
fn each(seed: u64, count: u64, mut compare: impl FnMut(&mut Rng, &Stepper, &[u8], &[u8])) {
    for index in 0..count {
        let mut rng = Rng::of_case(seed, index);
        let machine = [Machine::Source, Machine::Linear][index as usize % 2];
        let image = image(&mut rng, machine);
        let stepper = Stepper::new(machine, &image);
        let Some(mut store) = started(&mut rng, &image, &stepper, PLENTY) else {
            continue;
        };
        let records = Frame::read(&image).unwrap().records;
        let kinds: Vec<u8> = records.iter().map(Record::kind).collect();
        for _ in 0..3 {
            let size = stores::size(&store);
            let behind = 16 * rng.below(3) + rng.below(16);
            compare(&mut rng, &stepper, &kinds, &store[..size + behind]);
            let steps = rng.within(1, 20) as u64;
            stepper.step(steps, &mut store, &mut vec![0; PLENTY]);
        }
    }
}

/// The answer to a damaged store is 14, and nothing changes; or it is the store of a state, whose steps
/// lead to states.
fn answered(stepper: &Stepper, kinds: &[u8], damaged: &[u8]) -> bool {
    let program = stepper.program().unwrap();
    let state = store::state(program, damaged);
    assert_eq!(state.is_some(), passes(kinds, damaged), "{damaged:?}");
    let mut store = damaged.to_vec();
    let mut events = [0xA5; 256];
    let none = stepper.step(0, &mut store, &mut events);
    assert!(store == damaged && events == [0xA5; 256]);
    assert_eq!((none.made, none.length), (0, 0));
    let Some(state) = state else {
        assert_eq!(none.number, 14);
        let answer = stepper.step(9, &mut store, &mut events);
        let refused = Answer {
            number: 14,
            made: 0,
            length: 0,
        };
        assert_eq!(answer, refused);
        assert!(store == damaged && events == [0xA5; 256]);
        return false;
    };
    assert_eq!(none.number, 0);
    assert!(store::bytes(&state) == damaged[..state.size()]);
    stepper.step(9, &mut store, &mut events);
    let after = store::state(program, &store).expect("a state after a state");
    assert!(store::bytes(&after) == store[..after.size()]);
    assert!(passes(kinds, &store));
    // where a flag is set no step is made
    if state.ended || state.stopped {
        assert!(store == damaged);
    }
    true
}

/// Each field of the header and of each slot, with all values that come to mind.
#[test]
fn each_field_damaged() {
    let mut answers = [0; 2];
    each(51, 60, |_, stepper, kinds, store| {
        // the first fields and the last ones of long stores
        let fields = stores::fields(store);
        let last = fields.len().saturating_sub(60);
        let tried = fields.iter().enumerate();
        for (_, &field) in tried.filter(|&(place, _)| place < 60 || place >= last) {
            for number in stores::others(store, field) {
                let mut damaged = store.to_vec();
                field.write(&mut damaged, number);
                answers[usize::from(answered(stepper, kinds, &damaged))] += 1;
            }
        }
    });
    println!("{answers:?}");
    assert!(answers.iter().all(|&count| count > 10_000), "{answers:?}");
}

#[test]
fn one_field_damaged_in_many_stores() {
    let mut answers = [0; 2];
    each(52, 1_500, |rng, stepper, kinds, store| {
        for _ in 0..10 {
            let mut damaged = store.to_vec();
            stores::damage(rng, &mut damaged);
            if rng.chance(2) && passes(kinds, &damaged) {
                stores::damage(rng, &mut damaged);
            }
            answers[usize::from(answered(stepper, kinds, &damaged))] += 1;
        }
    });
    println!("{answers:?}");
    assert!(answers.iter().all(|&count| count > 5_000), "{answers:?}");
}

/// Counts, cells and references moved about, and stores cut short.
#[test]
fn other_stores() {
    let mut answers = [0; 2];
    each(53, 1_500, |rng, stepper, kinds, store| {
        let mut other = store.to_vec();
        let size = stores::size(store);
        let slots = (size - 64) / 16;
        match rng.below(4) {
            0 => other.truncate(rng.below(size + 1)),
            1 if slots > 1 => {
                // two slots exchanged
                let (one, two) = (rng.below(slots), rng.below(slots));
                for byte in 64..80 {
                    other.swap(16 * one + byte, 16 * two + byte);
                }
            }
            2 => {
                // slots of cells that become entries, and the other way round
                let cells = rng.below(slots + 1) as u64;
                other[16..24].copy_from_slice(&cells.to_le_bytes());
                other[24..32].copy_from_slice(&(slots as u64 - cells).to_le_bytes());
                let own = |place: &u64| [3, 4].contains(&store[64 + 16 * *place as usize]);
                let own = (0..cells).filter(own).count() as u64;
                other[8..16].copy_from_slice(&own.to_le_bytes());
            }
            _ => {
                let length = rng.below(300);
                other = filled(rng, length);
            }
        }
        answers[usize::from(answered(stepper, kinds, &other))] += 1;
    });
    println!("{answers:?}");
    assert!(answers.iter().all(|&count| count > 100), "{answers:?}");
}
