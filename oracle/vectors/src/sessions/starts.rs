//! Starts of every kind.

use super::MACHINES;
use crate::Session;
use generators::build::{cns, def, exit, ext, exts, image, literal, one, prog};
use generators::stores::{self, HEADER, SLOT};
use reference::machines::Given::{Int, Outside};
use reference::syntax::Prog;
use stepper::Machine;

/// Numbers that are no outside numbers, and those that just are.
const OUTSIDE: [u64; 11] = [
    0,
    1,
    254,
    255,
    256,
    257,
    65_535,
    65_536,
    1 << 32,
    1 << 63,
    u64::MAX,
];

pub fn sessions() -> Vec<Session> {
    let mut all: Vec<Session> = MACHINES.into_iter().map(of_three).collect();
    all.extend(MACHINES.into_iter().flat_map(of_repeated));
    all
}

/// The starts of a program of three definitions, the first of which takes an integer and a consumer.
fn of_three(machine: Machine) -> Session {
    let three = prog(
        2,
        vec![
            def(0, vec![ext(1), cns(2)], exit(2)),
            def(1, Vec::new(), literal(-1, 1, exit(1))),
            def(2, vec![ext(2)], exit(2)),
        ],
    );
    let mut session = Session::new(machine, image(&three));
    rooms(&mut session);
    missing(&mut session);
    counts(&mut session);
    fields(&mut session);
    numbers(&mut session);
    session
}

/// The values of a right start of the first definition.
fn right() -> Vec<u8> {
    stores::values(&[Int(5), Outside(9)])
}

/// Stores of every length around what is needed.
fn rooms(session: &mut Session) {
    for room in [0, 1, 15, 16, 63, 64, 65, 79, 80, 95, 96, 97, 112, 300] {
        session.start(0, &right(), room);
    }
    for room in [0, 1, 63, 64, 65, 80] {
        session.start(1, &[], room);
    }
}

/// Definitions that are not there; no place is cut to fewer bits. This comes before a store without
/// room.
fn missing(session: &mut Session) {
    let places = [3, 4, 255, 256, 65_535, 65_536, 1 << 32, 1 << 63, usize::MAX];
    for place in places {
        session.start(place, &right(), 200);
        session.start(place, &[], 0);
    }
}

/// Values of other lengths than the parameters have.
fn counts(session: &mut Session) {
    for length in [0, 1, 15, 16, 17, 24, 31, 33, 40, 47, 48, 64] {
        let mut values = right();
        values.resize(length, 0);
        session.start(0, &values, 200);
        session.start(0, &values, 63);
    }
    for length in [1, 8, 15, 16, 32] {
        session.start(1, &vec![0; length], 200);
    }
    for length in [0, 8, 16, 32] {
        session.start(2, &vec![0; length], 200);
    }
}

/// Each byte of each value changed: the sort, the spare bytes, the ID and the number.
fn fields(session: &mut Session) {
    for place in 0..2 * SLOT {
        for byte in [1, 0x80] {
            let mut values = right();
            values[place] = byte;
            session.start(0, &values, 100);
        }
    }
    for sort in [2, 3, 4, 5, 255] {
        for slot in [0, SLOT] {
            let mut values = right();
            values[slot] = sort;
            session.start(0, &values, 100);
        }
    }
}

/// Integers and outside numbers at their ends, in either place.
fn numbers(session: &mut Session) {
    for number in OUTSIDE {
        for sort in [0, 2] {
            for slot in [0, SLOT] {
                let mut values = right();
                values[slot] = sort;
                values[slot + 8..slot + SLOT].copy_from_slice(&number.to_le_bytes());
                session.start(0, &values, HEADER + values.len());
            }
        }
    }
}

/// Programs whose starts have stopped on the linear machine: parameters that repeat an ID, or a body that
/// uses one that is not there. Most are refused by the source machine.
fn of_repeated(machine: Machine) -> Vec<Session> {
    let doubled = |ids: &[u32]| ids.iter().map(|&id| ext(id)).collect();
    let programs: [Prog; 6] = [
        one(1, doubled(&[1, 1]), exit(1)),
        one(2, doubled(&[1, 2, 1]), exit(2)),
        one(2, doubled(&[2, 2, 2]), literal(0, 1, exit(1))),
        one(2, exts(1, 2), exit(3)),
        one(2, exts(1, 2), literal(0, 2, exit(1))),
        one(2, exts(1, 2), literal(0, 3, exit(1))),
    ];
    programs
        .iter()
        .map(|prog| stopped(machine, prog, prog.defs[0].params.len()))
        .collect()
}

fn stopped(machine: Machine, prog: &Prog, params: usize) -> Session {
    let mut session = Session::new(machine, image(prog));
    let values = stores::values(&vec![Int(3); params]);
    let needed = HEADER + values.len();
    for room in [needed - 1, needed, needed + 40] {
        session.start(0, &values, room);
    }
    let left = session.start(0, &values, needed).after.clone();
    for (steps, events) in [(0, 0), (1, 0), (1, 16), (u64::MAX, 100)] {
        session.step(&left, needed + 16, steps, events);
    }
    session
}
