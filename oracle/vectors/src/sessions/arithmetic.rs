//! The operators and the comparisons at the ends of the integers.

use super::MACHINES;
use crate::Session;
use generators::build::{def, exit, exts, image, op, prog, var};
use generators::stores::{self, HEADER, SLOT};
use reference::machines::Given::Int;
use reference::syntax::{BinOp, IfSort, Statement};
use stepper::Machine;

const OPERATORS: [BinOp; 5] = [BinOp::Div, BinOp::Prod, BinOp::Rem, BinOp::Sum, BinOp::Sub];
const COMPARISONS: [IfSort; 6] = [
    IfSort::Equal,
    IfSort::NotEqual,
    IfSort::Less,
    IfSort::LessOrEqual,
    IfSort::Greater,
    IfSort::GreaterOrEqual,
];
const MIN: i64 = i64::MIN;
const MAX: i64 = i64::MAX;
/// Each of these with each.
const ENDS: [i64; 5] = [MIN, -1, 0, 1, MAX];
/// Signs, halves, and products that just fit and just do not.
const OTHERS: [(i64, i64); 16] = [
    (7, 2),
    (-7, 2),
    (7, -2),
    (-7, -2),
    (MIN, 2),
    (MIN, -2),
    (MIN + 1, -1),
    (MAX, 2),
    (MAX, MAX - 1),
    (MIN, MIN + 1),
    (1 << 32, 1 << 31),
    (1 << 32, -1 << 31),
    (3_037_000_499, 3_037_000_499),
    (3_037_000_500, 3_037_000_500),
    (-1 << 62, 2),
    (1 << 62, 2),
];

pub fn sessions() -> Vec<Session> {
    let ends = || ENDS.map(|fst| ENDS.map(|snd| (fst, snd)));
    let pairs = ends().as_flattened().to_vec();
    let operators = OPERATORS.map(|kind| op(1, kind, 2, 3, exit(3)));
    let both = COMPARISONS.map(|sort| ifc(sort, Some(2)));
    let with_zero = COMPARISONS.map(|sort| ifc(sort, None));
    let mut all = Vec::new();
    for machine in MACHINES {
        all.push(of_bodies(
            machine,
            &operators,
            &[&pairs, &OTHERS[..]].concat(),
        ));
        all.push(of_bodies(machine, &both, &pairs));
        all.push(of_bodies(machine, &with_zero, &ENDS.map(|fst| (fst, 1))));
    }
    all
}

fn ifc(sort: IfSort, snd: Option<u32>) -> Statement {
    Statement::IfC {
        sort,
        fst: var(1),
        snd: snd.map(var),
        thenc: Box::new(exit(1)),
        elsec: Box::new(exit(2)),
    }
}

/// A definition for each body, with the parameters 1 and 2; each makes a step from each pair.
fn of_bodies(machine: Machine, bodies: &[Statement], pairs: &[(i64, i64)]) -> Session {
    let defs = (0..).zip(bodies);
    let defs = defs.map(|(name, body)| def(name, exts(1, 2), body.clone()));
    let mut session = Session::new(machine, image(&prog(3, defs.collect())));
    for definition in 0..bodies.len() {
        let values = stores::values(&[Int(0), Int(0)]);
        let begun = session.start(definition, &values, HEADER + values.len());
        let mut store = begun.after.clone();
        for &(fst, snd) in pairs {
            store[HEADER + 8..HEADER + SLOT].copy_from_slice(&fst.to_le_bytes());
            store[HEADER + SLOT + 8..].copy_from_slice(&snd.to_le_bytes());
            session.step(&store, store.len() + SLOT, 1, SLOT);
        }
    }
    session
}
