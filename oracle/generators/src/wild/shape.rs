//! The shape of a program.

use crate::rng::Rng;
use crate::statements::Statements;
use reference::image::LARGEST_ID;
use reference::questions::Limits;

/// The knobs of one program.
#[derive(Debug, Clone)]
pub struct Shape {
    pub records: usize,
    pub definitions: usize,
    pub depth: usize,
    pub scope: usize,
    pub count: usize,
    /// IDs are taken from here upward; beyond these many none is free in a deep scope.
    pub first_id: u32,
    pub ids: u32,
    pub names: usize,
    /// How often of 16 a statement takes its variables from the whole scope.
    pub stray: usize,
    /// How often of 16 a use has another spelling, type or chirality than its binder.
    pub respell: usize,
    /// How often of 16 a statement ends its branch although there is room for more.
    pub leaf: usize,
    /// How often each kind is taken: Let, Switch, Create, Literal, Op, IfC.
    pub kinds: [usize; 6],
    /// How often of 16 a PrintI64 comes before another statement, and an Exit ends a branch.
    pub prints: usize,
    pub exits: usize,
}

impl Shape {
    pub fn any(rng: &mut Rng, statements: Statements) -> Shape {
        if rng.below(64) == 0 {
            return Shape::large(rng, statements);
        }
        let records = match rng.below(64) {
            0..8 => rng.within(40, 200),
            8..32 => rng.within(8, 40),
            _ => rng.within(2, 12),
        };
        let count = *rng.pick(&[1, 2, 3, 4, 6, Limits::COUNT]);
        let scope = *rng.pick(&[3, 6, 10, 20, 40, Limits::SCOPE]);
        let ids = *rng.pick(&[scope as u32, scope as u32 + 2, 2 * scope as u32, 5_000]);
        Shape {
            records,
            definitions: *rng.pick(&[1, 1, 1, 2, 3, records / 2]),
            depth: *rng.pick(&[3, 6, 12, Limits::DEPTH]),
            scope,
            count,
            first_id: *rng.pick(&[0, 0, 0, 1, 1, 250, LARGEST_ID - 5_100]),
            ids,
            names: *rng.pick(&[1, 2, 20, 65_536]),
            stray: *rng.pick(&[0, 1, 2, 4, 8, 16]),
            respell: *rng.pick(&[0, 0, 1, 2, 6]),
            leaf: *rng.pick(&[0, 0, 1, 3, 6]),
            kinds: std::array::from_fn(|_| *rng.pick(&[0, 1, 1, 3])),
            prints: statements.output(|| *rng.pick(&[0, 2, 4, 8])),
            exits: statements.output(|| *rng.pick(&[0, 2, 5, 10])),
        }
    }

    /// A shape that comes near the limits of question 7.
    fn large(rng: &mut Rng, statements: Statements) -> Shape {
        let records = rng.within(100, Limits::RECORDS);
        Shape {
            records,
            definitions: *rng.pick(&[1, 2, 8, records / 2]),
            depth: Limits::DEPTH,
            scope: Limits::SCOPE,
            count: *rng.pick(&[2, 8, Limits::COUNT, Limits::COUNT]),
            first_id: 0,
            ids: *rng.pick(&[64, 70, 5_000]),
            names: 20,
            stray: *rng.pick(&[1, 2, 8]),
            respell: *rng.pick(&[0, 1]),
            leaf: 0,
            kinds: std::array::from_fn(|_| *rng.pick(&[1, 1, 3])),
            prints: statements.output(|| *rng.pick(&[0, 1, 3])),
            exits: statements.output(|| *rng.pick(&[0, 2, 6])),
        }
    }
}
