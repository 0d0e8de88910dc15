//! Programs whose outputs have about 65,535 bytes, on both sides of question 12.

use crate::build::{call, def, exit, exts, literal, print_i64, prog};
use crate::rng::Rng;
use reference::syntax::{Def, Prog, Statement};

/// Many definitions that pass their parameters on, mostly in another order.
pub fn near_the_largest(rng: &mut Rng) -> Prog {
    let mut defs: Vec<Def> = (0..rng.within(84, 88)).map(|_| passes_on(rng)).collect();
    for _ in 0..rng.below(40) {
        defs.push(def(0, Vec::new(), literal(1, 1, last(rng))));
    }
    rng.shuffle(&mut defs);
    prog(40, defs)
}

/// What comes behind a Literal.
fn last(rng: &mut Rng) -> Statement {
    match rng.below(4) {
        0 => exit(1),
        1 => print_i64(rng.chance(8), 1, exit(1)),
        _ => call(exts(1, rng.below(2) as u32)),
    }
}

fn passes_on(rng: &mut Rng) -> Def {
    let params = 32 - rng.below(2) as u32;
    let mut args = exts(1, params);
    if rng.chance(15) {
        rng.shuffle(&mut args);
    }
    def(0, exts(1, params), call(args))
}
