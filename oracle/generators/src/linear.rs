//! Images for the linear machine, all with a yes to questions 1 to 5: what the pass gives, the source
//! itself, and both changed here and there as a hand might do it, so that runs stop or get stuck on the
//! way; tiny programs of no sense; and lists longer than any count.

mod changed;
mod long;
mod tiny;

use crate::rng::Rng;
use crate::{build, typed, wild};
use reference::oracle::Oracle;
use reference::syntax::Prog;

pub use long::{LONGEST, long};
pub use tiny::tiny;

/// An image that reads.
pub fn image(rng: &mut Rng) -> Vec<u8> {
    if rng.chance(4) {
        return build::image(&tiny(rng));
    }
    if rng.below(48) == 0 {
        let values = rng.within(1, LONGEST as usize) as u32;
        return build::image(&long(values));
    }
    let source = if rng.chance(12) {
        typed::program(rng)
    } else {
        wild::program(rng)
    };
    let prog = if rng.chance(1) {
        source
    } else {
        linearized(source)
    };
    if rng.chance(6) {
        build::image(&prog)
    } else {
        changed::image(rng, &prog)
    }
}

/// What the pass gives, where it accepts.
pub fn linearized(prog: Prog) -> Prog {
    let oracle = Oracle::new(&build::image(&prog));
    match (oracle.needed(), oracle.linearized()) {
        (Ok(_), Ok(linear)) => linear.clone(),
        _ => prog,
    }
}
