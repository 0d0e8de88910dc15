//! Starts for the machines.

use crate::rng::Rng;
use crate::typed::integer;
use reference::machines::Given;
use reference::syntax::{Chirality, Def, Prog};

/// A start of some definition, mostly with an integer where its parameter is one and an outside
/// number elsewhere; now and then of no definition, or with another number of values.
pub fn start(rng: &mut Rng, prog: &Prog) -> (usize, Vec<Given>) {
    let place = rng.below(prog.defs.len() + 1) * usize::from(rng.chance(8));
    let mut given = match prog.defs.get(place) {
        Some(def) => values(rng, def),
        None => Vec::new(),
    };
    if rng.below(64) == 0 {
        given.push(Given::Int(0));
    }
    (place, given)
}

fn values(rng: &mut Rng, def: &Def) -> Vec<Given> {
    def.params
        .iter()
        .map(|param| {
            if (param.chi == Chirality::Ext) != (rng.below(64) == 0) {
                Given::Int(integer(rng))
            } else {
                Given::Outside(rng.below(256) as u8)
            }
        })
        .collect()
}
