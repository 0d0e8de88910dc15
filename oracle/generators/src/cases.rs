//! Cases by number: the same seed and index give the same image and the same calls. First come the
//! boundaries, all small images and programs and all changes of one byte, then generated ones.

use crate::boundaries::{self, Call};
use crate::changes::Changes;
use crate::rng::Rng;
use crate::{build, damage, large, linear, small, typed, wild};
use reference::image::order;
use reference::oracle::Oracle;

pub struct Cases {
    seed: u64,
    fixed: Vec<Fixed>,
    changes: Option<Changes>,
}

struct Fixed {
    image: Vec<u8>,
    call: Option<Call>,
}

impl Cases {
    pub fn new(seed: u64) -> Cases {
        let boundaries = boundaries::all().into_iter().map(|boundary| Fixed {
            image: boundary.image,
            call: Some(boundary.call),
        });
        let all = |image| Fixed { image, call: None };
        let small = small::images().into_iter().chain(small::program_images());
        Cases {
            seed,
            fixed: boundaries.chain(small.map(all)).collect(),
            changes: Some(Changes::new()),
        }
    }

    /// That image first, and then generated cases.
    pub fn of_image(seed: u64, image: Vec<u8>) -> Cases {
        Cases {
            seed,
            fixed: vec![Fixed { image, call: None }],
            changes: None,
        }
    }

    /// How many cases come before the generated ones.
    pub fn fixed(&self) -> usize {
        self.fixed.len() + self.changes.as_ref().map_or(0, Changes::count)
    }

    pub fn image(&self, index: u64) -> Vec<u8> {
        let place = index as usize;
        if let Some(fixed) = self.fixed.get(place) {
            return fixed.image.clone();
        }
        let changed = self
            .changes
            .as_ref()
            .and_then(|changes| changes.image(place - self.fixed.len()));
        changed.unwrap_or_else(|| generated(&mut Rng::of_case(self.seed, index)))
    }

    /// The calls to make on the image of that case.
    pub fn calls(&self, index: u64, oracle: &Oracle) -> Vec<Call> {
        let mut rng = Rng::of_case(!self.seed, index);
        let mut calls = calls(&mut rng, oracle);
        calls.extend(self.fixed.get(index as usize).and_then(|fixed| fixed.call));
        calls
    }

    /// Numbers for other choices about that case.
    pub fn rng(&self, index: u64) -> Rng {
        Rng::of_case(self.seed ^ 0x5DEE_CE66, index)
    }
}

fn generated(rng: &mut Rng) -> Vec<u8> {
    if rng.below(1_024) == 0 {
        return build::image(&large::near_the_largest(rng));
    }
    let mut prog = if rng.chance(8) {
        typed::program(rng)
    } else {
        wild::program(rng)
    };
    if rng.chance(2) {
        // so that Substitutes and environments are read too
        prog = linear::linearized(prog);
    }
    if rng.chance(8) {
        build::image(&prog)
    } else {
        damage::image(rng, &prog)
    }
}

/// Reading, the scope check, and linearization and annotation with room enough and with other rooms.
fn calls(rng: &mut Rng, oracle: &Oracle) -> Vec<Call> {
    let mut calls = vec![Call::Read, Call::Check];
    let needed = oracle.needed().unwrap_or(rng.clone().below(200));
    calls.push(Call::Linearize { room: needed });
    calls.push(Call::Linearize {
        room: around(rng, needed),
    });
    let records = match oracle.program() {
        Ok(prog) => order::records(prog).len(),
        Err(_) => 0,
    };
    for _ in 0..3 {
        let record = record(rng, oracle, records);
        let needed = oracle.annotation_needed(record).unwrap_or(4);
        let room = around(rng, needed);
        calls.push(Call::Annotate { record, room });
    }
    calls
}

/// A record, mostly one with an annotation where there is one.
fn record(rng: &mut Rng, oracle: &Oracle, records: usize) -> usize {
    match rng.below(16) {
        0 => records,
        1 => rng.number() as usize,
        2..6 => rng.below(records + 1),
        _ => {
            let first = rng.below(records + 1);
            let annotated = |&record: &usize| oracle.annotation_needed(record).is_ok();
            (first..records).find(annotated).unwrap_or(first)
        }
    }
}

/// A room that is right, too small or larger, mostly by little.
fn around(rng: &mut Rng, needed: usize) -> usize {
    match rng.below(8) {
        0 => 0,
        1 => rng.below(needed + 1),
        2 => needed.saturating_sub(1),
        3 => needed + 1,
        4 => needed + rng.below(300),
        _ => needed,
    }
}
