//! Images for the steppers: mostly such as a run gets far on.

use generators::changes::Changes;
use generators::{Rng, boundaries, build, damage, large, linear, typed, wild};
use stepper::Machine;

/// What is made once for all sessions.
pub struct Images {
    /// The image of all sessions, if there is one.
    only: Option<Vec<u8>>,
    boundaries: Vec<Vec<u8>>,
    changes: Changes,
}

impl Images {
    pub fn new(only: Option<Vec<u8>>) -> Images {
        Images {
            only,
            boundaries: boundaries::all()
                .into_iter()
                .map(|boundary| boundary.image)
                .collect(),
            changes: Changes::new(),
        }
    }

    /// A machine and an image for it; now and then one that is refused.
    pub fn pick(&self, rng: &mut Rng) -> (Machine, Vec<u8>) {
        let machine = *rng.pick(&[Machine::Source, Machine::Linear]);
        if let Some(image) = &self.only {
            return (machine, image.clone());
        }
        let image = match rng.below(64) {
            0 => rng.pick(&self.boundaries).clone(),
            1 | 2 => {
                let number = rng.below(self.changes.count());
                self.changes.image(number).expect("below their count")
            }
            3 | 4 => {
                let prog = typed::program(rng);
                damage::image(rng, &prog)
            }
            5 => linear::image(rng),
            6 if rng.chance(4) => build::image(&large::near_the_largest(rng)),
            7..20 if machine == Machine::Source => build::image(&wild::program(rng)),
            _ if machine == Machine::Source => build::image(&typed::program(rng)),
            _ => linear::image(rng),
        };
        (machine, image)
    }
}
