//! What the sample holds: every boundary, some small images and programs and changes of one byte, and
//! generated images.

use crate::Vector;
use generators::boundaries::{self, Boundary};
use generators::cases::Cases;
use reference::oracle::Oracle;

/// The sample is made from this seed.
const SEED: u64 = 2026;
/// Of the small images and programs and the changes of one byte one in so many is taken.
const STRIDE: usize = 557;
/// So many generated images, none larger than this.
const GENERATED: usize = 1_150;
const LARGEST: usize = 700;

/// A replaying program lends no larger buffer than this, which is also the largest image.
pub const LARGEST_ROOM: usize = 65_536;

pub fn sample() -> Vec<Vector> {
    let cases = Cases::new(SEED);
    let boundaries = boundaries::all();
    let small = (boundaries.len()..cases.fixed()).step_by(STRIDE);
    let generated = cases.fixed()..;
    let mut vectors = together(boundaries);
    vectors.extend(small.map(|index| of_case(&cases, index)));
    vectors.extend(
        generated
            .map(|index| of_case(&cases, index))
            .filter(|vector| vector.image.len() <= LARGEST)
            .take(GENERATED),
    );
    vectors
}

/// The boundaries, neighbours with the same image together.
fn together(boundaries: Vec<Boundary>) -> Vec<Vector> {
    let mut vectors: Vec<Vector> = Vec::new();
    let replayable = |boundary: &Boundary| boundary.call.room() <= LARGEST_ROOM;
    for boundary in boundaries.into_iter().filter(replayable) {
        match vectors.last_mut() {
            Some(last) if last.image == boundary.image => last.calls.push(boundary.call),
            _ => vectors.push(Vector {
                image: boundary.image,
                calls: vec![boundary.call],
            }),
        }
    }
    vectors
}

fn of_case(cases: &Cases, index: usize) -> Vector {
    let index = index as u64;
    let image = cases.image(index);
    let calls = cases.calls(index, &Oracle::new(&image));
    Vector { image, calls }
}
