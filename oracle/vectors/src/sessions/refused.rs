//! Refused images: every number of the source machine's 1 to 10 and of the linear machine's 1 to 5.

use super::MACHINES;
use crate::Session;
use generators::boundaries;
use reference::oracle::Oracle;
use stepper::Machine;

/// So many images for each number, none larger than this.
const IMAGES: usize = 8;
const LARGEST: usize = 700;

pub fn sessions() -> Vec<Session> {
    let mut images: Vec<Vec<u8>> = boundaries::all()
        .into_iter()
        .map(|boundary| boundary.image)
        .filter(|image| image.len() <= LARGEST)
        .collect();
    images.dedup();
    let numbers: Vec<u8> = images
        .iter()
        .map(|image| Oracle::new(image).check().number)
        .collect();
    let mut all = Vec::new();
    for number in 1..=10 {
        let found: Vec<usize> = (0..images.len())
            .filter(|&place| numbers[place] == number)
            .collect();
        let stride = found.len().div_ceil(IMAGES).max(1);
        for &place in found.iter().step_by(stride) {
            all.extend(MACHINES.map(|machine| of_image(machine, &images[place])));
        }
    }
    all
}

/// A refused image comes before every fault of the start and of the store.
fn of_image(machine: Machine, image: &[u8]) -> Session {
    let mut session = Session::new(machine, image.to_vec());
    session.start(0, &[], 64);
    session.start(usize::MAX, &[7], 0);
    let mut store = vec![0; 80];
    store[0] = 1;
    session.step(&store, 80, 3, 48);
    session.step(&store, 10, 1, 0);
    session
}
