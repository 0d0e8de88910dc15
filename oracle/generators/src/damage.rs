//! Damaged copies of good images, each aimed at one question. The aim may miss, or meet an earlier
//! question: what counts is that every question is met often, and that the oracle says which.

mod bytes;
mod parts;
mod records;
mod variables;

use crate::rng::Rng;
use reference::image::{Frame, LARGEST, LARGEST_ID, frame as frames, order};
use reference::oracle::Oracle;
use reference::syntax::Prog;

/// The image of a program, damaged once or more.
pub fn image(rng: &mut Rng, prog: &Prog) -> Vec<u8> {
    let mut frame = order::frame(prog);
    if rng.chance(3) {
        records::damage(rng, &mut frame);
    }
    match rng.below(16) {
        0..4 => records::damage(rng, &mut frame),
        4..10 => variables::damage(rng, &mut frame),
        10 => fresh_boundary(rng, prog, &mut frame),
        _ => return bytes::damage(rng, &frame),
    }
    if frame_fits(&frame) {
        frame.write()
    } else {
        bytes::too_large(&order::frame(prog))
    }
}

pub(crate) fn frame_fits(frame: &Frame) -> bool {
    frames::image_length(&frame.records) <= LARGEST
}

/// max_id as large as question 11 allows, or larger by one.
fn fresh_boundary(rng: &mut Rng, prog: &Prog, frame: &mut Frame) {
    let oracle = Oracle::new(&order::frame(prog).write());
    if let Ok(linearized) = oracle.linearized() {
        let draws = linearized.max_id.0 - prog.max_id.0;
        let largest = LARGEST_ID.saturating_sub(draws);
        let more = u32::from(rng.chance(8));
        frame.header.max_id = u16::try_from(largest + more).unwrap_or(u16::MAX);
    }
}
