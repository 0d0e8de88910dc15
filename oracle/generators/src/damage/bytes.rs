//! Damages of bytes: questions 1 to 4.

use crate::rng::Rng;
use reference::image::{ENTRY_BYTES, Frame, HEADER_BYTES, LARGEST, Record};

pub fn damage(rng: &mut Rng, frame: &Frame) -> Vec<u8> {
    if !super::frame_fits(frame) {
        return vec![0; LARGEST + 1];
    }
    let mut image = frame.write();
    match rng.below(16) {
        0 => image.truncate(rng.below(HEADER_BYTES + 1)),
        1 if rng.chance(1) => return too_large(frame),
        1 | 2 => image[0] = rng.below(4) as u8,
        3 => image.truncate(rng.below(image.len() + 1)),
        4 => image.push(rng.below(256) as u8),
        5 => number_of_records(rng, &mut image),
        6 => directory(rng, &mut image),
        7 | 8 => cut_record(rng, frame, &mut image),
        9 => newline(rng, frame, &mut image),
        10 | 11 => {
            one_byte(rng, &mut image, HEADER_BYTES);
        }
        _ => {
            // only the records: the directory goes on tiling them
            let at = HEADER_BYTES + ENTRY_BYTES * frame.records.len();
            one_byte(rng, &mut image, at);
        }
    }
    image
}

/// An image that is longer than 65,535 bytes by one.
pub fn too_large(frame: &Frame) -> Vec<u8> {
    let mut image = frame.write();
    image.resize(LARGEST + 1, 0);
    image
}

fn number_of_records(rng: &mut Rng, image: &mut [u8]) {
    let records = u16::from_le_bytes([image[6], image[7]]);
    let records = match rng.below(4) {
        0 => rng.below(65_536) as u16,
        1 => 4_001,
        2 => records.wrapping_sub(1),
        _ => records.wrapping_add(1),
    };
    image[6..8].copy_from_slice(&records.to_le_bytes());
}

/// An offset or a length that is larger or smaller by one, or two of them, or two entries changed.
fn directory(rng: &mut Rng, image: &mut [u8]) {
    let records = usize::from(u16::from_le_bytes([image[6], image[7]]));
    if records == 0 {
        return;
    }
    let entry = HEADER_BYTES + ENTRY_BYTES * rng.below(records);
    match rng.below(3) {
        0 => image[entry + 2 * rng.below(2)] ^= 1,
        1 => {
            // one record longer at the next one's cost
            image[entry + 2] = image[entry + 2].wrapping_add(1);
            if entry + 2 * ENTRY_BYTES <= HEADER_BYTES + ENTRY_BYTES * records {
                image[entry + 4] = image[entry + 4].wrapping_add(1);
                image[entry + 6] = image[entry + 6].wrapping_sub(1);
            }
        }
        _ => {
            let other = HEADER_BYTES + ENTRY_BYTES * rng.below(records);
            for byte in 0..ENTRY_BYTES {
                image.swap(entry + byte, other + byte);
            }
        }
    }
}

/// The newline byte of a PrintI64 changed, where there is one.
fn newline(rng: &mut Rng, frame: &Frame, image: &mut [u8]) {
    let prints = |&place: &usize| matches!(frame.records[place], Record::PrintI64 { .. });
    let places: Vec<usize> = (0..frame.records.len()).filter(prints).collect();
    if !places.is_empty() {
        let entry = HEADER_BYTES + ENTRY_BYTES * *rng.pick(&places);
        let offset = usize::from(field(image, entry));
        image[offset + 1] = *rng.pick(&[0, 1, 2, 3, 10, 255]);
    }
}

fn field(image: &[u8], at: usize) -> u16 {
    u16::from_le_bytes([image[at], image[at + 1]])
}

/// A byte put into a record or taken out of it, with a directory that tiles.
fn cut_record(rng: &mut Rng, frame: &Frame, image: &mut Vec<u8>) {
    if frame.records.is_empty() {
        return;
    }
    let place = rng.below(frame.records.len());
    let entry = HEADER_BYTES + ENTRY_BYTES * place;
    let offset = usize::from(field(image, entry));
    let length = usize::from(field(image, entry + 2));
    let at = offset + rng.below(length);
    let longer = rng.chance(8);
    if longer {
        image.insert(at, rng.below(4) as u8);
    } else {
        image.remove(at);
    }
    let moved = |number: u16| {
        if longer {
            number.wrapping_add(1)
        } else {
            number.wrapping_sub(1)
        }
    };
    let length = moved(field(image, entry + 2));
    image[entry + 2..entry + 4].copy_from_slice(&length.to_le_bytes());
    for later in place + 1..frame.records.len() {
        let entry = HEADER_BYTES + ENTRY_BYTES * later;
        let offset = moved(field(image, entry));
        image[entry..entry + 2].copy_from_slice(&offset.to_le_bytes());
    }
}

/// A byte from there on, changed to one that often means something.
fn one_byte(rng: &mut Rng, image: &mut [u8], from: usize) {
    if from >= image.len() {
        return;
    }
    let at = rng.within(from, image.len() - 1);
    image[at] = match rng.below(4) {
        0 => rng.below(256) as u8,
        1 => image[at] ^ (1 << rng.below(8)),
        _ => *rng.pick(&[0, 1, 2, 3, 4, 5, 6, 11, 12, 13, 14, 32, 33, 128, 129, 255]),
    };
}
