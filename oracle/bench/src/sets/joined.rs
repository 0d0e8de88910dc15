//! Images of a size: definitions of generated programs one after the other, in turn from programs of
//! all shapes (`wild`) and from programs whose runs get far (`typed`), all without PrintI64 and Exit:
//! a seed gives the images that it gave before there were these two, so that times can be compared.

use super::Image;
use generators::{Rng, Statements, typed, wild};
use reference::image::{HEADER_BYTES, LARGEST, Record, order};
use reference::syntax::{Id, Prog};

/// Programs with IDs near the largest would have no room for the IDs that all of them draw.
const LARGEST_ID: Id = Id(8_000);
/// Smaller programs have hardly more than a Call.
const LEAST_RECORDS: usize = 7;

/// An image of so many records, from the least to the most. A program is taken where the output keeps
/// in step with its room: the largest image has 36 bytes for each of 1,800 records of the source.
pub fn of_records(rng: &mut Rng, least: usize, most: usize) -> Image {
    let mut joined = Prog {
        defs: Vec::new(),
        max_id: Id(0),
    };
    let (mut records, mut bytes) = (0, 0);
    let mut is_typed = rng.chance(8);
    while records < least {
        let prog = if is_typed {
            typed::program_of(rng, Statements::WithoutOutput)
        } else {
            wild::program_of(rng, Statements::WithoutOutput)
        };
        let Some(image) = Image::accepted(prog) else {
            continue;
        };
        if image.source.max_id > LARGEST_ID || image.records < LEAST_RECORDS || !has_clauses(&image)
        {
            continue;
        }
        let records_then = records + image.records;
        let bytes_then = bytes + image.expected.len() - HEADER_BYTES;
        let ends = (least..=most).contains(&records_then);
        let goes_on = records_then + LEAST_RECORDS <= most;
        let room = (LARGEST - HEADER_BYTES) * records_then / most;
        if (ends || goes_on) && bytes_then <= room {
            joined.max_id = joined.max_id.max(image.source.max_id);
            joined.defs.extend(image.source.defs);
            (records, bytes) = (records_then, bytes_then);
            is_typed = !is_typed;
        }
    }
    Image::accepted(joined).expect("its parts are accepted, and there is room for all")
}

fn has_clauses(image: &Image) -> bool {
    let records = order::records(&image.source);
    let is_clause = |record: &Record| matches!(record, Record::Clause { .. });
    records.iter().any(is_clause)
}
