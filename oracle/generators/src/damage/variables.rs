//! Damages of IDs: questions 8, 9 and 10.

use super::parts;
use crate::rng::Rng;
use reference::image::Frame;
use reference::syntax::{Id, Identifier};

pub fn damage(rng: &mut Rng, frame: &mut Frame) {
    let mut all: Vec<Id> = Vec::new();
    for record in &mut frame.records {
        all.extend(parts::binders(record).iter().map(|var| var.id));
    }
    let other = match rng.below(4) {
        0 => Id(rng.below(65_536) as u32),
        1 => Id(u32::from(frame.header.max_id)),
        _ if all.is_empty() => Id(0),
        _ => *rng.pick(&all),
    };
    match rng.below(5) {
        0 | 1 => replace(rng, frame, parts::binders, other),
        2 | 3 => replace(rng, frame, parts::uses, other),
        _ => lower_max_id(rng, frame, &all),
    }
}

type Vars = fn(&mut reference::image::Record) -> Vec<&mut Identifier>;

fn replace(rng: &mut Rng, frame: &mut Frame, vars: Vars, id: Id) {
    let mut found: Vec<&mut Identifier> = frame.records.iter_mut().flat_map(vars).collect();
    if !found.is_empty() {
        let place = rng.below(found.len());
        found[place].id = id;
    }
}

/// max_id at the largest binder, or below it by one, or at another binder.
fn lower_max_id(rng: &mut Rng, frame: &mut Frame, binders: &[Id]) {
    let Some(largest) = binders.iter().max() else {
        return;
    };
    let max_id = match rng.below(3) {
        0 => largest.0,
        1 => largest.0.saturating_sub(1),
        _ => rng.pick(binders).0,
    };
    frame.header.max_id = max_id as u16;
}
