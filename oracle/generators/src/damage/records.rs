//! Damages of whole records: questions 5, 6 and 7.

use super::parts;
use crate::build;
use crate::rng::Rng;
use reference::image::{Frame, Record};

pub fn damage(rng: &mut Rng, frame: &mut Frame) {
    if frame.records.is_empty() {
        frame.header.definitions = rng.within(0, 2) as u16;
        return;
    }
    let place = rng.below(frame.records.len());
    match rng.below(10) {
        0 => {
            frame.records.remove(place);
        }
        1 => {
            let again = frame.records[place].clone();
            frame.records.insert(place, again);
        }
        2 => {
            let other = rng.below(frame.records.len());
            frame.records.swap(place, other);
        }
        3 => frame.header.definitions = frame.header.definitions.wrapping_add(1),
        4 => frame.header.definitions = frame.header.definitions.wrapping_sub(1),
        5 => clause_count(rng, frame),
        6 => insert_substitute(rng, frame, place),
        7 => set_environment(rng, frame),
        8 => lengthen(rng, frame, place),
        _ => frame.records.insert(place, build_record(rng)),
    }
    frame.header.records = frame.records.len() as u16;
}

/// A record that may stand anywhere or nowhere.
fn build_record(rng: &mut Rng) -> Record {
    let id = rng.below(4) as u32;
    match rng.below(6) {
        0 => Record::Clause {
            xtor: build::label(1),
            params: vec![build::ext(id)],
        },
        1 => Record::Definition {
            name: build::label(1),
            params: vec![build::ext(id)],
        },
        2 => Record::Literal {
            lit: 1,
            var: build::var(id),
        },
        3 => Record::PrintI64 {
            newline: rng.chance(8),
            var: build::var(id),
        },
        4 => Record::Exit {
            var: build::var(id),
        },
        _ => Record::IfC {
            sort: reference::syntax::IfSort::Less,
            fst: build::var(id),
            snd: None,
        },
    }
}

/// One clause more or less than there are.
fn clause_count(rng: &mut Rng, frame: &mut Frame) {
    let more = rng.chance(8);
    for record in &mut frame.records {
        if let Record::Switch { clauses, .. } | Record::Create { clauses, .. } = record {
            *clauses = if more {
                *clauses + 1
            } else {
                clauses.saturating_sub(1)
            };
            return;
        }
    }
}

fn insert_substitute(rng: &mut Rng, frame: &mut Frame, place: usize) {
    let pairs = rng.below(3) as u32;
    let rearrange = (0..pairs)
        .map(|id| build::pair(build::ext(id), id))
        .collect();
    frame
        .records
        .insert(place, Record::Substitute { rearrange });
}

fn set_environment(rng: &mut Rng, frame: &mut Frame) {
    let length = rng.below(3) as u32;
    let creates: Vec<&mut Record> = frame
        .records
        .iter_mut()
        .filter(|record| matches!(record, Record::Create { .. }))
        .collect();
    if let Some(Record::Create { environment, .. }) = creates.into_iter().next_back() {
        *environment = Some((0..length).map(build::ext).collect());
    }
}

/// A list with one binding more than question 7 or question 4 allows, or as many as it allows.
fn lengthen(rng: &mut Rng, frame: &mut Frame, place: usize) {
    let longest = *rng.pick(&[32, 33, 128, 129]);
    let mut next = frame.header.max_id;
    if let Some(list) = parts::list(&mut frame.records[place]) {
        let filler = list.last().copied();
        while list.len() < longest {
            next = next.wrapping_add(1);
            list.push(filler.unwrap_or(build::ext(next.into())));
        }
    }
}
