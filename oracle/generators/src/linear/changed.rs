//! Records changed, so that the image still reads.

use crate::rng::Rng;
use crate::{build, damage};
use reference::image::{Frame, Record, order};
use reference::oracle::Oracle;
use reference::syntax::{Binding, Id, Identifier, Name, Prog};

/// The program's image with a change or two, or as it is where that does not read.
pub fn image(rng: &mut Rng, prog: &Prog) -> Vec<u8> {
    let mut frame = order::frame(prog);
    for _ in 0..rng.within(1, 2) {
        change(rng, &mut frame);
    }
    frame.header.records = frame.records.len() as u16;
    let reads = |image: &Vec<u8>| Oracle::new(image).read().number == 0;
    let changed = damage::frame_fits(&frame).then(|| frame.write());
    changed.filter(reads).unwrap_or_else(|| build::image(prog))
}

fn change(rng: &mut Rng, frame: &mut Frame) {
    if frame.records.is_empty() {
        return;
    }
    let records = &mut frame.records;
    let place = rng.below(records.len());
    match rng.below(16) {
        0..5 => an_id(rng, records),
        5..8 => a_list(rng, records),
        8 | 9 => a_pair(rng, records),
        10 | 11 => a_name(rng, records),
        12 => an_environment(rng, records),
        13 => {
            // its next takes its place
            let substitute = |record: &Record| matches!(record, Record::Substitute { .. });
            if let Some(found) = records[place..].iter().position(substitute) {
                records.remove(place + found);
            }
        }
        _ => insert(rng, records, place),
    }
}

fn an_id(rng: &mut Rng, records: &mut [Record]) {
    let id = match some_id(rng, records) {
        _ if rng.chance(2) => Id(rng.below(65_536) as u32),
        Some(id) => id,
        None => return,
    };
    let mut all: Vec<&mut Identifier> = records.iter_mut().flat_map(variables).collect();
    if !all.is_empty() {
        let place = rng.below(all.len());
        all[place].id = id;
    }
}

fn some_id(rng: &mut Rng, records: &mut [Record]) -> Option<Id> {
    let all: Vec<Id> = records
        .iter_mut()
        .flat_map(variables)
        .map(|var| var.id)
        .collect();
    (!all.is_empty()).then(|| *rng.pick(&all))
}

/// A binding more, one less, one twice, or two of them exchanged.
fn a_list(rng: &mut Rng, records: &mut [Record]) {
    let id = some_id(rng, records).unwrap_or(Id(0));
    let mut lists: Vec<&mut Vec<Binding>> = records.iter_mut().filter_map(list).collect();
    if lists.is_empty() {
        return;
    }
    let place = rng.below(lists.len());
    vary(rng, lists[place], build::ext(id.0));
}

/// The same of the pairs of a Substitute.
fn a_pair(rng: &mut Rng, records: &mut [Record]) {
    let (target, source) = (some_id(rng, records), some_id(rng, records));
    let new = build::pair(
        build::ext(target.unwrap_or(Id(0)).0),
        source.unwrap_or(Id(0)).0,
    );
    let mut all: Vec<_> = records
        .iter_mut()
        .filter_map(|record| match record {
            Record::Substitute { rearrange } => Some(rearrange),
            _ => None,
        })
        .collect();
    if all.is_empty() {
        return;
    }
    let place = rng.below(all.len());
    vary(rng, all[place], new);
}

fn vary<T: Copy>(rng: &mut Rng, list: &mut Vec<T>, new: T) {
    let place = rng.below(list.len().max(1));
    match rng.below(4) {
        0 if !list.is_empty() => {
            list.remove(place);
        }
        1 if !list.is_empty() => list.insert(place, list[place]),
        2 if !list.is_empty() => {
            let other = rng.below(list.len());
            list.swap(place, other);
        }
        _ => list.insert(place, new),
    }
    list.truncate(Record::LARGEST_COUNT.into());
}

/// A label or a tag becomes that of another record.
fn a_name(rng: &mut Rng, records: &mut [Record]) {
    let all: Vec<Name> = records
        .iter_mut()
        .filter_map(|each| name(each).copied())
        .collect();
    if all.is_empty() {
        return;
    }
    let other = *rng.pick(&all);
    let mut names: Vec<&mut Name> = records.iter_mut().filter_map(name).collect();
    let place = rng.below(names.len());
    *names[place] = other;
}

fn an_environment(rng: &mut Rng, records: &mut [Record]) {
    let mut all: Vec<_> = records
        .iter_mut()
        .filter_map(|record| match record {
            Record::Create { environment, .. } => Some(environment),
            _ => None,
        })
        .collect();
    if !all.is_empty() {
        let place = rng.below(all.len());
        *all[place] = rng.chance(8).then(Vec::new);
    }
}

/// A Substitute, a Literal or a PrintI64 before a statement.
fn insert(rng: &mut Rng, records: &mut Vec<Record>, place: usize) {
    let ids: Vec<Id> = (0..rng.below(4))
        .filter_map(|_| some_id(rng, records))
        .collect();
    let var = build::var(ids.first().map_or(0, |id| id.0));
    let record = match rng.below(3) {
        0 => Record::Literal { lit: 1, var },
        1 => Record::PrintI64 { newline: true, var },
        _ => Record::Substitute {
            rearrange: ids
                .iter()
                .map(|id| build::pair(build::ext(id.0), id.0))
                .collect(),
        },
    };
    records.insert(place.max(1), record);
}

/// The variables of a record, those of its bindings too.
fn variables(record: &mut Record) -> Vec<&mut Identifier> {
    match record {
        Record::Substitute { rearrange } => rearrange
            .iter_mut()
            .flat_map(|pair| [&mut pair.target.var, &mut pair.source])
            .collect(),
        Record::Op { fst, snd, var, .. } => vec![fst, snd, var],
        Record::IfC { fst, snd, .. } => {
            let mut all = vec![fst];
            all.extend(snd);
            all
        }
        Record::Let { var, args, .. } | Record::Invoke { var, args, .. } => {
            let mut all = vec![var];
            all.extend(args.iter_mut().map(|arg| &mut arg.var));
            all
        }
        Record::Create {
            var, environment, ..
        } => {
            let mut all = vec![var];
            all.extend(environment.iter_mut().flatten().map(|each| &mut each.var));
            all
        }
        Record::Switch { var, .. }
        | Record::Literal { var, .. }
        | Record::PrintI64 { var, .. }
        | Record::Exit { var } => vec![var],
        Record::Definition { params: list, .. }
        | Record::Clause { params: list, .. }
        | Record::Call { args: list, .. } => list.iter_mut().map(|each| &mut each.var).collect(),
    }
}

fn list(record: &mut Record) -> Option<&mut Vec<Binding>> {
    match record {
        Record::Definition { params: list, .. }
        | Record::Clause { params: list, .. }
        | Record::Let { args: list, .. } => Some(list),
        Record::Create { environment, .. } => environment.as_mut(),
        _ => None,
    }
}

fn name(record: &mut Record) -> Option<&mut Name> {
    match record {
        Record::Definition { name: found, .. }
        | Record::Call { label: found, .. }
        | Record::Let { tag: found, .. }
        | Record::Invoke { tag: found, .. }
        | Record::Clause { xtor: found, .. } => Some(&mut found.name),
        _ => None,
    }
}
