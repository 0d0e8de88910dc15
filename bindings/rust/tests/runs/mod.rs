//! Runs of the programs of `examples/`.

use crate::files::file;
use axcut::{values, Given, Header, Machine};

pub const STEPS: u64 = 1_000;
pub const ROOM: usize = 65_536;
/// The outside number that a report has.
pub const REPORT: u8 = 7;

/// An example, what its first definition is started with, and what its report shows.
pub const REPORTING: [(&str, &[i64], &[i64]); 7] = [
    ("axle", &[800, 810, 790, 800, 10], &[800]),
    ("axle", &[800, 810, 600, 800, 10], &[3, 152]),
    ("hysteresis", &[640, 650, 30, 0], &[640, 10]),
    ("hysteresis", &[680, 650, 30, 1], &[680]),
    ("rules", &[700, 70, 5], &[]),
    ("timeout", &[700, 61, 60, 2], &[700, 3]),
    ("timeout", &[700, 61, 60, 3], &[68, 700]),
];
/// The same of one that exits.
pub const EXITING: [(&str, &[i64], i64); 2] = [
    ("handset", &[800, 811, 20], 0),
    ("handset", &[760, 800, 20], 20),
];

pub fn integers(given: &[i64]) -> Vec<Given> {
    given.iter().copied().map(Given::Integer).collect()
}

/// Behind the integers comes the report.
pub fn reporting(given: &[i64]) -> Vec<Given> {
    let mut given = integers(given);
    given.push(Given::Outside(REPORT));
    given
}

/// Starts that end, and that of the worked case, which gets stuck: its Call has an argument too many.
pub fn starts() -> Vec<(&'static str, Vec<Given>)> {
    let reports = REPORTING.map(|(example, given, _)| (example, reporting(given)));
    let exits = EXITING.map(|(example, given, _)| (example, integers(given)));
    let mut starts = Vec::from(reports);
    starts.extend(exits);
    starts.push(("worked", Vec::new()));
    starts
}

/// The image of an example for a machine.
pub fn image(example: &str, machine: Machine) -> Vec<u8> {
    match machine {
        Machine::Source => file(example, "program.axc"),
        Machine::Linear => file(example, "linear.axc"),
    }
}

/// A run in one call: the steps, the events' bytes and the store.
pub fn whole(machine: Machine, example: &str, given: &[Given]) -> (u64, Vec<u8>, Vec<u8>) {
    let image = image(example, machine);
    let (mut store, mut shown) = (vec![0; ROOM], vec![0; ROOM]);
    let begun = machine.start(&image, 0, &values(given), &mut store);
    assert_eq!(begun, Ok(()), "{example}");
    let stepped = machine.step(&image, STEPS, &mut store, &mut shown).unwrap();
    assert!(!stepped.full && stepped.made < STEPS, "{example}");
    shown.truncate(stepped.length);
    store.truncate(Header::read(&store).unwrap().size());
    (stepped.made, shown, store)
}
