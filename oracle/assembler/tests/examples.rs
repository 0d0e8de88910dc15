//! The programs of `examples/`: their images are those of their texts, and they do what their remarks
//! say, before and after linearization.

use reference::demand3::{End, watch};
use reference::machines::{Event, Given, Outcome, Source, Start, Value};
use reference::oracle::Oracle;
use std::fs;
use std::path::{Path, PathBuf};

const EXAMPLES: [&str; 6] = [
    "axle",
    "handset",
    "hysteresis",
    "rules",
    "timeout",
    "worked",
];
const STEPS: usize = 1_000;
/// The outside number that the report has in every run.
const REPORT: u8 = 7;

fn folder(example: &str) -> PathBuf {
    Path::new(env!("CARGO_MANIFEST_DIR"))
        .join("../../examples")
        .join(example)
}

fn image(example: &str, file: &str) -> Vec<u8> {
    fs::read(folder(example).join(file)).unwrap()
}

fn text(example: &str, file: &str) -> String {
    fs::read_to_string(folder(example).join(file)).unwrap()
}

/// The events of a run from the first definition, which ends, and which the linearized run shows too.
fn events(example: &str, start: &[Given]) -> Vec<Event> {
    let oracle = Oracle::new(&image(example, "program.axc"));
    let program = oracle.program().unwrap();
    let linearized = oracle.linearized().unwrap();
    let watched = watch(program, linearized, 0, start, STEPS).unwrap();
    assert_eq!(watched.end, End::Ended, "{example} {start:?}");

    let Start::Begun(mut machine) = Source::start(program, 0, start) else {
        panic!("{example} does not start");
    };
    let shown = (0..watched.events).map(|_| match machine.step() {
        Outcome::Shows(event) => event,
        other => panic!("{other:?}"),
    });
    shown.collect()
}

fn integers(given: &[i64]) -> Vec<Given> {
    given.iter().map(|&value| Given::Int(value)).collect()
}

/// The report of a run: what it calls and with which integers.
fn report(example: &str, given: &[i64]) -> (String, Vec<i64>) {
    let mut start = integers(given);
    start.push(Given::Outside(REPORT));
    match events(example, &start).pop() {
        Some(Event::InvokeOutside { number, tag, args }) => {
            assert_eq!(number, REPORT);
            (spelling(example, tag.0), args.iter().map(integer).collect())
        }
        other => panic!("{other:?}"),
    }
}

/// What a run prints, all of it with a newline, and what it exits with.
fn output(example: &str, given: &[i64]) -> (Vec<i64>, i64) {
    let mut shown = events(example, &integers(given));
    let Some(Event::Exit { value }) = shown.pop() else {
        panic!("{example} {given:?} does not exit");
    };
    let lines = shown.into_iter().filter_map(|event| match event {
        Event::PrintI64 { value, newline } => {
            assert!(newline);
            Some(value)
        }
        _ => None,
    });
    (lines.collect(), integer(&value))
}

fn integer(value: &Value) -> i64 {
    match value {
        Value::Int(value) => *value,
        other => panic!("{other:?}"),
    }
}

fn spelling(example: &str, name: u16) -> String {
    let names = text(example, "names");
    let prefix = format!("{name} ");
    let line = names.lines().find_map(|line| line.strip_prefix(&prefix));
    line.unwrap().into()
}

fn says(example: &str, given: &[i64], tag: &str, args: &[i64]) {
    assert_eq!(report(example, given), (tag.into(), args.to_vec()));
}

#[test]
fn images_are_those_of_the_texts() {
    for example in EXAMPLES {
        let made = assembler::assemble(&text(example, "source.axt")).unwrap();
        assert_eq!(made.image, image(example, "program.axc"), "{example}");
        assert_eq!(made.names.lines(), text(example, "names"), "{example}");
    }
}

#[test]
fn outputs_are_those_of_the_rust() {
    for example in EXAMPLES {
        let mut out = vec![0; 65_535];
        let answer = Oracle::new(&image(example, "program.axc")).linearize(&mut out);
        assert_eq!(answer.number, 0);
        assert_eq!(out[..answer.length], image(example, "linear.axc"));
    }
}

#[test]
fn hysteresis() {
    says("hysteresis", &[690, 650, 30, 0], "Fine", &[690]);
    says("hysteresis", &[640, 650, 30, 0], "Low", &[640, 10]);
    says("hysteresis", &[660, 650, 30, 0], "Fine", &[660]);
    says("hysteresis", &[660, 650, 30, 1], "Low", &[660, 20]);
    says("hysteresis", &[680, 650, 30, 1], "Fine", &[680]);
}

#[test]
fn timeout() {
    says("timeout", &[700, 5, 60, 0], "Fresh", &[700]);
    says("timeout", &[700, 61, 60, 0], "Late", &[700, 1]);
    says("timeout", &[700, 61, 60, 2], "Late", &[700, 3]);
    says("timeout", &[700, 61, 60, 3], "Timeout", &[68, 700]);
}

#[test]
fn axle() {
    says("axle", &[800, 810, 790, 800, 10], "Even", &[800]);
    says("axle", &[800, 810, 600, 800, 10], "Uneven", &[3, 152]);
    says("axle", &[500, 810, 600, 800, 10], "Uneven", &[1, 177]);
}

#[test]
fn handset() {
    assert_eq!(output("handset", &[800, 811, 20]), (vec![805], 0));
    assert_eq!(output("handset", &[800, 780, 20]), (vec![790], 0));
    assert_eq!(output("handset", &[800, 760, 20]), (vec![780, 40], 20));
    assert_eq!(output("handset", &[760, 800, 20]), (vec![780, 40], 20));
}

#[test]
fn rules() {
    says("rules", &[700, 95, 0], "Stop", &[5]);
    says("rules", &[500, 40, 0], "Workshop", &[50]);
    says("rules", &[700, 70, 4], "Show", &[700, 70]);
    says("rules", &[700, 70, 5], "Quiet", &[]);
    says("rules", &[700, 40, 4], "Quiet", &[]);
}
