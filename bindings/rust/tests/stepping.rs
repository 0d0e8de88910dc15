//! Both machines over the programs of `examples/`.

mod files;
mod runs;

use axcut::{events, Event, Given, Header, Machine, Refusal, Run, Value};
use files::file;
use runs::{image, integers, reporting, starts, whole, EXITING, REPORT, REPORTING, STEPS};

#[test]
fn both_machines_show_the_same() {
    for (example, given) in starts() {
        let (before, shown, store) = whole(Machine::Source, example, &given);
        let (after, shown_after, _) = whole(Machine::Linear, example, &given);
        assert_eq!(shown, shown_after, "{example} {given:?}");
        assert_eq!(before as usize, events(&shown).unwrap().len());
        assert!(before <= after);
        let header = Header::read(&store).unwrap();
        assert_eq!(header.ended, example != "worked");
        assert!(!header.stopped);
    }
}

#[test]
fn what_they_show() {
    let last = |example: &str, given: &[Given]| {
        let (_, shown, _) = whole(Machine::Source, example, given);
        events(&shown).unwrap().pop().unwrap()
    };
    for (example, given, shown) in REPORTING {
        let Event::InvokeOutside { outside, args, .. } = last(example, &reporting(given)) else {
            panic!("{example} does not report");
        };
        let shown = shown.iter().copied().map(Value::Integer);
        assert_eq!((outside, args), (REPORT, shown.collect()));
    }
    for (example, given, shown) in EXITING {
        let exit = Event::Exit(Value::Integer(shown));
        assert_eq!(last(example, &integers(given)), exit);
    }
    assert_eq!(last("worked", &[]), Event::Literal(7));
}

/// The steps and events of a run in calls of so many steps.
fn piecemeal(run: &mut Run, steps: u64) -> (u64, Vec<Event>) {
    let (mut sum, mut all) = (0, Vec::new());
    loop {
        let shown = run.step(steps);
        sum += shown.made;
        all.extend(shown.events);
        if shown.made < steps {
            return (sum, all);
        }
    }
}

#[test]
fn in_pieces() {
    for machine in [Machine::Source, Machine::Linear] {
        for (example, given) in starts() {
            let image = image(example, machine);
            let (made, shown, left) = whole(machine, example, &given);
            for steps in [1, 2, 7] {
                let mut run = Run::start(machine, &image, 0, &given).unwrap();
                let pieces = piecemeal(&mut run, steps);
                assert_eq!(pieces, (made, events(&shown).unwrap()));
                assert_eq!(run.state(), left);
            }
        }
    }
}

#[test]
fn a_run_goes_on_from_its_state() {
    let (example, given) = starts().remove(0);
    for machine in [Machine::Source, Machine::Linear] {
        let image = image(example, machine);
        let (_, shown, left) = whole(machine, example, &given);
        let mut run = Run::start(machine, &image, 0, &given).unwrap();
        let mut all = run.step(20).events;
        let state = run.state().to_vec();
        drop(run);
        let mut resumed = Run::resume(machine, &image, &state).unwrap();
        assert_eq!(resumed.state(), state);
        all.extend(resumed.step(STEPS).events);
        assert_eq!(Some(all), events(&shown));
        assert_eq!(resumed.state(), left);
        let damaged = Run::resume(machine, &image, &state[..state.len() - 1]);
        assert_eq!(damaged.map(|_| ()), Err(Refusal::State));
    }
}

/// The worked case as it is linearized is a source program too, whose Call has no argument: it goes on
/// for ever, and takes more than one call for so many steps.
#[test]
fn a_run_without_end() {
    let image = file("worked", "linear.axc");
    let mut run = Run::start(Machine::Source, &image, 0, &[]).unwrap();
    let shown = run.step(10_001);
    assert_eq!((shown.made, shown.events.len()), (10_001, 10_001));
    let around = [Event::Literal(7), Event::Call { label: 1 }];
    assert!(shown.events.iter().eq(around.iter().cycle().take(10_001)));
    let header = run.header();
    assert_eq!((header.position, header.cells, header.entries), (2, 0, 1));
    assert_eq!(run.step(0), Default::default());
}

/// Two parameters with one ID: the linear machine has stopped before its first step.
#[test]
fn a_start_that_has_stopped() {
    let mut image = file("handset", "linear.axc");
    let records = usize::from(u16::from_le_bytes([image[6], image[7]]));
    // behind kind, name and count come the bindings, of 10 bytes, each with its ID behind a name
    let first = 8 + 4 * records + 6 + 2;
    let id = [image[first], image[first + 1]];
    image[first + 10..first + 12].copy_from_slice(&id);
    let given = [800, 760, 20].map(Given::Integer);
    let mut run = Run::start(Machine::Linear, &image, 0, &given).unwrap();
    let header = run.header();
    assert!(header.stopped && !header.ended);
    assert_eq!((header.position, header.cells, header.entries), (1, 0, 3));
    assert_eq!(run.step(STEPS).made, 0);
}

#[test]
fn what_is_no_header() {
    let given = [800, 760, 20].map(Given::Integer);
    let image = file("handset", "program.axc");
    let run = Run::start(Machine::Source, &image, 0, &given).unwrap();
    let state = run.state().to_vec();
    assert_eq!(Header::read(&state), Some(run.header()));
    assert_eq!(run.header().size(), state.len());
    assert_eq!(Header::read(&state[..63]), None);
    assert_eq!(Header::read(&state[..state.len() - 1]), None);
    for (place, byte) in [(4, 2), (5, 2), (6, 1), (16, 1), (24, 4), (31, 255), (63, 1)] {
        let mut wrong = state.clone();
        wrong[place] = byte;
        assert_eq!(Header::read(&wrong), None, "{place}");
    }
}
