//! The runs of the steppers are what they are said to be, and every wrong event is found.

use bench::steps::Bench;
use bench::steps::calls::Calls;
use bench::steps::figures::{Figures, KINDS};
use bench::steps::report::Report;
use bench::steps::rounds::{self, Path};
use bench::steps::runs::{self, Run, Scale, Set};
use differential::stepping::subject::oracle;
use differential::stepping::{LINKED, Steppers};
use stepper::Machine;

const SEED: u64 = 1;

/// The oracle's own stepper writes the whole state at each step.
const SMALL: Scale = Scale {
    steps: 330,
    generated: 3,
    reading: 240,
    making: 240,
    cells: [10, 20, 40],
    touching: 170,
    entries: [1, 2, 3, 5, 8, 31],
};

fn all() -> Vec<Set> {
    let mut sets = runs::of_all_statements(&SMALL, SEED);
    sets.extend(runs::over_cells(&SMALL));
    sets.extend(runs::over_entries(&SMALL));
    sets
}

fn figures(run: &Run) -> Figures {
    Figures::of(run).expect("it has so many steps")
}

/// The steps of a kind.
fn steps_of(figures: &Figures, name: &str) -> u64 {
    let place = KINDS.iter().position(|(_, known)| *known == name);
    figures.kinds[place.expect("a kind")]
}

#[test]
fn the_linked_subject_agrees() {
    let mut calls = Calls::new(LINKED);
    for set in all() {
        let ready = rounds::ready(&mut calls, &set);
        assert_eq!(ready.map(|ready| ready.len()), Ok(set.runs.len()), "{set}");
    }
}

#[test]
fn every_set_is_printed() {
    let mut bench = Bench {
        calls: Calls::new(LINKED),
        scale: SMALL,
        seed: SEED,
        rounds: 1,
        report: Report { markdown: true },
    };
    for name in bench::steps::NAMES {
        assert_eq!(bench.set(name), Ok(()));
    }
    bench.stack();
    for (_, only) in bench::steps::Only::ALL {
        assert_eq!(bench.only(only), Ok(()));
    }
}

#[test]
fn every_path_takes_time() {
    let sets = all();
    let mut calls = Calls::new(LINKED);
    let paths = [
        Path::Start,
        Path::Nothing,
        Path::Step,
        Path::Shown,
        Path::Machine,
    ];
    let ready = rounds::ready(&mut calls, &sets[0]).unwrap_or_default();
    let timed = rounds::run(&mut calls, &ready, &paths, 3);
    assert_eq!((timed.steps, timed.slots.len()), (SMALL.steps, 1));
    for path in paths {
        assert!(timed.of(path).least() > 0, "{path:?}");
        assert!(timed.of(path).least() <= timed.of(path).median());
    }
}

#[test]
fn the_mixed_run_has_every_statement_but_exit() {
    for set in runs::of_all_statements(&SMALL, SEED) {
        if set.name == "mixed" {
            let figures = figures(&set.runs[0]);
            let linear = set.machine == Machine::Linear;
            assert_eq!(steps_of(&figures, "Exit"), 0);
            assert_eq!(steps_of(&figures, "Substitute") > 0, linear);
            let shown = figures.kinds.iter().filter(|&&steps| steps > 0).count();
            assert_eq!(shown, KINDS.len() - 2 + usize::from(linear));
            // eleven steps around on the source machine, two cells each time
            if !linear {
                assert_eq!(figures.cells as u64, 2 * SMALL.steps / 11);
            }
        }
    }
}

#[test]
fn generated_runs_are_of_many_statements() {
    for set in runs::of_all_statements(&SMALL, SEED) {
        if set.name == "generated" {
            assert_eq!(set.runs.len(), SMALL.generated);
            let mut kinds = set.runs.iter().map(|run| figures(run).frequent_kinds());
            assert!(kinds.all(|kinds| kinds >= 6));
        }
    }
}

#[test]
fn the_cells_are_there_before_the_loop() {
    for set in runs::over_cells(&SMALL) {
        for (run, cells) in set.runs.iter().zip(SMALL.cells) {
            let figures = figures(run);
            assert_eq!(figures.cells_before, cells, "{set}");
            match (set.name.as_str(), set.machine) {
                ("cells are read", _) => assert_eq!(figures.cells, 0),
                (_, Machine::Source) => assert_eq!(figures.cells as u64, 2 * SMALL.making / 8),
                (_, Machine::Linear) => assert!(figures.cells > 0),
            }
        }
    }
}

#[test]
fn entries_are_in_the_environment() {
    for set in runs::over_entries(&SMALL) {
        for (run, count) in set.runs.iter().zip(SMALL.entries) {
            let figures = figures(run);
            assert!(figures.most_entries >= count as usize, "{set}");
            assert!(figures.most_entries <= 2 * count as usize + 8, "{set}");
        }
    }
}

/// A stepper that changes one byte of the last event.
#[test]
fn a_wrong_event_is_found() {
    unsafe extern "C" fn wrong(
        image: *const u8,
        image_len: usize,
        steps: u64,
        store: *mut u8,
        store_len: usize,
        events: *mut u8,
        events_len: usize,
        made: *mut u64,
        length: *mut usize,
    ) -> u32 {
        let step = oracle::ITSELF.source_step;
        unsafe {
            let number = step(
                image, image_len, steps, store, store_len, events, events_len, made, length,
            );
            if *length > 0 {
                *events.add(*length - 1) ^= 1;
            }
            number
        }
    }
    let subject = Steppers {
        source_step: wrong,
        ..oracle::ITSELF
    };
    let mut calls = Calls::new(subject);
    for set in runs::of_all_statements(&SMALL, SEED) {
        let found = rounds::ready(&mut calls, &set).is_err();
        assert_eq!(found, set.machine == Machine::Source, "{set}");
    }
}
