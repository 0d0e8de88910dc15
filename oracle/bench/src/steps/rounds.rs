//! Rounds over runs: in each round every path in turn, and in it every run once, timed on its own.

use super::calls::Calls;
use super::machines::{Oracle, put, values};
use super::runs::{Run, Set};
use crate::paths::timed;
use crate::rounds::{Times, WARM_UP};
use reference::machines::Event;

use std::hint::black_box;
use std::time::Duration;

#[derive(Debug, Clone, Copy, PartialEq, Eq)]
pub enum Path {
    /// `axcut_source_start` or `axcut_linear_start`.
    Start,
    /// `axcut_source_step` or `axcut_linear_step` for no step: the questions, and the pass over the store.
    Nothing,
    /// The same for the steps of the stretch.
    Step,
    /// The oracle's machine over the stretch, with its events as bytes in a vector.
    Shown,
    /// The oracle's machine alone; its events are dropped.
    Machine,
}

/// A run at the beginning of its stretch.
pub struct Ready<'a> {
    pub run: &'a Run,
    values: Vec<u8>,
    state: Vec<u8>,
    machine: Oracle<'a>,
}

impl<'a> Ready<'a> {
    /// Makes all steps, and is `None` where the subject's are not those of the oracle's machine.
    pub fn new(calls: &mut Calls, run: &'a Run) -> Option<Ready<'a>> {
        let state = calls.agrees(run)?;
        let mut machine = Oracle::start(run)?;
        machine.advance(run.before, drop);
        Some(Ready {
            run,
            values: values(run),
            state,
            machine,
        })
    }

    fn slots(&self) -> usize {
        (self.state.len() - 64) / 16
    }

    /// The time of one run of the path.
    pub fn time(&self, calls: &mut Calls, path: Path) -> Duration {
        let run = self.run;
        match path {
            Path::Start => timed(|| calls.start(run, &self.values)),
            Path::Nothing => {
                calls.load(&self.state);
                timed(|| calls.step(run, 0))
            }
            Path::Step => {
                calls.load(&self.state);
                timed(|| calls.step(run, run.steps))
            }
            Path::Shown => {
                let shown = &mut calls.shown;
                shown.clear();
                self.by_machine(|event| event.iter().for_each(|event| put(event, shown)))
            }
            Path::Machine => self.by_machine(|event| drop(black_box(event))),
        }
    }

    fn by_machine(&self, told: impl FnMut(Option<Event>)) -> Duration {
        let mut machine = self.machine.clone();
        machine.reserve(self.run.steps as usize);
        timed(|| machine.advance(self.run.steps, told))
    }
}

/// The times of a set.
pub struct Timed {
    /// The steps of all stretches.
    pub steps: u64,
    /// For each run the slots of the state before its stretch.
    pub slots: Vec<usize>,
    paths: Vec<(Path, Times)>,
}

impl Timed {
    pub fn of(&self, path: Path) -> &Times {
        let found = self.paths.iter().find(|(known, _)| *known == path);
        &found.expect("this path was run").1
    }

    /// ns for each step.
    pub fn per_step(&self, time: u64) -> f64 {
        time as f64 / self.steps as f64
    }
}

/// The runs of a set at the beginning of their stretches, or the place of one that does not agree.
pub fn ready<'a>(calls: &mut Calls, set: &'a Set) -> Result<Vec<Ready<'a>>, usize> {
    let runs = set.runs.iter().enumerate();
    runs.map(|(place, run)| Ready::new(calls, run).ok_or(place))
        .collect()
}

pub fn run(calls: &mut Calls, runs: &[Ready], paths: &[Path], rounds: usize) -> Timed {
    let mut timed = Timed {
        steps: runs.iter().map(|ready| ready.run.steps).sum(),
        slots: runs.iter().map(Ready::slots).collect(),
        paths: paths
            .iter()
            .map(|&path| (path, Times::new(runs.len())))
            .collect(),
    };
    for round in 0..WARM_UP + rounds {
        for (path, times) in &mut timed.paths {
            for (place, ready) in runs.iter().enumerate() {
                let time = ready.time(calls, *path);
                if round >= WARM_UP {
                    times.add(place, time);
                }
            }
        }
    }
    timed
}
