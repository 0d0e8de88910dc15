//! The steppers: the library's calls and the oracle's machines on the same runs.

pub mod calls;
pub mod figures;
pub mod floor;
pub mod machines;
pub mod programs;
pub mod report;
pub mod rounds;
pub mod runs;

use crate::sets;
use crate::worst;
use calls::Calls;
use report::Report;
use rounds::{Path, Ready, Timed};
use runs::{Scale, Set};
use stepper::Machine;

/// The sets of runs by name: of all statements, with many cells, with many entries, and without a step.
pub const NAMES: [&str; 4] = ["steps", "cells", "entries", "calls"];

/// The steps of an image whose stack is measured.
const STEPS_ON_STACK: u64 = 1_000;

/// Only one path of one machine, for a profiler.
#[derive(Debug, Clone, Copy, PartialEq, Eq)]
pub struct Only {
    pub machine: Machine,
    pub path: Path,
}

impl Only {
    pub const ALL: [(&str, Only); 4] = [
        ("source_step", Only::new(Machine::Source, Path::Step)),
        ("linear_step", Only::new(Machine::Linear, Path::Step)),
        ("source_machine", Only::new(Machine::Source, Path::Machine)),
        ("linear_machine", Only::new(Machine::Linear, Path::Machine)),
    ];

    const fn new(machine: Machine, path: Path) -> Only {
        Only { machine, path }
    }

    pub fn of_name(name: &str) -> Option<Only> {
        let found = Only::ALL.iter().find(|(known, _)| *known == name);
        found.map(|(_, only)| *only)
    }
}

/// A run that is not that of the oracle's machine, in words.
pub type Unlike = String;

pub struct Bench {
    pub calls: Calls,
    pub scale: Scale,
    pub seed: u64,
    pub rounds: usize,
    pub report: Report,
}

impl Bench {
    /// Compares, times and prints the set of runs of that name.
    pub fn set(&mut self, name: &str) -> Result<(), Unlike> {
        match name {
            "steps" => self.all_statements(),
            "cells" => self.cells(),
            "entries" => self.entries(),
            "calls" => self.without_steps(),
            _ => unreachable!("one of the names above"),
        }
    }

    fn all_statements(&mut self) -> Result<(), Unlike> {
        let sets = runs::of_all_statements(&self.scale, self.seed);
        self.report.runs(&sets);
        let timed = self.timed(&sets, &[Path::Step, Path::Shown, Path::Machine])?;
        self.report.times(&sets, &timed);
        self.report.medians(&sets, &timed);
        Ok(())
    }

    fn cells(&mut self) -> Result<(), Unlike> {
        let sets = runs::over_cells(&self.scale);
        let timed = self.timed(&sets, &[Path::Step, Path::Nothing])?;
        self.report.cells(&self.scale, &sets, &timed);
        self.report.stores(&self.scale, &sets, &timed);
        Ok(())
    }

    fn entries(&mut self) -> Result<(), Unlike> {
        let sets = runs::over_entries(&self.scale);
        let timed = self.timed(&sets, &[Path::Step, Path::Nothing, Path::Machine])?;
        self.report.entries(&self.scale, &sets, &timed);
        self.report.floor(&self.scale, self.rounds);
        Ok(())
    }

    fn without_steps(&mut self) -> Result<(), Unlike> {
        let sets = self.images(0);
        let timed = self.timed(&sets, &[Path::Start, Path::Nothing])?;
        self.report.calls(&sets, &timed);
        Ok(())
    }

    /// The images of the pass, each with a start and at most so many steps.
    fn images(&self, steps: u64) -> Vec<Set> {
        let sets = sets::NAMES.map(|name| sets::set(name, self.seed));
        sets.into_iter()
            .flat_map(|set| runs::of_images(set.name, set.images, steps))
            .collect()
    }

    fn timed(&mut self, sets: &[Set], paths: &[Path]) -> Result<Vec<Timed>, Unlike> {
        let mut timed = Vec::new();
        for set in sets {
            let ready = self.ready(set)?;
            timed.push(rounds::run(&mut self.calls, &ready, paths, self.rounds));
        }
        Ok(timed)
    }

    fn ready<'a>(&mut self, set: &'a Set) -> Result<Vec<Ready<'a>>, Unlike> {
        let unlike = |place| format!("{set}: run {place} is not that of the oracle's machine");
        rounds::ready(&mut self.calls, set).map_err(unlike)
    }

    /// The most stack that a call uses: on the images of the pass, on its worst cases, and on the runs.
    pub fn stack(&mut self) {
        let mut sets = self.images(STEPS_ON_STACK);
        for (name, images) in worst::all() {
            sets.extend(runs::of_images(&name, images, STEPS_ON_STACK));
        }
        sets.extend(runs::of_all_statements(&self.scale, self.seed));
        sets.extend(runs::over_entries(&self.scale));
        self.report.stack(&mut self.calls, &sets);
    }

    /// One path of one machine on the runs of all statements, again and again.
    pub fn only(&mut self, only: Only) -> Result<(), Unlike> {
        let mut sets = runs::of_all_statements(&self.scale, self.seed);
        sets.retain(|set| set.machine == only.machine);
        for set in &sets {
            let ready = self.ready(set)?;
            for ready in ready.iter().cycle().take(self.rounds * ready.len()) {
                ready.time(&mut self.calls, only.path);
            }
        }
        Ok(())
    }
}
