//! What the timed stretch of a run is like, by the oracle's machine.

use super::machines::{Oracle, kind};
use super::runs::{Run, Set};

/// The kinds of statement of which a step is made, and their names.
pub const KINDS: [(u8, &str); 11] = [
    (2, "Substitute"),
    (3, "Call"),
    (4, "Let"),
    (5, "Switch"),
    (6, "Create"),
    (7, "Invoke"),
    (8, "Literal"),
    (9, "Op"),
    (10, "IfC"),
    (12, "PrintI64"),
    (13, "Exit"),
];

#[derive(Debug, Clone, Default, PartialEq, Eq)]
pub struct Figures {
    pub steps: u64,
    /// The entries of the environment before each step, summed, and the most of them.
    pub entries: usize,
    pub most_entries: usize,
    /// The cells that were there before, and those that were made.
    pub cells_before: usize,
    pub cells: usize,
    /// The steps of each of `KINDS`.
    pub kinds: [u64; KINDS.len()],
}

impl Figures {
    /// The figures of the stretch, if the run has so many steps.
    pub fn of(run: &Run) -> Option<Figures> {
        let mut machine = Oracle::start(run)?;
        if machine.advance(run.before, drop) < run.before {
            return None;
        }
        let mut figures = Figures {
            cells_before: machine.state().cells.len(),
            ..Figures::default()
        };
        while figures.steps < run.steps {
            let entries = machine.state().entries.len();
            let mut of_step = 2;
            let made = machine.advance(1, |event| {
                of_step = event.as_ref().map_or(2, kind);
            });
            if made == 0 {
                return None;
            }
            figures.add(of_step, entries);
        }
        figures.cells = machine.state().cells.len() - figures.cells_before;
        Some(figures)
    }

    fn add(&mut self, kind: u8, entries: usize) {
        let place = KINDS.iter().position(|(known, _)| *known == kind);
        self.kinds[place.expect("a kind of statement")] += 1;
        self.steps += 1;
        self.entries += entries;
        self.most_entries = self.most_entries.max(entries);
    }

    /// The figures of all runs of a set.
    pub fn of_set(set: &Set) -> Figures {
        let mut sum = Figures::default();
        for run in &set.runs {
            let figures = Figures::of(run).expect("it has so many steps");
            sum.steps += figures.steps;
            sum.entries += figures.entries;
            sum.most_entries = sum.most_entries.max(figures.most_entries);
            sum.cells_before += figures.cells_before;
            sum.cells += figures.cells;
            for (all, steps) in sum.kinds.iter_mut().zip(figures.kinds) {
                *all += steps;
            }
        }
        sum
    }

    /// So many of a hundred steps.
    pub fn share(&self, steps: u64) -> f64 {
        100.0 * steps as f64 / self.steps as f64
    }

    /// The kinds with one of a hundred steps or more.
    pub fn frequent_kinds(&self) -> usize {
        let shares = self.kinds.iter().map(|&steps| self.share(steps));
        shares.filter(|&share| share >= 1.0).count()
    }

    pub fn mean_entries(&self) -> f64 {
        self.entries as f64 / self.steps as f64
    }
}
