//! What is printed of the steppers.

use super::calls::Calls;
use super::figures::{Figures, KINDS};
use super::floor;
use super::machines::values;
use super::rounds::{Path, Timed};
use super::runs::{Run, Scale, Set};
use crate::rounds::Times;
use crate::stack::Stack;
use crate::table::Table;

pub struct Report {
    pub markdown: bool,
}

impl Report {
    /// What the runs of all statements are like.
    pub fn runs(&self, sets: &[Set]) {
        let mut table = Table::new(&[
            "runs, machine",
            "runs",
            "records",
            "steps",
            "entries (most)",
            "cells / 100 steps",
        ]);
        let mut heads = vec!["of 100 steps"];
        heads.extend(KINDS.iter().map(|(_, name)| name));
        let mut kinds = Table::new(&heads);
        for set in sets {
            let figures = Figures::of_set(set);
            let records: usize = set.runs.iter().map(Run::records).sum();
            table.row(vec![
                set.to_string(),
                set.runs.len().to_string(),
                format!("{:.1}", records as f64 / set.runs.len() as f64),
                figures.steps.to_string(),
                format!("{:.1} ({})", figures.mean_entries(), figures.most_entries),
                format!("{:.0}", figures.share(figures.cells as u64)),
            ]);
            let mut row = vec![set.to_string()];
            let shares = figures.kinds.iter().map(|&steps| figures.share(steps));
            row.extend(shares.map(|share| format!("{share:.0}")));
            kinds.row(row);
        }
        table.print(self.markdown);
        kinds.print(self.markdown);
    }

    /// The library's call, the oracle's machine with its events as bytes, and the machine alone.
    pub fn times(&self, sets: &[Set], timed: &[Timed]) {
        self.ratios("ns a step", sets, timed, Times::least);
    }

    /// The same by the medians of the rounds.
    pub fn medians(&self, sets: &[Set], timed: &[Timed]) {
        self.ratios("ns a step, medians", sets, timed, Times::median);
    }

    fn ratios(&self, head: &str, sets: &[Set], timed: &[Timed], time: fn(&Times) -> u64) {
        let mut table = Table::new(&[
            head,
            "(a) library",
            "(b) oracle's machine, events as bytes",
            "(c) oracle's machine",
            "b/a",
            "c/a",
        ]);
        for (set, timed) in sets.iter().zip(timed) {
            let ns = |path: Path| timed.per_step(time(timed.of(path)));
            let library = ns(Path::Step);
            table.row(vec![
                set.to_string(),
                format!("{library:.1}"),
                format!("{:.1}", ns(Path::Shown)),
                format!("{:.1}", ns(Path::Machine)),
                format!("{:.2}", ns(Path::Shown) / library),
                format!("{:.2}", ns(Path::Machine) / library),
            ]);
        }
        table.print(self.markdown);
    }

    /// The library's steps in stores with many cells, without what a call takes for no step.
    pub fn cells(&self, scale: &Scale, sets: &[Set], timed: &[Timed]) {
        let mut heads = vec!["ns a step".to_string()];
        heads.extend(scale.cells.iter().map(|cells| format!("{cells} cells")));
        heads.push("last / first".to_string());
        let mut table = Table::new(&words(&heads));
        for (set, timed) in sets.iter().zip(timed) {
            let steps = steps_alone(set, timed);
            let mut row = vec![set.to_string()];
            row.extend(steps.iter().map(|ns| format!("{ns:.1}")));
            row.push(format!("{:.2}", steps[steps.len() - 1] / steps[0]));
            table.row(row);
        }
        table.print(self.markdown);
    }

    /// What a call takes for no step with these stores, and how much of it each slot takes.
    pub fn stores(&self, scale: &Scale, sets: &[Set], timed: &[Timed]) {
        let mut heads = vec!["ns a call for no step".to_string()];
        heads.extend(scale.cells.iter().map(|cells| format!("{cells} cells")));
        heads.push("slots, last".to_string());
        heads.push("ns a slot".to_string());
        let mut table = Table::new(&words(&heads));
        for (set, timed) in sets.iter().zip(timed) {
            let times = timed.of(Path::Nothing);
            let last = set.runs.len() - 1;
            let more = timed.slots[last] - timed.slots[0];
            let longer = times.least_of(last).saturating_sub(times.least_of(0));
            let mut row = vec![set.to_string()];
            row.extend((0..=last).map(|place| times.least_of(place).to_string()));
            row.push(timed.slots[last].to_string());
            row.push(format!("{:.2}", longer as f64 / more as f64));
            table.row(row);
        }
        table.print(self.markdown);
    }

    /// Steps with many entries, without what a call takes for no step, and those of the oracle's machine.
    /// A step that is linear in the entries has the same in the last two columns.
    pub fn entries(&self, scale: &Scale, sets: &[Set], timed: &[Timed]) {
        let alone: Vec<Vec<f64>> = sets
            .iter()
            .zip(timed)
            .map(|(set, timed)| steps_alone(set, timed))
            .collect();
        self.by_entries("library, ns a step by entries", scale, sets, &alone);
        let machine: Vec<Vec<f64>> = sets
            .iter()
            .zip(timed)
            .map(|(set, timed)| {
                let times = timed.of(Path::Machine);
                each_run(set, |place| times.least_of(place))
            })
            .collect();
        self.by_entries("oracle's machine, by entries", scale, sets, &machine);
    }

    fn by_entries(&self, head: &str, scale: &Scale, sets: &[Set], steps: &[Vec<f64>]) {
        let counts = scale.entries;
        let (last, middle) = (counts.len() - 1, counts.len() / 2);
        let mut heads = vec![head.to_string()];
        heads.extend(counts.iter().map(u32::to_string));
        heads.push(format!("an entry, {} to {}", counts[0], counts[middle]));
        heads.push(format!("an entry, {} to {}", counts[middle], counts[last]));
        let mut table = Table::new(&words(&heads));
        for (set, steps) in sets.iter().zip(steps) {
            let each = |from: usize, to: usize| {
                (steps[to] - steps[from]) / f64::from(counts[to] - counts[from])
            };
            let mut row = vec![set.to_string()];
            row.extend(steps.iter().map(|ns| format!("{ns:.1}")));
            row.push(format!("{:.2}", each(0, middle)));
            row.push(format!("{:.2}", each(middle, last)));
            table.row(row);
        }
        table.print(self.markdown);
    }

    /// What the writing of a step alone takes, by entries.
    pub fn floor(&self, scale: &Scale, rounds: usize) {
        let mut heads = vec!["ns a step".to_string()];
        heads.extend(scale.entries.iter().map(u32::to_string));
        let mut table = Table::new(&words(&heads));
        let mut row = vec!["writing alone, by entries".to_string()];
        let times = scale.entries.iter();
        row.extend(
            times.map(|&entries| format!("{:.1}", floor::per_step(entries as usize, rounds))),
        );
        table.row(row);
        table.print(self.markdown);
    }

    /// What a start and a call for no step take, by the records of the image.
    pub fn calls(&self, sets: &[Set], timed: &[Timed]) {
        let mut table = Table::new(&[
            "images, machine",
            "records",
            "start, ns a record",
            "no step, ns a record",
            "start, ns a call",
            "no step, ns a call",
        ]);
        for (set, timed) in sets.iter().zip(timed) {
            let calls = set.runs.len() as f64;
            let records: usize = set.runs.iter().map(Run::records).sum();
            let (start, nothing) = (timed.of(Path::Start), timed.of(Path::Nothing));
            let (start, nothing) = (start.least() as f64, nothing.least() as f64);
            table.row(vec![
                set.to_string(),
                format!("{:.1}", records as f64 / calls),
                format!("{:.0}", start / records as f64),
                format!("{:.0}", nothing / records as f64),
                format!("{:.0}", start / calls),
                format!("{:.0}", nothing / calls),
            ]);
        }
        table.print(self.markdown);
    }

    /// The most stack that a start and a call for steps use in each set, the sets of both machines in turn.
    pub fn stack(&self, calls: &mut Calls, sets: &[Set]) {
        let mut stack = Stack::new();
        let mut table = Table::new(&[
            "stack, bytes",
            "axcut_source_start",
            "axcut_source_step",
            "axcut_linear_start",
            "axcut_linear_step",
        ]);
        for both in sets.chunks(2) {
            let mut row = vec![both[0].name.clone()];
            for set in both {
                let used = set.runs.iter().map(|run| used(&mut stack, calls, run));
                let most = used.fold([0; 2], |most, used| {
                    [most[0].max(used[0]), most[1].max(used[1])]
                });
                row.extend(most.map(|bytes| bytes.to_string()));
            }
            table.row(row);
        }
        table.print(self.markdown);
    }
}

fn words(heads: &[String]) -> Vec<&str> {
    heads.iter().map(String::as_str).collect()
}

/// ns for each step of each run.
fn each_run(set: &Set, time: impl Fn(usize) -> u64) -> Vec<f64> {
    let runs = set.runs.iter().enumerate();
    runs.map(|(place, run)| time(place) as f64 / run.steps as f64)
        .collect()
}

/// The same of the library's calls, without what they take for no step.
fn steps_alone(set: &Set, timed: &Timed) -> Vec<f64> {
    let (steps, nothing) = (timed.of(Path::Step), timed.of(Path::Nothing));
    each_run(set, |place| {
        steps
            .least_of(place)
            .saturating_sub(nothing.least_of(place))
    })
}

/// The stack of a start and of the steps.
fn used(stack: &mut Stack, calls: &mut Calls, run: &Run) -> [usize; 2] {
    let values = values(run);
    [
        stack.used(|| calls.start(run, &values)),
        stack.used(|| calls.step(run, run.steps)),
    ]
}
