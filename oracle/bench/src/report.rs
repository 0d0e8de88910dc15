//! What is printed.

use crate::paths::{Path, Runner, STEPS};
use crate::rounds::{Timed, Times};
use crate::sets::{Image, KINDS, Set};
use crate::stack::Stack;
use crate::table::Table;
use crate::worst;
use reference::calls;
use reference::oracle::Oracle;

use std::fs;
use std::thread;

pub struct Report<'a> {
    pub sets: &'a [Set],
    pub markdown: bool,
}

pub fn head(subject: &str, seed: u64, rounds: usize) {
    println!("subject: {subject}");
    println!("machine: {}", machine());
    println!("load before: {}", load());
    println!("seed {seed}, {rounds} rounds");
}

pub fn foot() {
    println!("load after: {}", load());
}

impl Report<'_> {
    /// What the sets are like.
    pub fn sets(&self) {
        let mut table = Table::new(&[
            "set",
            "images",
            "records",
            "bytes",
            "records out",
            "bytes out",
            "context (most)",
            "Substitutes / 100",
            "pairs",
            "depth",
            "clauses on the way",
        ]);
        let mut heads = vec!["of 100 statements"];
        heads.extend(KINDS.iter().map(|(_, name)| name));
        let mut kinds = Table::new(&heads);
        for set in self.sets {
            let figures = set.figures();
            table.row(vec![
                set.name.to_string(),
                figures.images.to_string(),
                format!("{:.1}", figures.records),
                format!("{:.0}", figures.bytes),
                format!("{:.1}", figures.records_out),
                format!("{:.0}", figures.bytes_out),
                format!("{:.1} ({})", figures.context, figures.largest_context),
                format!("{:.0}", figures.substitutes),
                format!("{:.1}", figures.pairs),
                figures.depth.to_string(),
                figures.clauses.to_string(),
            ]);
            let mut row = vec![set.name.to_string()];
            row.extend(figures.kinds.iter().map(|share| format!("{share:.0}")));
            kinds.row(row);
        }
        table.print(self.markdown);
        kinds.print(self.markdown);
    }

    /// The library's whole path, the Rust's, and the Rust's pass alone.
    pub fn times(&self, timed: &[Timed]) {
        let head = "set";
        self.ratios(head, timed, Times::least, |ratio| ratio.0);
    }

    /// The same by the medians of the rounds.
    pub fn medians(&self, timed: &[Timed]) {
        let head = "set, medians";
        self.ratios(head, timed, Times::median, |ratio| ratio.1);
    }

    fn ratios(
        &self,
        head: &str,
        timed: &[Timed],
        time: fn(&Times) -> u64,
        of: fn((f64, f64)) -> f64,
    ) {
        let mut table = Table::new(&[
            head,
            "(a) library",
            "(b) Rust, whole path",
            "(c) Rust, annotate + linearize",
            "b/a",
            "c/a",
        ]);
        for (set, timed) in self.sets.iter().zip(timed) {
            let ns = |path: Path| format!("{:.0}", timed.per_record(time(timed.of(path))));
            let ratio = |path: Path| format!("{:.2}", of(timed.ratio(path)));
            table.row(vec![
                set.name.to_string(),
                ns(Path::Linearize),
                ns(Path::Whole),
                ns(Path::Pass),
                ratio(Path::Whole),
                ratio(Path::Pass),
            ]);
        }
        table.print(self.markdown);
    }

    /// Where the library's time goes, by the difference of its calls.
    pub fn library(&self, timed: &[Timed]) {
        let mut table = Table::new(&[
            "library",
            "axcut_read",
            "axcut_check",
            "axcut_linearize",
            "check - read",
            "linearize - check",
            "c/(linearize - check)",
        ]);
        for (set, timed) in self.sets.iter().zip(timed) {
            let ns = |path: Path| timed.per_record(timed.of(path).least());
            let (read, check) = (ns(Path::Read), ns(Path::Check));
            let linearize = ns(Path::Linearize);
            table.row(vec![
                set.name.to_string(),
                format!("{read:.0}"),
                format!("{check:.0}"),
                format!("{linearize:.0}"),
                format!("{:.0}", check - read),
                format!("{:.0}", linearize - check),
                format!("{:.2}", ns(Path::Pass) / (linearize - check)),
            ]);
        }
        table.print(self.markdown);
    }

    /// The steps of the Rust's whole path.
    pub fn steps(&self, timed: &[Timed]) {
        let mut heads = vec!["Rust, whole path"];
        heads.extend(STEPS);
        heads.push("sum");
        let mut table = Table::new(&heads);
        for (set, timed) in self.sets.iter().zip(timed) {
            let steps = timed.steps.iter().map(Times::least);
            let steps: Vec<f64> = steps.map(|time| timed.per_record(time)).collect();
            let sum: f64 = steps.iter().sum();
            let mut row = vec![set.name.to_string()];
            row.extend(steps.iter().chain([&sum]).map(|step| format!("{step:.0}")));
            table.row(row);
        }
        table.print(self.markdown);
    }

    /// The most stack that a call uses, on each set and on the worst cases.
    pub fn stack(&self, runner: &mut Runner) {
        let mut stack = Stack::new();
        let mut table = Table::new(&[
            "stack, bytes",
            "axcut_read",
            "axcut_check",
            "axcut_annotate",
            "axcut_linearize",
            "Rust, whole path",
        ]);
        let sets = self
            .sets
            .iter()
            .map(|set| (set.name, set.images.as_slice()));
        let worst = worst::all();
        let worst = worst
            .iter()
            .map(|(name, images)| (name.as_str(), images.as_slice()));
        for (name, images) in sets.chain(worst) {
            let mut most = [0; 5];
            for image in images {
                let used = used(&mut stack, runner, image);
                most = std::array::from_fn(|call| used[call].max(most[call]));
            }
            let mut row = vec![name.to_string()];
            row.extend(most.iter().map(usize::to_string));
            table.row(row);
        }
        table.print(self.markdown);
    }
}

fn used(stack: &mut Stack, runner: &mut Runner, image: &Image) -> [usize; 5] {
    let bytes = image.bytes.as_slice();
    let oracle = Oracle::new(bytes);
    let mut records = 0..image.records;
    let annotated = records.find(|&record| oracle.annotation_needed(record).is_ok());
    let record = annotated.unwrap_or(0);
    let mut out = vec![0; image.expected.len()];
    [
        stack.used(|| runner.read(bytes)),
        stack.used(|| runner.check(bytes)),
        stack.used(|| runner.annotate(bytes, record)),
        stack.used(|| runner.linearize(bytes)),
        stack.used(|| calls::linearize(bytes, &mut out)),
    ]
}

fn machine() -> String {
    let cores = thread::available_parallelism().map_or(1, usize::from);
    let cpus = fs::read_to_string("/proc/cpuinfo").unwrap_or_default();
    let model = cpus.lines().find(|line| line.starts_with("model name"));
    let model = model.and_then(|line| line.split(": ").nth(1));
    format!("{}, {cores} cores", model.unwrap_or("unknown"))
}

fn load() -> String {
    let load = fs::read_to_string("/proc/loadavg").unwrap_or_default();
    let averages: Vec<&str> = load.split_whitespace().take(3).collect();
    averages.join(" ")
}
