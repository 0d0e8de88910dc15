//! All cases, on some threads.

use crate::accepted::Accepted;
use crate::compare::{Bench, Mismatch};
use crate::fault;
use crate::subject::Subject;
use generators::boundaries::Call;
use generators::cases::Cases;
use reference::demand3::{End, Watched};
use reference::oracle::Oracle;
use reference::questions::Question;

use std::sync::atomic::{AtomicU64, Ordering};
use std::thread;

/// The largest image and room of any case.
const LARGEST_IMAGE: usize = 65_536;
const LARGEST_ROOM: usize = 2 * 65_535;
/// The library may use 1 MiB of stack, the oracle needs more.
const STACK: usize = 16 << 20;

const NUMBERS: usize = Question::LAST as usize + 1;

#[derive(Debug, Default)]
pub struct Report {
    pub cases: u64,
    /// The calls by the oracle's number: reading, the scope check, linearization, annotation.
    pub answers: [[u64; NUMBERS]; 4],
    /// Runs watched for demand 3, and the events that the two machines showed in them.
    pub runs: u64,
    pub events: u64,
    pub substitutes: u64,
    pub ended: u64,
    pub accepted: Accepted,
    pub mismatches: u64,
    pub first: Vec<String>,
    /// The smallest image with a mismatch, and its case.
    pub smallest: Option<(u64, Vec<u8>)>,
}

/// Mismatches beyond these are counted only.
const REPORTED: usize = 10;

impl Report {
    fn count(&mut self, call: Call, number: u8) {
        let function = match call {
            Call::Read => 0,
            Call::Check => 1,
            Call::Linearize { .. } => 2,
            Call::Annotate { .. } => 3,
        };
        self.answers[function][usize::from(number)] += 1;
    }

    fn mismatch(&mut self, index: u64, image: &[u8], mismatch: Mismatch) {
        self.mismatches += 1;
        if self.first.len() < REPORTED {
            self.first.push(format!(
                "case {index}, {:?}: {}",
                mismatch.call, mismatch.what
            ));
        }
        self.keep_smallest(index, image.to_vec());
    }

    fn watched(&mut self, run: &Watched) {
        self.runs += 1;
        self.events += run.events as u64;
        self.substitutes += run.substitutes as u64;
        self.ended += u64::from(run.end == End::Ended);
    }

    fn keep_smallest(&mut self, index: u64, image: Vec<u8>) {
        let smaller = |(_, smallest): &(u64, Vec<u8>)| image.len() < smallest.len();
        if self.smallest.as_ref().is_none_or(smaller) {
            self.smallest = Some((index, image));
        }
    }

    fn add(&mut self, other: Report) {
        self.cases += other.cases;
        for (all, more) in self
            .answers
            .iter_mut()
            .flatten()
            .zip(other.answers.as_flattened())
        {
            *all += more;
        }
        self.runs += other.runs;
        self.events += other.events;
        self.substitutes += other.substitutes;
        self.ended += other.ended;
        self.accepted.add(other.accepted);
        self.mismatches += other.mismatches;
        self.first.extend(other.first);
        self.first.truncate(REPORTED);
        if let Some((index, image)) = other.smallest {
            self.keep_smallest(index, image);
        }
    }
}

/// The cases from the first one on, each with its calls.
pub fn run(subject: Subject, cases: &Cases, first: u64, count: u64, threads: usize) -> Report {
    let next = AtomicU64::new(first);
    let mut report = Report::default();
    thread::scope(|scope| {
        let workers: Vec<_> = (0..threads)
            .map(|worker| {
                let next = &next;
                let work = move || Worker::new(subject, cases, worker).work(next, first + count);
                thread::Builder::new()
                    .stack_size(STACK)
                    .spawn_scoped(scope, work)
                    .expect("a thread")
            })
            .collect();
        for worker in workers {
            report.add(worker.join().expect("no panic"));
        }
    });
    report
}

struct Worker<'a> {
    number: usize,
    cases: &'a Cases,
    bench: Bench,
    report: Report,
}

impl Worker<'_> {
    fn new(subject: Subject, cases: &Cases, number: usize) -> Worker<'_> {
        Worker {
            number,
            cases,
            bench: Bench::new(subject, LARGEST_IMAGE, LARGEST_ROOM),
            report: Report::default(),
        }
    }

    fn work(mut self, next: &AtomicU64, end: u64) -> Report {
        loop {
            let index = next.fetch_add(1, Ordering::Relaxed);
            if index >= end {
                return self.report;
            }
            fault::begins(self.number, index);
            self.case(index);
        }
    }

    fn case(&mut self, index: u64) {
        self.report.cases += 1;
        let image = self.cases.image(index);
        let oracle = Oracle::new(&image);
        self.report.accepted.count(&oracle);
        let mut rng = self.cases.rng(index);
        let mut watched = false;
        for call in self.cases.calls(index, &oracle) {
            let (answer, mismatch) = self.bench.compare(&mut rng, &image, &oracle, call);
            self.report.count(call, answer.number);
            let linearized = matches!(call, Call::Linearize { .. }) && answer.number == 0;
            if let Some(mismatch) = mismatch {
                self.report.mismatch(index, &image, mismatch);
            } else if linearized && !watched {
                watched = true;
                match self.bench.watch(&mut rng, &oracle, call, answer.length) {
                    Ok(runs) => runs.iter().for_each(|run| self.report.watched(run)),
                    Err(mismatch) => self.report.mismatch(index, &image, mismatch),
                }
            }
        }
    }
}
