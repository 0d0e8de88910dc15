//! All sessions, on some threads.

use super::images::Images;
use super::report::Report;
use super::session::{CALLS, Worker};
use super::subject::Steppers;
use crate::fault;

use std::sync::atomic::{AtomicU64, Ordering};
use std::thread;

/// The oracle needs more than a thread has at first.
const STACK: usize = 16 << 20;

/// Which sessions.
#[derive(Debug, Clone, Default)]
pub struct Sessions {
    pub seed: u64,
    pub first: u64,
    /// There are as many sessions as so many calls need.
    pub calls: u64,
    /// The image of all of them, in place of generated ones.
    pub image: Option<Vec<u8>>,
}

pub fn run(subject: Steppers, sessions: &Sessions, threads: usize) -> Report {
    let images = Images::new(sessions.image.clone());
    let end = sessions.first + sessions.calls.div_ceil(CALLS);
    let next = AtomicU64::new(sessions.first);
    let mut report = Report::default();
    thread::scope(|scope| {
        let (images, next) = (&images, &next);
        let workers: Vec<_> = (0..threads)
            .map(|thread| {
                let work = move || {
                    let mut worker = Worker::new(subject, images, sessions.seed);
                    loop {
                        let session = next.fetch_add(1, Ordering::Relaxed);
                        if session >= end {
                            return worker.report;
                        }
                        fault::begins(thread, session);
                        worker.session(session);
                    }
                };
                thread::Builder::new()
                    .stack_size(STACK)
                    .spawn_scoped(scope, work)
                    .expect("a thread")
            })
            .collect();
        for worker in workers {
            report.add(worker.join().expect("no panic"));
        }
    });
    report
}
