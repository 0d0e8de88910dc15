//! What the comparison came to.

use stepper::Machine;

/// The numbers of the answers, 0 to 15.
pub const NUMBERS: usize = 16;
/// Mismatches beyond these are counted only.
const REPORTED: usize = 10;

#[derive(Debug, Default)]
pub struct Report {
    pub sessions: u64,
    pub calls: u64,
    /// The calls by the oracle's number: starts and steps of the source machine, of the linear one.
    pub answers: [[u64; NUMBERS]; 4],
    /// Steps made and event bytes written, those of calls on forged stores too.
    pub steps: u64,
    pub event_bytes: u64,
    /// Calls on forged stores that were not refused, and all of them.
    pub forged: [u64; 2],
    /// Calls after which the run had ended, had stopped, or was stuck.
    pub ends: [u64; 3],
    pub mismatches: u64,
    pub first: Vec<String>,
    pub smallest: Option<Failing>,
}

/// A call that the subject answered otherwise.
#[derive(Debug)]
pub struct Failing {
    pub session: u64,
    pub image: Vec<u8>,
    /// The store before the call.
    pub store: Vec<u8>,
    pub what: String,
}

impl Report {
    pub fn count(&mut self, machine: Machine, start: bool, number: u8) {
        let row = 2 * usize::from(machine == Machine::Linear) + usize::from(!start);
        self.calls += 1;
        self.answers[row][usize::from(number)] += 1;
    }

    pub fn mismatch(&mut self, failing: Failing) {
        self.mismatches += 1;
        if self.first.len() < REPORTED {
            let line = format!("session {}, {}", failing.session, failing.what);
            self.first.push(line);
        }
        self.keep_smallest(failing);
    }

    fn keep_smallest(&mut self, failing: Failing) {
        let size = |failing: &Failing| failing.image.len() + failing.store.len();
        let smaller = |smallest: &Failing| size(&failing) < size(smallest);
        if self.smallest.as_ref().is_none_or(smaller) {
            self.smallest = Some(failing);
        }
    }

    pub fn add(&mut self, other: Report) {
        self.sessions += other.sessions;
        self.calls += other.calls;
        let others = other.answers.as_flattened().iter();
        for (all, more) in self.answers.as_flattened_mut().iter_mut().zip(others) {
            *all += more;
        }
        self.steps += other.steps;
        self.event_bytes += other.event_bytes;
        for (all, more) in self.forged.iter_mut().zip(other.forged) {
            *all += more;
        }
        for (all, more) in self.ends.iter_mut().zip(other.ends) {
            *all += more;
        }
        self.mismatches += other.mismatches;
        self.first.extend(other.first);
        self.first.truncate(REPORTED);
        if let Some(failing) = other.smallest {
            self.keep_smallest(failing);
        }
    }
}
