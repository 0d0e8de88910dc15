//! The accepted programs among the cases, and what they hold.

use reference::image::{Record, order};
use reference::oracle::Oracle;

/// The programs that linearization, given enough buffer, answers with 0, and those of them that hold
/// a PrintI64 and an Exit.
#[derive(Debug, Clone, Copy, Default, PartialEq, Eq)]
pub struct Accepted {
    pub programs: u64,
    pub with_print: u64,
    pub with_exit: u64,
}

impl Accepted {
    pub fn count(&mut self, oracle: &Oracle) {
        let (Ok(_), Ok(program)) = (oracle.needed(), oracle.program()) else {
            return;
        };
        let records = order::records(program);
        let holds = |is: fn(&Record) -> bool| u64::from(records.iter().any(is));
        self.programs += 1;
        self.with_print += holds(|record| matches!(record, Record::PrintI64 { .. }));
        self.with_exit += holds(|record| matches!(record, Record::Exit { .. }));
    }

    pub fn add(&mut self, other: Accepted) {
        self.programs += other.programs;
        self.with_print += other.with_print;
        self.with_exit += other.with_exit;
    }

    /// So many of a hundred accepted programs hold a PrintI64, and an Exit.
    pub fn shares(&self) -> [f64; 2] {
        let share = |some: u64| 100.0 * some as f64 / self.programs.max(1) as f64;
        [share(self.with_print), share(self.with_exit)]
    }
}
