//! Every change of one byte in two images that hold every kind of record.

use crate::build::{
    call, clause, create, exit, ext, ifc, image, invoke, let_, literal, one, op, print_i64, switch,
};
use reference::oracle::Oracle;
use reference::syntax::{BinOp, Prog};

/// Every kind of record: definition 0, Literal 1, Op 2, PrintI64 3, Let 4, Create 5, clause 6, Call
/// 7, IfC 8, Switch 9, clause 10, Exit 11, Invoke 12.
pub fn every_kind() -> Prog {
    let clauses = |body| vec![clause(1, vec![ext(6)], body)];
    let switched = switch(4, clauses(exit(1)));
    let branches = ifc(1, Some(2), switched, invoke(5, vec![ext(3)]));
    let closure = create(5, clauses(call(vec![ext(1)])), branches);
    let shown = print_i64(true, 3, let_(4, vec![ext(1)], closure));
    let body = literal(1, 2, op(1, BinOp::Sum, 2, 3, shown));
    one(9, vec![ext(1)], body)
}

/// The images of one byte changed, by number.
pub struct Changes {
    bases: [Vec<u8>; 2],
}

impl Changes {
    /// Of the program above, and of what the pass gives for it: that has Substitutes and an
    /// environment.
    pub fn new() -> Changes {
        let source = image(&every_kind());
        let oracle = Oracle::new(&source);
        let linear = image(oracle.linearized().expect("a yes to 1 to 10"));
        Changes {
            bases: [source, linear],
        }
    }

    pub fn count(&self) -> usize {
        self.bases.iter().map(|base| 256 * base.len()).sum()
    }

    /// The image of that number, if there is one.
    pub fn image(&self, number: usize) -> Option<Vec<u8>> {
        let mut at = number / 256;
        for base in &self.bases {
            if at < base.len() {
                let mut changed = base.clone();
                changed[at] = (number % 256) as u8;
                return Some(changed);
            }
            at -= base.len();
        }
        None
    }
}

impl Default for Changes {
    fn default() -> Self {
        Self::new()
    }
}
