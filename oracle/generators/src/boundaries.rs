//! Every boundary of document 01 on both sides, each with the number that the call must answer.

mod annotation;
mod answer;
mod form;
mod output;
mod reading;
mod scope;
pub mod sizes;

use crate::build;
use reference::oracle::{Answer, Oracle};
use reference::syntax::Prog;

/// One of the four calls.
#[derive(Debug, Clone, Copy, PartialEq, Eq)]
pub enum Call {
    Read,
    Check,
    Linearize { room: usize },
    Annotate { record: usize, room: usize },
}

impl Call {
    /// The bytes of the lent output buffer.
    pub fn room(self) -> usize {
        match self {
            Call::Read | Call::Check => 0,
            Call::Linearize { room } | Call::Annotate { room, .. } => room,
        }
    }

    /// What the oracle answers, and leaves in the buffer.
    pub fn ask(self, oracle: &Oracle, out: &mut [u8]) -> Answer {
        match self {
            Call::Read => oracle.read(),
            Call::Check => oracle.check(),
            Call::Linearize { .. } => oracle.linearize(out),
            Call::Annotate { record, .. } => oracle.annotate(record, out),
        }
    }
}

/// A boundary: what it is, an image, a call on it, and the number of the answer.
pub struct Boundary {
    pub what: String,
    pub image: Vec<u8>,
    pub call: Call,
    pub number: u8,
}

pub fn all() -> Vec<Boundary> {
    let mut table = Table::default();
    reading::rows(&mut table);
    form::rows(&mut table);
    scope::rows(&mut table);
    answer::rows(&mut table);
    annotation::rows(&mut table);
    sizes::rows(&mut table);
    output::rows(&mut table);
    table.0
}

/// The largest room that any accepted answer needs.
const ROOM: usize = 65_535;
const LINEARIZE: Call = Call::Linearize { room: ROOM };

#[derive(Default)]
struct Table(Vec<Boundary>);

impl Table {
    fn image(&mut self, what: &str, image: Vec<u8>, call: Call, number: u8) {
        self.0.push(Boundary {
            what: what.to_string(),
            image,
            call,
            number,
        });
    }

    fn prog(&mut self, what: &str, prog: &Prog, call: Call, number: u8) {
        self.image(what, build::image(prog), call, number);
    }

    fn read(&mut self, what: &str, prog: &Prog, number: u8) {
        self.prog(what, prog, Call::Read, number);
    }

    /// The scope check and, with room enough, linearization answer the same number; annotation too, if
    /// it asks that question.
    fn check(&mut self, what: &str, prog: &Prog, number: u8) {
        self.prog(what, prog, Call::Check, number);
        self.prog(what, prog, LINEARIZE, number);
        if let 6 | 7 = number {
            let call = Call::Annotate { record: 0, room: 4 };
            self.prog(what, prog, call, number);
        }
    }
}
