//! The thirteen questions. "The first no over the whole image decides." Questions 1 to 4 are asked
//! in `image::frame`, 5 in `image::order`, 6 to 10 here, 11 to 13 in `oracle`.

mod binders;
mod limits;
mod max_id;
mod plain;
mod scope;
mod uses;

pub use limits::Limits;

use crate::syntax::Prog;

/// The question that was answered with no.
#[derive(Debug, Clone, Copy, PartialEq, Eq, PartialOrd, Ord)]
#[repr(u8)]
pub enum Question {
    Length = 1,
    Layout = 2,
    Tiling = 3,
    Records = 4,
    Order = 5,
    Plain = 6,
    Limits = 7,
    Binders = 8,
    Uses = 9,
    MaxId = 10,
    Fresh = 11,
    Room = 12,
    Annotated = 13,
}

impl Question {
    pub const LAST: u8 = Question::Annotated.number();

    /// "The number for no."
    pub const fn number(self) -> u8 {
        self as u8
    }
}

/// Questions 6 and 7.
pub fn source_form(prog: &Prog) -> Result<(), Question> {
    ask(Question::Plain, plain::plain(prog))?;
    ask(Question::Limits, limits::within(prog))
}

/// Questions 8 to 10.
pub fn scoped(prog: &Prog) -> Result<(), Question> {
    ask(Question::Binders, binders::new(prog))?;
    ask(Question::Uses, uses::in_scope(prog))?;
    ask(Question::MaxId, max_id::at_least_binders(prog))
}

pub fn ask(question: Question, answer: bool) -> Result<(), Question> {
    if answer { Ok(()) } else { Err(question) }
}
