//! Refusals: the questions and their words.

use std::error::Error;
use std::fmt;

/// Why a call was refused: the question whose answer is no. The first no over the whole image decides.
#[derive(Debug, Clone, Copy, PartialEq, Eq, Hash, PartialOrd, Ord)]
#[repr(u32)]
pub enum Refusal {
    /// Has it 8 to 65,535 bytes?
    Size = 1,
    /// Is the layout number 1?
    LayoutNumber = 2,
    /// Is N at most 4,000, and do the pairs tile the bytes from 8 + 4 × N to the end?
    Directory = 3,
    /// Is each record of kind 1 to 13, of exactly its length, every count at most 128, every code,
    /// mark and newline byte in range, I64's four bytes zero?
    RecordForm = 4,
    /// Are the records D definitions in pre-order, at most 128 statements deep?
    Shape = 5,
    /// Is it free of Substitute and of environments?
    Linearized = 6,
    /// Are there at most 2,000 records, depth 64, counts 32, and 64 bindings in scope, repeats counted?
    Limits = 7,
    /// Does each binder take an ID not in scope there and not earlier in its list?
    Binders = 8,
    /// Is each variable used in scope?
    Scope = 9,
    /// Is max_id at least every binder's ID?
    MaxId = 10,
    /// Is max_id plus the fresh IDs that the rules draw at most 65,535?
    Draws = 11,
    /// Does the answer fit the lent buffer, an image also 65,535 bytes?
    Room = 12,
    /// Is the record below N and one with an annotation (Let, Switch, Create, Literal, Op, PrintI64)?
    Place = 13,
    /// Of a start: is there such a definition, and is there for each of its parameters an integer or an
    /// outside number up to 255? Of steps: is the store a state of this image, of 64 bytes or more?
    State = 14,
    /// Does the first state fit the store, or the state after the next step the store and its event what
    /// is left of the event buffer?
    Space = 15,
}

/// Each question with its words, in the order of the numbers.
const QUESTIONS: [(Refusal, &str); 15] = [
    (Refusal::Size, "Has it 8 to 65,535 bytes?"),
    (Refusal::LayoutNumber, "Is the layout number 1?"),
    (
        Refusal::Directory,
        "Is N at most 4,000, and do the pairs tile the bytes from 8 + 4 × N to the end?",
    ),
    (
        Refusal::RecordForm,
        "Is each record of kind 1 to 13, of exactly its length, every count at most 128, every code, mark and newline byte in range, I64's four bytes zero?",
    ),
    (
        Refusal::Shape,
        "Are the records D definitions in pre-order, at most 128 statements deep?",
    ),
    (
        Refusal::Linearized,
        "Is it free of Substitute and of environments?",
    ),
    (
        Refusal::Limits,
        "Are there at most 2,000 records, depth 64, counts 32, and 64 bindings in scope, repeats counted?",
    ),
    (
        Refusal::Binders,
        "Does each binder take an ID not in scope there and not earlier in its list?",
    ),
    (Refusal::Scope, "Is each variable used in scope?"),
    (Refusal::MaxId, "Is max_id at least every binder's ID?"),
    (
        Refusal::Draws,
        "Is max_id plus the fresh IDs that the rules draw at most 65,535?",
    ),
    (
        Refusal::Room,
        "Does the answer fit the lent buffer, an image also 65,535 bytes?",
    ),
    (
        Refusal::Place,
        "Is the record below N and one with an annotation (Let, Switch, Create, Literal, Op, PrintI64)?",
    ),
    (
        Refusal::State,
        "Of a start: is there such a definition, and is there for each of its parameters an integer or an outside number up to 255? Of steps: is the store a state of this image, of 64 bytes or more?",
    ),
    (
        Refusal::Space,
        "Does the first state fit the store, or the state after the next step the store and its event what is left of the event buffer?",
    ),
];

impl Refusal {
    /// The number for no.
    pub fn number(self) -> u32 {
        self as u32
    }

    /// The refusal with this number.
    pub fn of_number(number: u32) -> Option<Refusal> {
        let mut refusals = QUESTIONS.iter().map(|&(refusal, _)| refusal);
        refusals.find(|refusal| refusal.number() == number)
    }
}

impl fmt::Display for Refusal {
    fn fmt(&self, f: &mut fmt::Formatter) -> fmt::Result {
        let (_, words) = QUESTIONS[self.number() as usize - 1];
        write!(f, "refused {}: {words}", self.number())
    }
}

impl Error for Refusal {}
