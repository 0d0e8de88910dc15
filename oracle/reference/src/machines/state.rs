//! Values, cells and states, and what a start gives.

use crate::syntax::{Clause, Id, Name, Statement};

/// "A value is an i64, a cell number or an outside number (0 to 255)."
#[derive(Debug, Clone, Copy, PartialEq, Eq)]
pub enum Value {
    Int(i64),
    Cell(usize),
    Outside(u8),
}

/// IDs with their values: the source machine's environment, and the linear machine's ordered list.
pub type Entries = Vec<(Id, Value)>;

/// "Cells are numbered from 0; each Let (tag, values) and Create makes one."
#[derive(Debug, Clone)]
pub enum Cell<'a> {
    Xtor {
        tag: Name,
        fields: Vec<Value>,
    },
    Closure {
        entries: Entries,
        clauses: &'a [Clause],
    },
}

/// A machine's state. It keeps its entries and cells when the run has ended.
#[derive(Debug, Clone)]
pub struct State<'a> {
    pub at: &'a Statement,
    pub entries: Entries,
    pub cells: Vec<Cell<'a>>,
    pub ended: bool,
}

impl<'a> State<'a> {
    pub fn new(at: &'a Statement, entries: Entries) -> State<'a> {
        State {
            at,
            entries,
            cells: Vec::new(),
            ended: false,
        }
    }

    /// Makes a cell and answers its number.
    pub fn make(&mut self, cell: Cell<'a>) -> usize {
        self.cells.push(cell);
        self.cells.len() - 1
    }
}

/// "One integer or outside number for each parameter."
#[derive(Debug, Clone, Copy, PartialEq, Eq)]
pub enum Given {
    Int(i64),
    Outside(u8),
}

impl From<Given> for Value {
    fn from(given: Given) -> Value {
        match given {
            Given::Int(number) => Value::Int(number),
            Given::Outside(number) => Value::Outside(number),
        }
    }
}

/// What becomes of a start.
#[derive(Debug, Clone)]
pub enum Start<M> {
    Begun(M),
    /// There is no such definition, or it has another number of parameters.
    NotBegun,
    /// "A start whose parameters repeat an ID has stopped with no step made."
    Stopped,
}
