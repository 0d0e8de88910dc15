//! A state of either machine.

use crate::slot::SLOT;

/// The bytes of a state without cells and entries.
pub const HEADER: usize = 64;

#[derive(Debug, Clone, Copy, PartialEq, Eq)]
pub enum Value {
    Integer(i64),
    /// A cell by its number.
    Cell(usize),
    Outside(u8),
}

/// An ID and its value. An ID has four bytes here: those of a store may be above the image's.
#[derive(Debug, Clone, Copy, PartialEq, Eq)]
pub struct Entry {
    pub id: u32,
    pub value: Value,
}

#[derive(Debug, Clone, PartialEq, Eq)]
pub enum Cell {
    Let {
        tag: u16,
        values: Vec<Value>,
    },
    /// `place` is the index of the Create's record.
    Create {
        place: usize,
        entries: Vec<Entry>,
    },
}

impl Cell {
    /// The values or entries that it holds.
    fn len(&self) -> usize {
        match self {
            Cell::Let { values, .. } => values.len(),
            Cell::Create { entries, .. } => entries.len(),
        }
    }

    /// The slots that it takes: its own, and those of what it holds.
    pub fn slots(&self) -> usize {
        1 + self.len()
    }
}

/// "The state (position, environment, cells, an ended flag and a stopped flag)."
#[derive(Debug, Clone, PartialEq, Eq)]
pub struct State {
    /// The index of the record of the statement at hand.
    pub position: usize,
    pub ended: bool,
    pub stopped: bool,
    pub cells: Vec<Cell>,
    /// The source machine's environment, the newest list in front; the linear machine's list.
    pub entries: Vec<Entry>,
}

impl State {
    /// "It takes exactly 64 bytes, and 16 for each cell and for each entry of the environment or a
    /// cell."
    pub fn size(&self) -> usize {
        let of_cells: usize = self.cells.iter().map(Cell::slots).sum();
        HEADER + SLOT * (of_cells + self.entries.len())
    }
}
