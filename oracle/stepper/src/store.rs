//! A state as bytes, and question 14 of a store.

use crate::program::Program;
use crate::slot::{SLOT, Slot, sort};
use crate::state::{Cell, Entry, HEADER, State, Value};

/// The state's bytes.
pub fn bytes(state: &State) -> Vec<u8> {
    let places = places(&state.cells);
    let reference = |value: Value| match value {
        Value::Cell(number) => places[number],
        Value::Integer(_) | Value::Outside(_) => 0,
    };
    let of_cells: usize = state.cells.iter().map(Cell::slots).sum();
    let mut out = Vec::with_capacity(state.size());
    out.extend(word(state.position).to_le_bytes());
    out.extend([state.ended.into(), state.stopped.into(), 0, 0]);
    for count in [state.cells.len(), of_cells, state.entries.len()] {
        out.extend((count as u64).to_le_bytes());
    }
    out.resize(HEADER, 0);
    for (number, cell) in state.cells.iter().enumerate() {
        let (sort, word) = match cell {
            Cell::Let { tag, .. } => (sort::LET, u32::from(*tag)),
            Cell::Create { place, .. } => (sort::CREATE, word(*place)),
        };
        let long = number as u64;
        Slot { sort, word, long }.write(&mut out);
        match cell {
            Cell::Let { values, .. } => {
                for &value in values {
                    value_slot(0, value, reference(value)).write(&mut out);
                }
            }
            Cell::Create { entries, .. } => {
                for entry in entries {
                    value_slot(entry.id, entry.value, reference(entry.value)).write(&mut out);
                }
            }
        }
    }
    for entry in &state.entries {
        value_slot(entry.id, entry.value, reference(entry.value)).write(&mut out);
    }
    out
}

/// The slot of a value under that ID; a cell is given by that number.
pub fn value_slot(id: u32, value: Value, cell: u64) -> Slot {
    let (sort, long) = match value {
        Value::Integer(integer) => (sort::INTEGER, integer as u64),
        Value::Cell(_) => (sort::CELL, cell),
        Value::Outside(number) => (sort::OUTSIDE, number.into()),
    };
    Slot {
        sort,
        word: id,
        long,
    }
}

/// For each cell the place of its own slot, counted in slots from byte 64.
fn places(cells: &[Cell]) -> Vec<u64> {
    let before = |place: &mut u64, cell: &Cell| {
        let own = *place;
        *place += cell.slots() as u64;
        Some(own)
    };
    cells.iter().scan(0, before).collect()
}

fn word(place: usize) -> u32 {
    u32::try_from(place).expect("an image has fewer records")
}

/// Question 14 of a store: the state that it holds, or `None` for a no.
pub fn state(program: &Program, store: &[u8]) -> Option<State> {
    let header = Header::read(program, store)?;
    let slots: Vec<Slot> = store[HEADER..]
        .chunks_exact(SLOT)
        .take(header.slots + header.entries)
        .map(Slot::read)
        .collect::<Option<_>>()?;
    let (of_cells, entries) = slots.split_at(header.slots);
    let cells = Cells {
        of_cells,
        starts: (0..of_cells.len())
            .filter(|&place| of_cells[place].is_cell())
            .collect(),
    };
    if cells.starts.len() as u64 != header.cells {
        return None;
    }
    Some(State {
        position: header.position,
        ended: header.ended,
        stopped: header.stopped,
        cells: cells.all(program)?,
        entries: cells.entries(entries)?,
    })
}

struct Header {
    position: usize,
    ended: bool,
    stopped: bool,
    cells: u64,
    slots: usize,
    entries: usize,
}

impl Header {
    fn read(program: &Program, store: &[u8]) -> Option<Header> {
        let header: &[u8; HEADER] = store.first_chunk()?;
        let long = |at: usize| u64::from_le_bytes(*header[at..].first_chunk().expect("8 bytes"));
        let position = u32::from_le_bytes(*header.first_chunk().expect("4 bytes")) as usize;
        let room = ((store.len() - HEADER) / SLOT) as u64;
        let (slots, entries) = (long(16), long(24));
        let zero = header[6..8]
            .iter()
            .chain(&header[32..])
            .all(|&byte| byte == 0);
        // a sum of both could wrap
        let inside = slots <= room && entries <= room - slots;
        (zero && inside && program.is_statement(position)).then_some(Header {
            position,
            ended: flag(header[4])?,
            stopped: flag(header[5])?,
            cells: long(8),
            slots: slots as usize,
            entries: entries as usize,
        })
    }
}

fn flag(byte: u8) -> Option<bool> {
    match byte {
        0 => Some(false),
        1 => Some(true),
        _ => None,
    }
}

/// The slots of cells, and where each cell begins.
struct Cells<'a> {
    of_cells: &'a [Slot],
    starts: Vec<usize>,
}

impl Cells<'_> {
    fn all(&self, program: &Program) -> Option<Vec<Cell>> {
        // what stands before the first cell belongs to none
        if self.starts.first().unwrap_or(&self.of_cells.len()) != &0 {
            return None;
        }
        (0..self.starts.len())
            .map(|number| self.cell(program, number))
            .collect()
    }

    fn cell(&self, program: &Program, number: usize) -> Option<Cell> {
        let start = self.starts[number];
        let end = *self.starts.get(number + 1).unwrap_or(&self.of_cells.len());
        let own = self.of_cells[start];
        let entries = self.entries(&self.of_cells[start + 1..end])?;
        if own.long != number as u64 {
            return None;
        }
        if own.sort == sort::CREATE {
            let place = own.word as usize;
            return program
                .is_create(place)
                .then_some(Cell::Create { place, entries });
        }
        let tag = u16::try_from(own.word).ok()?;
        let without_id = |entry: Entry| (entry.id == 0).then_some(entry.value);
        let values: Option<Vec<Value>> = entries.into_iter().map(without_id).collect();
        Some(Cell::Let {
            tag,
            values: values?,
        })
    }

    fn entries(&self, slots: &[Slot]) -> Option<Vec<Entry>> {
        slots.iter().map(|&slot| self.entry(slot)).collect()
    }

    fn entry(&self, slot: Slot) -> Option<Entry> {
        let value = match slot.sort {
            sort::INTEGER => Value::Integer(slot.long as i64),
            sort::CELL => {
                let place = usize::try_from(slot.long).ok()?;
                Value::Cell(self.starts.binary_search(&place).ok()?)
            }
            sort::OUTSIDE => Value::Outside(u8::try_from(slot.long).ok()?),
            _ => return None,
        };
        Some(Entry {
            id: slot.word,
            value,
        })
    }
}
