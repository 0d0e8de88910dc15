//! A slot: 16 bytes of a store, of an event's argument values, and of a start's values.

/// The bytes of a slot.
pub const SLOT: usize = 16;

pub mod sort {
    //! What a slot is.

    pub const INTEGER: u8 = 0;
    pub const CELL: u8 = 1;
    pub const OUTSIDE: u8 = 2;
    /// The own slot of a cell that a Let made, and of one that a Create made.
    pub const LET: u8 = 3;
    pub const CREATE: u8 = 4;
}

/// A slot whose spare bytes are zero.
#[derive(Debug, Clone, Copy, PartialEq, Eq)]
pub struct Slot {
    pub sort: u8,
    /// Bytes 4 to 7: an ID, a tag, or the place of a record.
    pub word: u32,
    /// Bytes 8 to 15: an integer, the place of a slot, an outside number, or the number of a cell.
    pub long: u64,
}

impl Slot {
    /// `None` where a spare byte is not zero.
    pub fn read(bytes: &[u8]) -> Option<Slot> {
        let bytes: &[u8; SLOT] = bytes.try_into().expect("16 bytes");
        let [sort, spare @ .., _, _, _, _, _, _, _, _, _, _, _, _] = bytes;
        (*spare == [0; 3]).then(|| Slot {
            sort: *sort,
            word: u32::from_le_bytes(*bytes[4..].first_chunk().expect("4 bytes")),
            long: u64::from_le_bytes(*bytes[8..].first_chunk().expect("8 bytes")),
        })
    }

    pub fn write(self, out: &mut Vec<u8>) {
        out.extend([self.sort, 0, 0, 0]);
        out.extend(self.word.to_le_bytes());
        out.extend(self.long.to_le_bytes());
    }

    /// Whether it is the own slot of a cell.
    pub fn is_cell(self) -> bool {
        matches!(self.sort, sort::LET | sort::CREATE)
    }
}
