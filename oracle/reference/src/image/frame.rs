//! The header, the directory, and the records that it cuts out.

use super::{ENTRY_BYTES, HEADER_BYTES, LARGEST, Record, reader, writer};
use crate::questions::Question;

#[derive(Debug, Clone, Copy, PartialEq, Eq)]
pub struct Header {
    pub layout: u16,
    pub definitions: u16,
    pub max_id: u16,
    pub records: u16,
}

impl Header {
    fn read(bytes: &[u8; HEADER_BYTES]) -> Header {
        Header {
            layout: field(bytes, 0),
            definitions: field(bytes, 2),
            max_id: field(bytes, 4),
            records: field(bytes, 6),
        }
    }

    fn write(&self, out: &mut Vec<u8>) {
        for field in [self.layout, self.definitions, self.max_id, self.records] {
            out.extend(field.to_le_bytes());
        }
    }
}

fn field(bytes: &[u8], at: usize) -> u16 {
    u16::from_le_bytes([bytes[at], bytes[at + 1]])
}

/// An image taken apart into its header and its records.
#[derive(Debug, Clone, PartialEq, Eq)]
pub struct Frame {
    pub header: Header,
    pub records: Vec<Record>,
}

impl Frame {
    /// Question 3 allows this many records.
    pub const MOST_RECORDS: u16 = 4_000;

    /// Questions 1 to 4.
    pub fn read(image: &[u8]) -> Result<Frame, Question> {
        let header = match image.first_chunk() {
            Some(first) if image.len() <= LARGEST => Header::read(first),
            _ => return Err(Question::Length),
        };
        if header.layout != super::LAYOUT {
            return Err(Question::Layout);
        }
        let slices = tiles(image, header.records).ok_or(Question::Tiling)?;
        let records: Option<Vec<Record>> = slices.into_iter().map(reader::record).collect();
        Ok(Frame {
            header,
            records: records.ok_or(Question::Records)?,
        })
    }

    /// # Panics
    ///
    /// Where a count, an ID, an offset or a length has no room in its field.
    pub fn write(&self) -> Vec<u8> {
        let mut out = Vec::with_capacity(image_length(&self.records));
        self.header.write(&mut out);
        let mut offset = HEADER_BYTES + ENTRY_BYTES * self.records.len();
        for record in &self.records {
            let length = writer::record_length(record);
            for number in [offset, length] {
                let field = u16::try_from(number).expect("an offset and a length have two bytes");
                out.extend(field.to_le_bytes());
            }
            offset += length;
        }
        for record in &self.records {
            writer::record(&mut out, record);
        }
        out
    }
}

/// "Do the pairs tile the bytes from 8 + 4 × N to the end?" Each pair begins where the one before it
/// ends; an empty pair is left to question 4.
fn tiles(image: &[u8], records: u16) -> Option<Vec<&[u8]>> {
    if records > Frame::MOST_RECORDS {
        return None;
    }
    let mut end = HEADER_BYTES + ENTRY_BYTES * usize::from(records);
    let directory = image.get(HEADER_BYTES..end)?;
    let mut slices = Vec::with_capacity(records.into());
    for entry in directory.chunks_exact(ENTRY_BYTES) {
        let offset = usize::from(field(entry, 0));
        if offset != end {
            return None;
        }
        end = offset + usize::from(field(entry, 2));
        slices.push(image.get(offset..end)?);
    }
    (end == image.len()).then_some(slices)
}

/// The bytes of the image of some records.
pub fn image_length(records: &[Record]) -> usize {
    let contents: usize = records.iter().map(writer::record_length).sum();
    HEADER_BYTES + ENTRY_BYTES * records.len() + contents
}
