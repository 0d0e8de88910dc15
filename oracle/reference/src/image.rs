//! The image: bytes, flat records, and the tree that they stand for.

pub mod frame;
pub mod order;
pub mod reader;
pub mod record;
pub mod writer;

pub use frame::{Frame, Header};
pub use record::Record;

/// The layout number of the only layout.
pub const LAYOUT: u16 = 1;
/// The bytes of the header, and so of the least image.
pub const HEADER_BYTES: usize = 8;
/// The bytes of an offset and a length in the directory.
pub const ENTRY_BYTES: usize = 4;
/// The bytes of the largest image.
pub const LARGEST: usize = 65_535;
/// The largest ID and max_id that a field holds.
pub const LARGEST_ID: u32 = 65_535;
