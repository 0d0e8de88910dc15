//! AxCut's linearization over binary program images, and steppers that run such images, proved in Rattle.
//!
//! A function takes an image and gives what was asked for, or a [`Refusal`], the question whose answer is no:
//!
//! ```
//! // The worked case: a definition, a literal, a call.
//! let image = include_bytes!("../../../examples/worked/program.axc");
//! let output = axcut::linearize(image)?;
//! assert_eq!((output.bytes.len(), output.max_id), (45, 1));
//! // An output is an image, and no source program any more where it holds a Substitute or an environment.
//! assert_eq!(axcut::read(&output.bytes)?, 1);
//! assert_eq!(axcut::read(&image[..54]).unwrap_err().number(), 3);
//! # Ok::<(), axcut::Refusal>(())
//! ```
//!
//! A run is stepped by its [`Machine`], over a store and an event buffer of the caller's, or as a [`Run`],
//! which has its own. Program and linearized program show the same events:
//!
//! ```
//! use axcut::{Given, Machine, Run};
//! let image = include_bytes!("../../../examples/handset/program.axc");
//! let linear = axcut::linearize(image)?.bytes;
//! let given = [800, 760, 20].map(Given::Integer);
//! let before = Run::start(Machine::Source, image, 0, &given)?.step(1_000);
//! let after = Run::start(Machine::Linear, &linear, 0, &given)?.step(1_000);
//! assert_eq!(before.events, after.events);
//! # Ok::<(), axcut::Refusal>(())
//! ```
//!
//! The functions with `_into` and the calls of a [`Machine`] write to the caller's buffers and take no
//! memory but the stack: less than 640 KiB of it, as every call. Every slice is allowed; what the library
//! excludes, null pointers and memory that overlaps, a slice excludes by itself.

mod event;
mod library;
mod machine;
mod refusal;
mod run;

pub use event::{events, Event, Given, Value};
pub use machine::{values, Header, Machine, Stepped, SLOT, STORE_HEADER};
pub use refusal::Refusal;
pub use run::{Run, Shown};

/// The bytes of the largest image: a buffer of this size has room for every output and annotation.
pub const LARGEST_IMAGE: usize = 65_535;

/// Bytes that a call gave.
#[derive(Debug, Clone, PartialEq, Eq)]
pub struct Output {
    pub bytes: Vec<u8>,
    /// The `max_id` of the image, for linearization that of its output.
    pub max_id: u32,
}

/// How many bytes a call wrote to the caller's buffer.
#[derive(Debug, Clone, Copy, PartialEq, Eq)]
pub struct Written {
    pub length: usize,
    /// The `max_id` of the image, for linearization that of its output.
    pub max_id: u32,
}

/// Is it an image? Questions 1 to 5. Gives its `max_id`.
pub fn read(image: &[u8]) -> Result<u32, Refusal> {
    library::read(image).map(|written| written.max_id)
}

/// Is it a program that can be linearized, IDs and room apart? Questions 1 to 10. Gives its `max_id`.
pub fn check(image: &[u8]) -> Result<u32, Refusal> {
    library::check(image).map(|written| written.max_id)
}

/// The linearized program's image. Questions 1 to 12.
pub fn linearize(image: &[u8]) -> Result<Output, Refusal> {
    gathered(|out| linearize_into(image, out))
}

/// Writes the linearized program's image to the start of `out`. Questions 1 to 12; 11 and 12 set the
/// whole buffer to zero.
pub fn linearize_into(image: &[u8], out: &mut [u8]) -> Result<Written, Refusal> {
    library::linearize(image, out)
}

/// The annotation of the record with this index, counted from 0, as bytes. Questions 1 to 7, 13, 12.
pub fn annotate(image: &[u8], record: usize) -> Result<Output, Refusal> {
    gathered(|out| annotate_into(image, record, out))
}

/// Writes the annotation of the record with this index to the start of `out`. Questions 1 to 7, 13, 12;
/// 12 sets the whole buffer to zero.
pub fn annotate_into(image: &[u8], record: usize, out: &mut [u8]) -> Result<Written, Refusal> {
    library::annotate(image, record, out)
}

/// The sets of free variables of a record, each ascending: those of its next (Let, Literal, Op, PrintI64),
/// of its clauses (Switch), or of its clauses and then of its next (Create). Questions 1 to 7, 13, 12.
pub fn free_variables(image: &[u8], record: usize) -> Result<Vec<Vec<u16>>, Refusal> {
    annotate(image, record).map(|output| sets(&output.bytes))
}

/// What a call writes to a buffer that has room for every answer.
fn gathered(call: impl Fn(&mut [u8]) -> Result<Written, Refusal>) -> Result<Output, Refusal> {
    let mut bytes = vec![0; LARGEST_IMAGE];
    let written = call(&mut bytes)?;
    bytes.truncate(written.length);
    bytes.shrink_to_fit();
    Ok(Output {
        bytes,
        max_id: written.max_id,
    })
}

/// An annotation's sets: a count and so many IDs each, two bytes, the lower first.
fn sets(annotation: &[u8]) -> Vec<Vec<u16>> {
    let halves = annotation.chunks_exact(2);
    let mut numbers = halves.map(|half| u16::from_le_bytes([half[0], half[1]]));
    let mut sets = Vec::new();
    while let Some(count) = numbers.next() {
        sets.push(numbers.by_ref().take(count.into()).collect());
    }
    sets
}
