//! A fixed sample of the oracle's answers, for a program that replays it where there is no Rust.
//!
//! All numbers are little-endian. The file is two lists of images, the first with calls of the four
//! functions on images, the second with calls of the steppers. A list is a count of images (4 bytes),
//! and for each image:
//!
//! - its length (4 bytes) and its bytes;
//! - a count of calls (1 byte), and for each call
//!   - the function (1 byte): 0 reading, 1 the scope check, 2 linearization, 3 annotation; 4 a start and
//!     5 steps of the source machine, 6 a start and 7 steps of the linear one;
//!   - the record that is annotated, the definition that is started, or the steps that are asked for
//!     (8 bytes; else 0);
//!   - the length of the lent output buffer, of a stepper that of the store (4 bytes; 0 for reading and
//!     the scope check);
//!   - the old byte (1 byte, never 0): the output buffer, of a stepper the event buffer, is full of it
//!     before the call;
//!   - the number of the answer (1 byte); its length, of a stepper the event bytes (2 bytes); how many
//!     bytes follow behind those of the length (2 bytes; 0 but for a stepper); its max_id, of a stepper
//!     the steps made (4 bytes). A start has no event bytes and no steps;
//!   - as many bytes as the length: what the output buffer, of a stepper the event buffer, begins with
//!     after the call;
//!   - of a stepper the length of the event buffer (2 bytes), the length of a start's values (2 bytes)
//!     and the values, what changes in the store before the call, and what changes in it by the call.
//!
//! The rest of the output buffer follows from the number: 11 and 12 have set all of it to zero, after
//! every other number all bytes past the length are still the old byte. So are those of an event buffer
//! after every number. No image and no lent buffer has more than 65,536 bytes.
//!
//! The store is the beginning of an array that goes from call to call. It is all zero before the first
//! call of an image, and full of the old byte before every start. Changes are a count (2 bytes), and for
//! each byte its distance from the place of the one before it, for the first its place (1 byte), and the
//! byte. One that is farther than 255 comes behind bytes that stay as they are.
//!
//! The program is the crate `try_vectors` of the repository: the file is its `stdin`, and the summary
//! its `stdout`.

mod sample;
mod sessions;
mod stepping;

pub use sample::{LARGEST_ROOM, sample};
pub use sessions::sessions;
pub use stepping::{Session, What};

use generators::boundaries::Call;
use reference::oracle::Oracle;
use std::fmt::Write;
use stepping::{ARRAY, MOST_CALLS};

/// The functions, by their number in the file.
const FUNCTIONS: [&str; 8] = [
    "axcut_read",
    "axcut_check",
    "axcut_linearize",
    "axcut_annotate",
    "axcut_source_start",
    "axcut_source_step",
    "axcut_linear_start",
    "axcut_linear_step",
];
/// The answers are 0 to 15.
const ANSWERS: usize = 16;

/// An image and the calls to make on it.
pub struct Vector {
    pub image: Vec<u8>,
    pub calls: Vec<Call>,
}

/// The file of these vectors and sessions.
pub fn file(vectors: &[Vector], sessions: &[Session]) -> Vec<u8> {
    let mut out = Vec::new();
    number4(&mut out, vectors.len());
    let mut old = 0;
    for vector in vectors {
        let oracle = Oracle::new(&vector.image);
        image(&mut out, &vector.image, vector.calls.len());
        for &call in &vector.calls {
            old = old % u8::MAX + 1;
            write(&mut out, &oracle, call, old);
        }
    }
    number4(&mut out, sessions.iter().map(images).sum());
    for session in sessions {
        for calls in session.calls.chunks(MOST_CALLS) {
            image(&mut out, &session.image, calls.len());
            let mut array = vec![0; ARRAY];
            for call in calls {
                write_step(&mut out, session.function(call), call, &mut array);
            }
        }
    }
    out
}

/// How many times the image of a session is in the file.
fn images(session: &Session) -> usize {
    session.calls.len().div_ceil(MOST_CALLS)
}

/// What the program that replays these prints where every call agrees: how many calls each function
/// answers with each number, and how many images and calls there are.
pub fn summary(vectors: &[Vector], sessions: &[Session]) -> String {
    let mut counts = [[0; ANSWERS]; FUNCTIONS.len()];
    for vector in vectors {
        let oracle = Oracle::new(&vector.image);
        for &call in &vector.calls {
            let answer = call.ask(&oracle, &mut vec![0; call.room()]);
            counts[function(call)][usize::from(answer.number)] += 1;
        }
    }
    for session in sessions {
        for call in &session.calls {
            counts[session.function(call)][usize::from(call.answer.number)] += 1;
        }
    }
    let mut out = String::new();
    for (name, counts) in FUNCTIONS.iter().zip(counts) {
        for (number, count) in counts.iter().enumerate().filter(|&(_, &count)| count > 0) {
            writeln!(out, "{name} {number}: {count}").expect("a string takes all");
        }
    }
    let images = vectors.len() + sessions.iter().map(images).sum::<usize>();
    let calls = counts.as_flattened().iter().sum::<usize>();
    writeln!(out, "{images} images, {calls} calls, 0 mismatches").expect("a string takes all");
    out
}

fn function(call: Call) -> usize {
    match call {
        Call::Read => 0,
        Call::Check => 1,
        Call::Linearize { .. } => 2,
        Call::Annotate { .. } => 3,
    }
}

fn image(out: &mut Vec<u8>, image: &[u8], calls: usize) {
    number4(out, image.len());
    out.extend(image);
    out.push(u8::try_from(calls).expect("few calls"));
}

fn write(out: &mut Vec<u8>, oracle: &Oracle, call: Call, old: u8) {
    let record = match call {
        Call::Annotate { record, .. } => record,
        _ => 0,
    };
    let mut buffer = vec![old; call.room()];
    let answer = call.ask(oracle, &mut buffer);
    out.push(function(call) as u8);
    out.extend((record as u64).to_le_bytes());
    number4(out, call.room());
    out.push(old);
    out.push(answer.number);
    number2(out, answer.length);
    number2(out, 0);
    out.extend(answer.max_id.to_le_bytes());
    out.extend(&buffer[..answer.length]);
}

/// A call of a stepper, with the array as the call before left it; then it is as this one leaves it.
fn write_step(out: &mut Vec<u8>, function: usize, call: &stepping::Call, array: &mut [u8]) {
    let mut rest = Vec::new();
    let index = match &call.what {
        What::Start { definition, values } => {
            array.fill(call.old);
            number2(&mut rest, 0);
            number2(&mut rest, values.len());
            rest.extend(values);
            *definition as u64
        }
        What::Step { steps, events } => {
            number2(&mut rest, *events);
            number2(&mut rest, 0);
            *steps
        }
    };
    changes(&mut rest, array, &call.before);
    changes(&mut rest, array, &call.after);
    out.push(function as u8);
    out.extend(index.to_le_bytes());
    number4(out, call.before.len());
    out.extend([call.old, call.answer.number]);
    number2(out, call.shown.len());
    number2(out, rest.len());
    number4(out, call.answer.made as usize);
    out.extend(&call.shown);
    out.extend(rest);
}

/// What changes at the beginning of the array so that it is the store; then it is.
fn changes(out: &mut Vec<u8>, array: &mut [u8], store: &[u8]) {
    let differ = |place: &usize| array[*place] != store[*place];
    let end = (0..store.len()).rfind(differ).map_or(0, |last| last + 1);
    let mut pairs = Vec::new();
    let mut last = 0;
    for place in 0..end {
        if differ(&place) || place - last == usize::from(u8::MAX) {
            pairs.push([(place - last) as u8, store[place]]);
            last = place;
        }
    }
    array[..store.len()].copy_from_slice(store);
    number2(out, pairs.len());
    out.extend(pairs.as_flattened());
}

fn number2(out: &mut Vec<u8>, number: usize) {
    let number = u16::try_from(number).expect("a small number");
    out.extend(number.to_le_bytes());
}

fn number4(out: &mut Vec<u8>, number: usize) {
    let number = u32::try_from(number).expect("a small number");
    out.extend(number.to_le_bytes());
}
