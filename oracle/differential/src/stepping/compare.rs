//! One call by the subject and by the oracle.

use super::subject::Steppers;
use crate::guarded::Guarded;
use stepper::{Answer, Machine, Stepper};

/// An image, and the oracle's stepper of it.
pub struct At<'a> {
    pub machine: Machine,
    pub image: &'a [u8],
    pub stepper: &'a Stepper,
}

/// The lent buffers of one thread.
pub struct Bench {
    subject: Steppers,
    image: Guarded,
    values: Guarded,
    store: Guarded,
    events: Guarded,
}

/// What the subject did otherwise, in words.
pub type Compared = Option<String>;

impl Bench {
    pub fn new(
        subject: Steppers,
        image: usize,
        values: usize,
        store: usize,
        events: usize,
    ) -> Bench {
        Bench {
            subject,
            image: Guarded::new(image),
            values: Guarded::new(values),
            store: Guarded::new(store),
            events: Guarded::new(events),
        }
    }

    /// A start by both sides; the store is then what the oracle leaves.
    pub fn start(
        &mut self,
        at: &At,
        definition: usize,
        values: &[u8],
        store: &mut [u8],
    ) -> (u8, Compared) {
        let image = lent(&mut self.image, at.image);
        let given = lent(&mut self.values, values);
        let buffer = lent(&mut self.store, store);
        // SAFETY: the pointers and lengths are those of the slices.
        let number = unsafe {
            (self.subject.start(at.machine))(
                image.as_ptr(),
                image.len(),
                definition,
                given.as_ptr(),
                given.len(),
                buffer.as_mut_ptr(),
                buffer.len(),
            )
        };
        let expected = at.stepper.start(definition, values, store);
        let compared = first([
            differ("number", number, expected.into()),
            bytes("store", buffer, store),
            (image != at.image).then(|| "the image was changed".to_string()),
            (given != values).then(|| "the values were changed".to_string()),
            before(&self.image, at.image),
            before(&self.values, values),
            before(&self.store, store),
        ]);
        (expected, compared)
    }

    /// Steps by both sides; both buffers are then what the oracle leaves.
    pub fn step(
        &mut self,
        at: &At,
        steps: u64,
        store: &mut [u8],
        events: &mut [u8],
    ) -> (Answer, Compared) {
        let image = lent(&mut self.image, at.image);
        let state = lent(&mut self.store, store);
        let shown = lent(&mut self.events, events);
        // both are set on every call, so that no old value can be right by chance
        let (mut made, mut length) = (u64::MAX, usize::MAX);
        // SAFETY: the pointers and lengths are those of the slices.
        let number = unsafe {
            (self.subject.step(at.machine))(
                image.as_ptr(),
                image.len(),
                steps,
                state.as_mut_ptr(),
                state.len(),
                shown.as_mut_ptr(),
                shown.len(),
                &mut made,
                &mut length,
            )
        };
        let answer = at.stepper.step(steps, store, events);
        let compared = first([
            differ(
                "number, steps, event bytes",
                (number, made, length),
                (answer.number.into(), answer.made, answer.length),
            ),
            bytes("store", state, store),
            bytes("events", shown, events),
            (image != at.image).then(|| "the image was changed".to_string()),
            before(&self.image, at.image),
            before(&self.store, store),
            before(&self.events, events),
        ]);
        (answer, compared)
    }
}

fn lent<'a>(memory: &'a mut Guarded, bytes: &[u8]) -> &'a mut [u8] {
    let lent = memory.lend(bytes.len());
    lent.copy_from_slice(bytes);
    lent
}

fn first<const N: usize>(all: [Compared; N]) -> Compared {
    all.into_iter().flatten().next()
}

fn differ<T: PartialEq + std::fmt::Debug>(what: &str, given: T, expected: T) -> Compared {
    (given != expected).then(|| format!("{what}: {given:?}, oracle: {expected:?}"))
}

fn bytes(what: &str, given: &[u8], expected: &[u8]) -> Compared {
    let at = given
        .iter()
        .zip(expected)
        .position(|(one, other)| one != other)?;
    let (given, expected) = (given[at], expected[at]);
    Some(format!(
        "byte {at} of the {what}: {given}, oracle: {expected}"
    ))
}

fn before(memory: &Guarded, bytes: &[u8]) -> Compared {
    let untouched = memory.untouched_before(bytes.len());
    (!untouched).then(|| "bytes before a buffer were changed".to_string())
}
