//! What is compared with the oracle's steppers: four functions with the C interface of the library.

use stepper::Machine;

pub type Start = unsafe extern "C" fn(
    image: *const u8,
    image_len: usize,
    definition: usize,
    values: *const u8,
    values_len: usize,
    store: *mut u8,
    store_len: usize,
) -> u32;
pub type Step = unsafe extern "C" fn(
    image: *const u8,
    image_len: usize,
    steps: u64,
    store: *mut u8,
    store_len: usize,
    events: *mut u8,
    events_len: usize,
    made: *mut u64,
    length: *mut usize,
) -> u32;

#[derive(Clone, Copy)]
pub struct Steppers {
    pub name: &'static str,
    pub source_start: Start,
    pub source_step: Step,
    pub linear_start: Start,
    pub linear_step: Step,
}

impl Steppers {
    pub fn start(&self, machine: Machine) -> Start {
        match machine {
            Machine::Source => self.source_start,
            Machine::Linear => self.linear_start,
        }
    }

    pub fn step(&self, machine: Machine) -> Step {
        match machine {
            Machine::Source => self.source_step,
            Machine::Linear => self.linear_step,
        }
    }
}

#[cfg(feature = "library")]
mod library {
    use super::Steppers;

    macro_rules! exported {
        ($start:ident, $step:ident) => {
            unsafe extern "C" {
                fn $start(
                    image: *const u8,
                    image_len: usize,
                    definition: usize,
                    values: *const u8,
                    values_len: usize,
                    store: *mut u8,
                    store_len: usize,
                ) -> u32;
                fn $step(
                    image: *const u8,
                    image_len: usize,
                    steps: u64,
                    store: *mut u8,
                    store_len: usize,
                    events: *mut u8,
                    events_len: usize,
                    made: *mut u64,
                    length: *mut usize,
                ) -> u32;
            }
        };
    }

    exported!(axcut_source_start, axcut_source_step);
    exported!(axcut_linear_start, axcut_linear_step);

    /// The static library.
    pub const LINKED: Steppers = Steppers {
        name: "libaxcut.a",
        source_start: axcut_source_start,
        source_step: axcut_source_step,
        linear_start: axcut_linear_start,
        linear_step: axcut_linear_step,
    };
}

#[cfg(feature = "library")]
pub use library::LINKED;

/// Without the feature `library`: the oracle itself.
#[cfg(not(feature = "library"))]
pub const LINKED: Steppers = oracle::ITSELF;

pub mod oracle {
    //! The oracle's steppers behind the C interface: they try the comparison where there is no library.

    use super::Steppers;
    use std::slice;
    use stepper::Machine;

    pub const ITSELF: Steppers = Steppers {
        name: "self (the oracle itself, no steppers are linked)",
        source_start,
        source_step,
        linear_start,
        linear_step,
    };

    macro_rules! behind {
        ($machine:expr, $start:ident, $step:ident) => {
            unsafe extern "C" fn $start(
                image: *const u8,
                image_len: usize,
                definition: usize,
                values: *const u8,
                values_len: usize,
                store: *mut u8,
                store_len: usize,
            ) -> u32 {
                unsafe {
                    let image = slice::from_raw_parts(image, image_len);
                    let values = slice::from_raw_parts(values, values_len);
                    let store = slice::from_raw_parts_mut(store, store_len);
                    stepper::start($machine, image, definition, values, store).into()
                }
            }

            unsafe extern "C" fn $step(
                image: *const u8,
                image_len: usize,
                steps: u64,
                store: *mut u8,
                store_len: usize,
                events: *mut u8,
                events_len: usize,
                made: *mut u64,
                length: *mut usize,
            ) -> u32 {
                unsafe {
                    let image = slice::from_raw_parts(image, image_len);
                    let store = slice::from_raw_parts_mut(store, store_len);
                    let events = slice::from_raw_parts_mut(events, events_len);
                    let answer = stepper::step($machine, image, steps, store, events);
                    *made = answer.made;
                    *length = answer.length;
                    answer.number.into()
                }
            }
        };
    }

    behind!(Machine::Source, source_start, source_step);
    behind!(Machine::Linear, linear_start, linear_step);
}
