//! The functions of the static library, as include/axcut.h has them.

use crate::{Machine, Refusal, Stepped, Written};

extern "C" {
    fn axcut_read(image: *const u8, image_len: usize, length: *mut usize, max_id: *mut u32) -> u32;
    fn axcut_check(image: *const u8, image_len: usize, length: *mut usize, max_id: *mut u32)
        -> u32;
    fn axcut_linearize(
        image: *const u8,
        image_len: usize,
        out: *mut u8,
        out_len: usize,
        length: *mut usize,
        max_id: *mut u32,
    ) -> u32;
    fn axcut_annotate(
        image: *const u8,
        image_len: usize,
        record: usize,
        out: *mut u8,
        out_len: usize,
        length: *mut usize,
        max_id: *mut u32,
    ) -> u32;
}

/// The start and the steps of a machine.
macro_rules! stepper {
    ($start:ident, $step:ident) => {
        extern "C" {
            fn $start(
                image: *const u8,
                image_len: usize,
                definition: usize,
                values: *const u8,
                values_len: usize,
                store: *mut u8,
                store_len: usize,
            ) -> u32;
            fn $step(
                image: *const u8,
                image_len: usize,
                steps: u64,
                store: *mut u8,
                store_len: usize,
                events: *mut u8,
                events_len: usize,
                made: *mut u64,
                length: *mut usize,
            ) -> u32;
        }
    };
}

stepper!(axcut_source_start, axcut_source_step);
stepper!(axcut_linear_start, axcut_linear_step);

/// What a call answered, with the two results that it sets.
fn answered(call: impl FnOnce(*mut usize, *mut u32) -> u32) -> Result<Written, Refusal> {
    let (mut length, mut max_id) = (0, 0);
    match call(&mut length, &mut max_id) {
        0 => Ok(Written { length, max_id }),
        number => Err(refusal(number)),
    }
}

fn refusal(number: u32) -> Refusal {
    Refusal::of_number(number).expect("a number of the documents")
}

// In each call the slices and the two results are live, do not overlap, and have the lengths that are
// passed: all that the library asks.

pub fn read(image: &[u8]) -> Result<Written, Refusal> {
    answered(|length, max_id| unsafe { axcut_read(image.as_ptr(), image.len(), length, max_id) })
}

pub fn check(image: &[u8]) -> Result<Written, Refusal> {
    answered(|length, max_id| unsafe { axcut_check(image.as_ptr(), image.len(), length, max_id) })
}

pub fn linearize(image: &[u8], out: &mut [u8]) -> Result<Written, Refusal> {
    let (start, size) = (out.as_mut_ptr(), out.len());
    answered(|length, max_id| unsafe {
        axcut_linearize(image.as_ptr(), image.len(), start, size, length, max_id)
    })
}

pub fn annotate(image: &[u8], record: usize, out: &mut [u8]) -> Result<Written, Refusal> {
    let (start, size) = (out.as_mut_ptr(), out.len());
    answered(|length, max_id| unsafe {
        let bytes = image.as_ptr();
        axcut_annotate(bytes, image.len(), record, start, size, length, max_id)
    })
}

pub fn start(
    machine: Machine,
    image: &[u8],
    definition: usize,
    values: &[u8],
    store: &mut [u8],
) -> Result<(), Refusal> {
    let call = match machine {
        Machine::Source => axcut_source_start,
        Machine::Linear => axcut_linear_start,
    };
    let number = unsafe {
        call(
            image.as_ptr(),
            image.len(),
            definition,
            values.as_ptr(),
            values.len(),
            store.as_mut_ptr(),
            store.len(),
        )
    };
    match number {
        0 => Ok(()),
        number => Err(refusal(number)),
    }
}

pub fn step(
    machine: Machine,
    image: &[u8],
    steps: u64,
    store: &mut [u8],
    events: &mut [u8],
) -> Result<Stepped, Refusal> {
    let call = match machine {
        Machine::Source => axcut_source_step,
        Machine::Linear => axcut_linear_step,
    };
    let (mut made, mut length) = (0, 0);
    let number = unsafe {
        call(
            image.as_ptr(),
            image.len(),
            steps,
            store.as_mut_ptr(),
            store.len(),
            events.as_mut_ptr(),
            events.len(),
            &mut made,
            &mut length,
        )
    };
    let full = number == Refusal::Space.number();
    if number != 0 && !full {
        return Err(refusal(number));
    }
    Ok(Stepped { made, length, full })
}
