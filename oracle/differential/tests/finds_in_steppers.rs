//! The comparison of the steppers finds what it is there to find: each wrong subject here differs from
//! the oracle in one way only.

use differential::stepping::subject::oracle::ITSELF;
use differential::stepping::subject::{Start, Step, Steppers};
use differential::stepping::{CALLS, Sessions, run};

use std::slice;

fn sessions(first: u64, calls: u64) -> Sessions {
    Sessions {
        seed: 5,
        first,
        calls,
        image: None,
    }
}

/// Some calls at a time, until one of them differs.
fn finds(subject: Steppers) {
    const CALLS_AT_A_TIME: u64 = 2_000;
    let found = (0..10).any(|time| {
        let first = time * CALLS_AT_A_TIME / CALLS;
        let report = run(subject, &sessions(first, CALLS_AT_A_TIME), 2);
        let found = report.mismatches > 0;
        assert_eq!(report.smallest.is_some() && !report.first.is_empty(), found);
        found
    });
    assert!(found);
}

#[test]
fn nothing_in_the_oracle_itself() {
    let report = run(ITSELF, &sessions(0, 12_000), 2);
    assert_eq!((report.mismatches, report.calls), (0, 12_000));
    assert!(report.steps > 30_000 && report.ends.iter().all(|&count| count > 50));
    assert!(report.forged[0] > 200 && report.forged[1] > 800);
    // starts and steps of both: accepted, refused with 14, and short of room
    for answers in report.answers {
        assert!([0, 14, 15].iter().all(|&number| answers[number] > 100));
    }
    // and images that are refused
    let [source, _, linear, _] = report.answers;
    assert!([3, 4, 5, 6, 9].iter().all(|&number| source[number] > 0));
    assert!((3..=5).all(|number| linear[number] > 0));
}

/// A call of steps and the oracle's answer to it.
struct Stepped<'a> {
    number: u32,
    store: &'a mut [u8],
    /// The store before the call.
    before: &'a [u8],
    events: &'a mut [u8],
    made: &'a mut u64,
    length: &'a mut usize,
}

/// Steps that are the oracle's, changed.
macro_rules! step_but {
    ($field:ident, $change:expr) => {{
        unsafe extern "C" fn wrong(
            image: *const u8,
            image_len: usize,
            steps: u64,
            store: *mut u8,
            store_len: usize,
            events: *mut u8,
            events_len: usize,
            made: *mut u64,
            length: *mut usize,
        ) -> u32 {
            let change: fn(Stepped) -> u32 = $change;
            unsafe {
                let before = slice::from_raw_parts(store, store_len).to_vec();
                let number = (ITSELF.$field)(
                    image, image_len, steps, store, store_len, events, events_len, made, length,
                );
                change(Stepped {
                    number,
                    store: slice::from_raw_parts_mut(store, store_len),
                    before: &before,
                    events: slice::from_raw_parts_mut(events, events_len),
                    made: &mut *made,
                    length: &mut *length,
                })
            }
        }
        Steppers {
            $field: wrong as Step,
            ..ITSELF
        }
    }};
}

#[test]
fn a_number() {
    finds(step_but!(source_step, |asked| if asked.number == 15 {
        14
    } else {
        asked.number
    }));
    finds(step_but!(linear_step, |asked| if asked.number == 15 {
        0
    } else {
        asked.number
    }));
}

#[test]
fn a_count_of_steps() {
    finds(step_but!(linear_step, |asked| {
        // not those before a 15
        *asked.made *= u64::from(asked.number == 0);
        asked.number
    }));
}

#[test]
fn a_count_of_event_bytes() {
    finds(step_but!(source_step, |asked| {
        *asked.length += 16 * usize::from(asked.number == 14);
        asked.number
    }));
}

#[test]
fn bytes_behind_a_state() {
    finds(step_but!(linear_step, |asked| {
        if let (0, Some(last)) = (asked.number, asked.store.last_mut()) {
            *last = 0;
        }
        asked.number
    }));
}

/// Longer states of the call leave their bytes.
#[test]
fn bytes_that_a_longer_state_left() {
    finds(step_but!(linear_step, |asked| {
        if asked.number != 14 && *asked.made > 0 {
            let size = generators::stores::size(asked.store);
            asked.store[size..].copy_from_slice(&asked.before[size..]);
        }
        asked.number
    }));
}

#[test]
fn bytes_behind_the_events() {
    finds(step_but!(source_step, |asked| {
        if let (15, Some(next)) = (asked.number, asked.events.get_mut(*asked.length)) {
            *next ^= 1;
        }
        asked.number
    }));
}

#[test]
fn a_newline_byte() {
    finds(step_but!(source_step, |asked| {
        let written = &mut asked.events[..*asked.length];
        for event in written.chunks_mut(16).filter(|event| event[0] == 12) {
            event[1] = 0;
        }
        asked.number
    }));
}

#[test]
fn a_stopped_flag_that_is_not_set() {
    finds(step_but!(linear_step, |asked| {
        if asked.number != 14 && *asked.made > 0 {
            asked.store[5] = 0;
        }
        asked.number
    }));
}

#[test]
fn an_end_that_drops_the_environment() {
    finds(step_but!(source_step, |asked| {
        if asked.number != 14 && *asked.made > 0 && asked.store[4] == 1 {
            asked.store[24..32].fill(0);
        }
        asked.number
    }));
}

#[test]
fn a_refused_store_that_is_written() {
    finds(step_but!(linear_step, |asked| {
        if let (14, Some(first)) = (asked.number, asked.store.first_mut()) {
            *first = 0;
        }
        asked.number
    }));
}

#[test]
fn a_byte_before_the_store() {
    finds(step_but!(linear_step, |asked| {
        if asked.number == 15 {
            // SAFETY: the comparison keeps bytes of its own before the buffer.
            unsafe { *asked.store.as_mut_ptr().sub(1) ^= 1 };
        }
        asked.number
    }));
}

/// Steps on a store that was changed before: a reader that does not see a field.
macro_rules! reads_but {
    ($field:ident, $change:expr) => {{
        unsafe extern "C" fn wrong(
            image: *const u8,
            image_len: usize,
            steps: u64,
            store: *mut u8,
            store_len: usize,
            events: *mut u8,
            events_len: usize,
            made: *mut u64,
            length: *mut usize,
        ) -> u32 {
            let change: fn(&mut [u8]) = $change;
            unsafe {
                change(slice::from_raw_parts_mut(store, store_len));
                (ITSELF.$field)(
                    image, image_len, steps, store, store_len, events, events_len, made, length,
                )
            }
        }
        Steppers {
            $field: wrong as Step,
            ..ITSELF
        }
    }};
}

#[test]
fn spare_bytes_that_are_not_asked() {
    finds(reads_but!(source_step, |store| {
        if let Some(spare) = store.get_mut(48..64) {
            spare.fill(0);
        }
    }));
    finds(reads_but!(linear_step, |store| {
        if store.len() > 80 {
            store[65] = 0;
        }
    }));
}

/// 16 times a count that wraps.
#[test]
fn counts_that_wrap() {
    finds(reads_but!(linear_step, |store| {
        if store.len() > 64 {
            store[31] &= 0x0F;
        }
    }));
}

#[test]
fn ids_that_are_cut() {
    finds(reads_but!(source_step, |store| {
        if let Some(slot) = store.get_mut(64..80)
            && slot[0] == 0
        {
            slot[6..8].fill(0);
        }
    }));
}

#[test]
fn a_stopped_flag_that_is_not_obeyed() {
    finds(reads_but!(source_step, |store| {
        if store.len() > 5 && store[5] == 1 {
            store[5] = 0;
        }
    }));
}

/// A start that is the oracle's with other arguments.
macro_rules! start_but {
    ($field:ident, $definition:expr, $values:expr, $store:expr) => {{
        unsafe extern "C" fn wrong(
            image: *const u8,
            image_len: usize,
            definition: usize,
            values: *const u8,
            values_len: usize,
            store: *mut u8,
            store_len: usize,
        ) -> u32 {
            let of_definition: fn(usize) -> usize = $definition;
            let of_values: fn(&mut [u8]) = $values;
            let of_store: fn(u32, &mut [u8]) = $store;
            unsafe {
                let mut values = slice::from_raw_parts(values, values_len).to_vec();
                of_values(&mut values);
                let number = (ITSELF.$field)(
                    image,
                    image_len,
                    of_definition(definition),
                    values.as_ptr(),
                    values.len(),
                    store,
                    store_len,
                );
                of_store(number, slice::from_raw_parts_mut(store, store_len));
                number
            }
        }
        Steppers {
            $field: wrong as Start,
            ..ITSELF
        }
    }};
}

#[test]
fn starts() {
    // a place that is cut to fewer bits
    finds(start_but!(
        linear_start,
        |place| place & 0xFFFF,
        |_| (),
        |_, _| ()
    ));
    finds(start_but!(
        source_start,
        |place| place & 0xFFFF_FFFF,
        |_| (),
        |_, _| ()
    ));
    // an outside number that is cut to a byte, a spare byte and an ID that pass
    for wrong in [
        start_but!(
            source_start,
            |place| place,
            |values| {
                let outside = values.chunks_mut(16).filter(|slot| slot[0] == 2);
                outside.for_each(|slot| slot.iter_mut().skip(9).for_each(|byte| *byte = 0));
            },
            |_, _| ()
        ),
        start_but!(
            linear_start,
            |place| place,
            |values| values.iter_mut().skip(1).take(3).for_each(|byte| *byte = 0),
            |_, _| ()
        ),
        start_but!(
            linear_start,
            |place| place,
            |values| values.iter_mut().skip(4).take(4).for_each(|byte| *byte = 0),
            |_, _| ()
        ),
        // a store that is written where there is no room, and a stop that is not seen
        start_but!(
            source_start,
            |place| place,
            |_| (),
            |number, store| if number == 15 {
                store.fill(0);
            }
        ),
        start_but!(
            linear_start,
            |place| place,
            |_| (),
            |number, store| if number == 0 {
                store[5] = 0;
            }
        ),
    ] {
        finds(wrong);
    }
}
