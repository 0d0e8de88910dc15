//! The comparison finds what it is there to find: each wrong subject here differs from the oracle in
//! one way only.

use differential::subject::oracle::ITSELF;
use differential::subject::{Annotate, Linearize, Read, Subject};
use differential::{Accepted, Report, run};
use generators::cases::Cases;
use reference::oracle::Oracle;

use std::slice;

fn compared(subject: Subject) -> Report {
    // the boundaries and small images, and some generated cases
    let cases = Cases::new(5);
    let generated = run(subject, &cases, cases.fixed() as u64, 3_000, 2);
    let mut report = run(subject, &cases, 0, 3_000, 2);
    report.mismatches += generated.mismatches;
    report
}

fn finds(subject: Subject) {
    let report = compared(subject);
    assert!(report.mismatches > 0);
    assert!(report.smallest.is_some() && !report.first.is_empty());
}

#[test]
fn nothing_in_the_oracle_itself() {
    let report = compared(ITSELF);
    assert_eq!(report.mismatches, 0, "{:?}", report.first);
    assert!(report.events > 1_000);
}

/// "At least a fifth of the accepted programs hold a PrintI64 and a fifth an Exit": of the generated
/// ones, which are most of a run, and of the others.
#[test]
fn accepted_programs_print_and_exit() {
    let cases = Cases::new(1);
    let fixed = cases.fixed() as u64;
    let shares = |indices: &mut dyn Iterator<Item = u64>| -> [f64; 2] {
        let mut accepted = Accepted::default();
        indices.for_each(|index| accepted.count(&Oracle::new(&cases.image(index))));
        assert!(accepted.programs > 1_000);
        accepted.shares()
    };
    let generated = shares(&mut (fixed..fixed + 4_000));
    let others = shares(&mut (0..fixed).step_by(23));
    println!("of a hundred: generated {generated:?}, others {others:?}");
    assert!(generated.iter().all(|&share| share >= 40.0));
    assert!(others.iter().all(|&share| share >= 40.0));
}

/// The arguments of a call to linearization, and the oracle's answer to it.
struct Asked<'a> {
    number: u32,
    out: &'a mut [u8],
    length: &'a mut usize,
    max_id: &'a mut u32,
}

/// A linearization that is the oracle's, changed.
macro_rules! linearize_but {
    ($change:expr) => {{
        unsafe extern "C" fn wrong(
            image: *const u8,
            image_len: usize,
            out: *mut u8,
            out_len: usize,
            length: *mut usize,
            max_id: *mut u32,
        ) -> u32 {
            let change: fn(Asked) -> u32 = $change;
            unsafe {
                let number = (ITSELF.linearize)(image, image_len, out, out_len, length, max_id);
                change(Asked {
                    number,
                    out: slice::from_raw_parts_mut(out, out_len),
                    length: &mut *length,
                    max_id: &mut *max_id,
                })
            }
        }
        Subject {
            linearize: wrong as Linearize,
            ..ITSELF
        }
    }};
}

#[test]
fn a_number() {
    finds(linearize_but!(|asked| if asked.number == 11 {
        12
    } else {
        asked.number
    }));
}

#[test]
fn a_length() {
    finds(linearize_but!(|asked| {
        *asked.length += usize::from(asked.number == 8);
        asked.number
    }));
}

#[test]
fn an_invented_max_id() {
    finds(linearize_but!(|asked| {
        *asked.max_id += u32::from(asked.number == 0);
        asked.number
    }));
}

#[test]
fn a_buffer_that_is_not_zeroed() {
    finds(linearize_but!(|asked| {
        if let (12, Some(last)) = (asked.number, asked.out.last_mut()) {
            *last = 1;
        }
        asked.number
    }));
}

#[test]
fn a_byte_past_the_length() {
    finds(linearize_but!(|asked| {
        if let (0, Some(byte)) = (asked.number, asked.out.get_mut(*asked.length)) {
            *byte ^= 1;
        }
        asked.number
    }));
}

#[test]
fn a_byte_of_the_output() {
    finds(linearize_but!(|asked| {
        if asked.number == 0 && *asked.length > 300 {
            asked.out[300] ^= 1;
        }
        asked.number
    }));
}

#[test]
fn a_buffer_zeroed_at_another_number() {
    finds(linearize_but!(|asked| {
        if asked.number == 9 {
            asked.out.fill(0);
        }
        asked.number
    }));
}

#[test]
fn a_byte_before_the_buffer() {
    finds(linearize_but!(|asked| {
        if asked.number == 0 {
            // SAFETY: the comparison keeps bytes of its own before the buffer.
            unsafe { *asked.out.as_mut_ptr().sub(1) ^= 1 };
        }
        asked.number
    }));
}

#[test]
fn an_image_that_is_changed() {
    unsafe extern "C" fn wrong(
        i: *const u8,
        n: usize,
        length: *mut usize,
        max_id: *mut u32,
    ) -> u32 {
        unsafe {
            let number = (ITSELF.check)(i, n, length, max_id);
            if number == 10 {
                *i.cast_mut() ^= 1;
            }
            number
        }
    }
    finds(Subject {
        check: wrong as Read,
        ..ITSELF
    });
}

/// The image with each newline byte above 1 made 1, where the directory tiles.
fn lenient(image: &[u8]) -> Vec<u8> {
    let mut image = image.to_vec();
    let field =
        |image: &[u8], at: usize| usize::from(u16::from_le_bytes([image[at], image[at + 1]]));
    for record in 0..field(&image, 6) {
        let offset = field(&image, 8 + 4 * record);
        if let Some([12, newline]) = image.get_mut(offset..offset + 2) {
            *newline = 1.min(*newline);
        }
    }
    image
}

#[test]
fn a_newline_byte_that_passes() {
    unsafe extern "C" fn wrong(
        i: *const u8,
        n: usize,
        length: *mut usize,
        max_id: *mut u32,
    ) -> u32 {
        unsafe {
            let number = (ITSELF.read)(i, n, length, max_id);
            if number != 4 {
                return number;
            }
            let image = lenient(slice::from_raw_parts(i, n));
            (ITSELF.read)(image.as_ptr(), image.len(), length, max_id)
        }
    }
    finds(Subject {
        read: wrong as Read,
        ..ITSELF
    });
}

#[test]
fn a_length_that_is_not_set() {
    unsafe extern "C" fn wrong(i: *const u8, n: usize, _: *mut usize, max_id: *mut u32) -> u32 {
        unsafe { (ITSELF.read)(i, n, &mut 0, max_id) }
    }
    finds(Subject {
        read: wrong as Read,
        ..ITSELF
    });
}

#[test]
fn an_annotation_of_the_next_record() {
    unsafe extern "C" fn wrong(
        image: *const u8,
        image_len: usize,
        record: usize,
        out: *mut u8,
        out_len: usize,
        length: *mut usize,
        max_id: *mut u32,
    ) -> u32 {
        let record = record.wrapping_add(1);
        unsafe { (ITSELF.annotate)(image, image_len, record, out, out_len, length, max_id) }
    }
    finds(Subject {
        annotate: wrong as Annotate,
        ..ITSELF
    });
}
