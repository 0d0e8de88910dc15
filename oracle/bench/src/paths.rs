//! What is timed: the library's functions and the Rust's paths, each on one image.

use crate::sets::Image;
use differential::subject::{Read, Subject};
use reference::calls;
use reference::image::{Frame, LARGEST, LARGEST_ID, frame, order};
use reference::oracle::rust::{from_rust, to_rust};
use reference::questions::{Question, ask, scoped, source_form};

use std::hint::black_box;
use std::time::{Duration, Instant};

#[derive(Debug, Clone, Copy, PartialEq, Eq)]
pub enum Path {
    /// `axcut_linearize` from the image's bytes into a buffer of 65,535.
    Linearize,
    /// The same by the Rust: the oracle's reading and questions, the tree of the Rust, its pass, and
    /// the image.
    Whole,
    /// The Rust's annotation and linearization alone (`Prog::linearize`), on a tree that is built.
    Pass,
    /// `axcut_read`.
    Read,
    /// `axcut_check`.
    Check,
}

impl Path {
    pub const ALL: [Path; 5] = [
        Path::Linearize,
        Path::Whole,
        Path::Pass,
        Path::Read,
        Path::Check,
    ];

    pub fn name(self) -> &'static str {
        match self {
            Path::Linearize => "linearize",
            Path::Whole => "whole",
            Path::Pass => "pass",
            Path::Read => "read",
            Path::Check => "check",
        }
    }

    pub fn of_name(name: &str) -> Option<Path> {
        Path::ALL.into_iter().find(|path| path.name() == name)
    }
}

/// The subject, and the buffer that is lent to it.
pub struct Runner {
    subject: Subject,
    out: Vec<u8>,
}

/// What a call of the subject gave.
#[derive(Debug, Clone, Copy, PartialEq, Eq)]
pub struct Given {
    pub number: u32,
    pub length: usize,
    pub max_id: u32,
}

impl Runner {
    pub fn new(subject: Subject) -> Runner {
        Runner {
            subject,
            out: vec![0; LARGEST],
        }
    }

    pub fn linearize(&mut self, image: &[u8]) -> Given {
        let (call, out) = (self.subject.linearize, &mut self.out);
        // SAFETY: the pointers and lengths are those of the slices.
        answered(|length, max_id| unsafe {
            call(
                image.as_ptr(),
                image.len(),
                out.as_mut_ptr(),
                out.len(),
                length,
                max_id,
            )
        })
    }

    pub fn read(&self, image: &[u8]) -> Given {
        ask_about(self.subject.read, image)
    }

    pub fn check(&self, image: &[u8]) -> Given {
        ask_about(self.subject.check, image)
    }

    pub fn annotate(&mut self, image: &[u8], record: usize) -> Given {
        let (call, out) = (self.subject.annotate, &mut self.out);
        // SAFETY: as above.
        answered(|length, max_id| unsafe {
            call(
                image.as_ptr(),
                image.len(),
                record,
                out.as_mut_ptr(),
                out.len(),
                length,
                max_id,
            )
        })
    }

    /// Whether the subject gives the Rust's bytes for the image, and accepts it in its other calls.
    pub fn agrees(&mut self, image: &Image) -> bool {
        self.out.fill(0xA5);
        let accepted = |length, max_id| Given {
            number: 0,
            length,
            max_id,
        };
        let (before, after) = (image.source.max_id.0, image.linear.max_id.0);
        let length = image.expected.len();
        self.linearize(&image.bytes) == accepted(length, after)
            && self.out[..length] == image.expected
            && self.out[length..].iter().all(|&byte| byte == 0xA5)
            && self.read(&image.bytes) == accepted(0, before)
            && self.check(&image.bytes) == accepted(0, before)
    }

    /// The time of one run of the path.
    pub fn time(&mut self, path: Path, image: &Image) -> Duration {
        let bytes = black_box(image.bytes.as_slice());
        match path {
            Path::Linearize => timed(|| self.linearize(bytes)),
            Path::Whole => timed(|| calls::linearize(bytes, &mut self.out)),
            Path::Pass => {
                // built anew: the branches of a clone would be shared, and the pass would copy them
                let mut tree = black_box(to_rust::prog(&image.source));
                let time = timed(|| tree.linearize());
                black_box(&tree);
                time
            }
            Path::Read => timed(|| self.read(bytes)),
            Path::Check => timed(|| self.check(bytes)),
        }
    }

    /// The times of the steps of `Path::Whole`, one after the other.
    pub fn steps(&mut self, image: &Image) -> [Duration; STEPS.len()] {
        steps(black_box(&image.bytes), &mut self.out)
            .unwrap_or_else(|question| panic!("an image that is refused: {question:?}"))
    }
}

fn ask_about(call: Read, image: &[u8]) -> Given {
    // SAFETY: the pointer and the length are those of the slice.
    answered(|length, max_id| unsafe { call(image.as_ptr(), image.len(), length, max_id) })
}

/// What a call answers, with the two results that it sets.
fn answered(call: impl FnOnce(*mut usize, *mut u32) -> u32) -> Given {
    let (mut length, mut max_id) = (0, 0);
    let number = call(&mut length, &mut max_id);
    Given {
        number,
        length,
        max_id,
    }
}

pub fn timed<T>(run: impl FnOnce() -> T) -> Duration {
    let begun = Instant::now();
    let given = black_box(run());
    let time = begun.elapsed();
    drop(given);
    time
}

pub const STEPS: [&str; 7] = [
    "decode, 1 to 5",
    "questions 6 to 10",
    "to the Rust's tree",
    "annotate, linearize",
    "back",
    "image, 11 and 12",
    "free",
];

fn steps(image: &[u8], out: &mut [u8]) -> Result<[Duration; STEPS.len()], Question> {
    let begun = Instant::now();
    let decoded = Frame::read(image).and_then(|frame| order::program(&frame))?;
    let decoded_at = begun.elapsed();
    source_form(&decoded)?;
    scoped(&decoded)?;
    let asked_at = begun.elapsed();
    let mut tree = to_rust::prog(&decoded);
    let converted_at = begun.elapsed();
    tree.linearize();
    let passed_at = begun.elapsed();
    let linear = from_rust::prog(&tree);
    let back_at = begun.elapsed();
    ask(Question::Fresh, linear.max_id.0 <= LARGEST_ID)?;
    let framed = order::frame(&linear);
    let length = frame::image_length(&framed.records);
    ask(Question::Room, length <= LARGEST.min(out.len()))?;
    let written = framed.write();
    out[..length].copy_from_slice(&written);
    black_box(&mut *out);
    let written_at = begun.elapsed();
    drop((decoded, tree, linear, framed, written));
    let freed_at = begun.elapsed();

    let ends = [
        decoded_at,
        asked_at,
        converted_at,
        passed_at,
        back_at,
        written_at,
        freed_at,
    ];
    let mut before = Duration::ZERO;
    Ok(ends.map(|end| end - std::mem::replace(&mut before, end)))
}

#[cfg(test)]
mod tests {
    use super::*;
    use differential::subject::{LINKED, oracle};
    use generators::boundaries::{self, Call};
    use generators::changes::every_kind;

    #[test]
    fn names_are_unlike() {
        for path in Path::ALL {
            assert_eq!(Path::of_name(path.name()), Some(path));
        }
        assert_eq!(Path::of_name("annotate"), None);
    }

    #[test]
    fn the_linked_subject_agrees() {
        let image = Image::accepted(every_kind()).unwrap();
        assert!(Runner::new(LINKED).agrees(&image));
    }

    #[test]
    fn another_subject_does_not() {
        unsafe extern "C" fn wrong(
            image: *const u8,
            image_len: usize,
            out: *mut u8,
            out_len: usize,
            length: *mut usize,
            max_id: *mut u32,
        ) -> u32 {
            unsafe {
                let number =
                    (oracle::ITSELF.linearize)(image, image_len, out, out_len, length, max_id);
                *out.add(*length - 1) ^= 1;
                number
            }
        }
        let subject = Subject {
            linearize: wrong,
            ..oracle::ITSELF
        };
        let image = Image::accepted(every_kind()).unwrap();
        assert!(!Runner::new(subject).agrees(&image));
    }

    #[test]
    fn the_steps_are_the_whole_path() {
        let mut images = 0;
        for boundary in boundaries::all() {
            if boundary.call != (Call::Linearize { room: LARGEST }) {
                continue;
            }
            let (mut whole, mut stepwise) = (vec![0; LARGEST], vec![0; LARGEST]);
            let number = calls::linearize(&boundary.image, &mut whole).number;
            let stepped = steps(&boundary.image, &mut stepwise);
            assert_eq!(stepped.map_or_else(Question::number, |_| 0), number);
            assert_eq!(whole, stepwise);
            images += usize::from(number == 0);
        }
        assert!(images > 10);
    }

    #[test]
    fn every_path_takes_time() {
        let image = Image::accepted(every_kind()).unwrap();
        let mut runner = Runner::new(LINKED);
        for path in Path::ALL {
            assert!(runner.time(path, &image) > Duration::ZERO);
        }
        let sum: Duration = runner.steps(&image).iter().sum();
        assert!(sum > Duration::ZERO);
    }
}
