//! The four calls on their own.

use crate::oracle::{Answer, Oracle};

pub fn read(image: &[u8]) -> Answer {
    Oracle::new(image).read()
}

pub fn check(image: &[u8]) -> Answer {
    Oracle::new(image).check()
}

pub fn linearize(image: &[u8], out: &mut [u8]) -> Answer {
    Oracle::new(image).linearize(out)
}

pub fn annotate(image: &[u8], record: usize, out: &mut [u8]) -> Answer {
    Oracle::new(image).annotate(record, out)
}
