//! What is compared with the oracle: four functions with the C interface of the library.

pub type Read = unsafe extern "C" fn(
    image: *const u8,
    image_len: usize,
    length: *mut usize,
    max_id: *mut u32,
) -> u32;
pub type Linearize = unsafe extern "C" fn(
    image: *const u8,
    image_len: usize,
    out: *mut u8,
    out_len: usize,
    length: *mut usize,
    max_id: *mut u32,
) -> u32;
pub type Annotate = unsafe extern "C" fn(
    image: *const u8,
    image_len: usize,
    record: usize,
    out: *mut u8,
    out_len: usize,
    length: *mut usize,
    max_id: *mut u32,
) -> u32;

#[derive(Clone, Copy)]
pub struct Subject {
    pub name: &'static str,
    pub read: Read,
    pub check: Read,
    pub linearize: Linearize,
    pub annotate: Annotate,
}

#[cfg(feature = "library")]
mod library {
    use super::Subject;

    unsafe extern "C" {
        fn axcut_read(i: *const u8, n: usize, length: *mut usize, max_id: *mut u32) -> u32;
        fn axcut_check(i: *const u8, n: usize, length: *mut usize, max_id: *mut u32) -> u32;
        fn axcut_linearize(
            image: *const u8,
            image_len: usize,
            out: *mut u8,
            out_len: usize,
            length: *mut usize,
            max_id: *mut u32,
        ) -> u32;
        fn axcut_annotate(
            image: *const u8,
            image_len: usize,
            record: usize,
            out: *mut u8,
            out_len: usize,
            length: *mut usize,
            max_id: *mut u32,
        ) -> u32;
    }

    /// The static library.
    pub const LINKED: Subject = Subject {
        name: "libaxcut.a",
        read: axcut_read,
        check: axcut_check,
        linearize: axcut_linearize,
        annotate: axcut_annotate,
    };
}

#[cfg(feature = "library")]
pub use library::LINKED;

/// Without the feature `library`: the oracle itself.
#[cfg(not(feature = "library"))]
pub const LINKED: Subject = oracle::ITSELF;

pub mod oracle {
    //! The oracle behind the C interface: it tries the comparison where there is no library.

    use super::Subject;
    use reference::calls;
    use reference::oracle::Answer;

    use std::slice;

    pub const ITSELF: Subject = Subject {
        name: "self (the oracle itself, no library is linked)",
        read,
        check,
        linearize,
        annotate,
    };

    unsafe fn report(answer: Answer, length: *mut usize, max_id: *mut u32) -> u32 {
        unsafe {
            *length = answer.length;
            *max_id = answer.max_id;
        }
        answer.number.into()
    }

    unsafe extern "C" fn read(i: *const u8, n: usize, length: *mut usize, max_id: *mut u32) -> u32 {
        unsafe { report(calls::read(slice::from_raw_parts(i, n)), length, max_id) }
    }

    unsafe extern "C" fn check(
        i: *const u8,
        n: usize,
        length: *mut usize,
        max_id: *mut u32,
    ) -> u32 {
        unsafe { report(calls::check(slice::from_raw_parts(i, n)), length, max_id) }
    }

    unsafe extern "C" fn linearize(
        image: *const u8,
        image_len: usize,
        out: *mut u8,
        out_len: usize,
        length: *mut usize,
        max_id: *mut u32,
    ) -> u32 {
        unsafe {
            let image = slice::from_raw_parts(image, image_len);
            let out = slice::from_raw_parts_mut(out, out_len);
            report(calls::linearize(image, out), length, max_id)
        }
    }

    unsafe extern "C" fn annotate(
        image: *const u8,
        image_len: usize,
        record: usize,
        out: *mut u8,
        out_len: usize,
        length: *mut usize,
        max_id: *mut u32,
    ) -> u32 {
        unsafe {
            let image = slice::from_raw_parts(image, image_len);
            let out = slice::from_raw_parts_mut(out, out_len);
            report(calls::annotate(image, record, out), length, max_id)
        }
    }
}
