//! One call on one image, by the subject and by the oracle.

use crate::guarded::Guarded;
use crate::subject::Subject;
use generators::Rng;
use generators::boundaries::Call;
use generators::starts;
use reference::demand3::{Watched, watch};
use reference::oracle::{Answer, Oracle};

/// What the subject did otherwise.
#[derive(Debug, Clone)]
pub struct Mismatch {
    pub call: Call,
    pub what: String,
}

/// The lent buffers of one thread.
pub struct Bench {
    subject: Subject,
    image: Guarded,
    out: Guarded,
    /// The old contents of the output buffer, and then what the oracle leaves in it.
    expected: Vec<u8>,
}

/// The steps of the source machine for which demand 3 is watched, and from how many starts.
const STEPS: usize = 100;
const STARTS: usize = 2;

impl Bench {
    pub fn new(subject: Subject, largest_image: usize, largest_room: usize) -> Bench {
        Bench {
            subject,
            image: Guarded::new(largest_image),
            out: Guarded::new(largest_room),
            expected: Vec::new(),
        }
    }

    /// The call by both sides: the oracle's answer, and what the subject did otherwise.
    pub fn compare(
        &mut self,
        rng: &mut Rng,
        image: &[u8],
        oracle: &Oracle,
        call: Call,
    ) -> (Answer, Option<Mismatch>) {
        self.expected.clear();
        while self.expected.len() < call.room() {
            self.expected.extend(rng.number().to_le_bytes());
        }
        self.expected.truncate(call.room());
        let lent_image = self.image.lend(image.len());
        lent_image.copy_from_slice(image);
        let out = self.out.lend(call.room());
        out.copy_from_slice(&self.expected);

        let given = ask(&self.subject, call, lent_image, out);
        let answer = call.ask(oracle, &mut self.expected);
        let expected = (answer.number.into(), answer.length, answer.max_id);
        let different = (0..out.len()).find(|&at| out[at] != self.expected[at]);
        let what = if given != expected {
            format!("number, length, max_id: {given:?}, oracle: {expected:?}")
        } else if let Some(at) = different {
            let (given, expected) = (out[at], self.expected[at]);
            format!("byte {at} of the output: {given}, oracle: {expected}")
        } else if lent_image != image {
            "the image was changed".to_string()
        } else if !self.out.untouched_before(call.room())
            || !self.image.untouched_before(image.len())
        {
            "bytes before a buffer were changed".to_string()
        } else {
            return (answer, None);
        };
        (answer, Some(Mismatch { call, what }))
    }

    /// Demand 3's claim of the program and the output that the last call left.
    pub fn watch(
        &mut self,
        rng: &mut Rng,
        oracle: &Oracle,
        call: Call,
        length: usize,
    ) -> Result<Vec<Watched>, Mismatch> {
        let room = call.room();
        let output = Oracle::new(&self.out.lend(room)[..length]);
        let mismatch = |what: String| Mismatch { call, what };
        let (Ok(source), Ok(linear)) = (oracle.program(), output.program()) else {
            return Err(mismatch("the output does not read".to_string()));
        };
        (0..STARTS)
            .map(|_| {
                let (place, given) = starts::start(rng, source);
                watch(source, linear, place, &given, STEPS).map_err(|broken| {
                    mismatch(format!("demand 3 from {place} {given:?}: {broken:?}"))
                })
            })
            .collect()
    }
}

/// The call by the subject: number, length and max_id.
pub fn ask(subject: &Subject, call: Call, image: &[u8], out: &mut [u8]) -> (u32, usize, u32) {
    // both are set on every call, so that no old value can be right by chance
    let mut length = usize::MAX;
    let mut max_id = u32::MAX;
    // SAFETY: the pointers and lengths are those of the slices.
    let number = unsafe {
        match call {
            Call::Read => (subject.read)(image.as_ptr(), image.len(), &mut length, &mut max_id),
            Call::Check => (subject.check)(image.as_ptr(), image.len(), &mut length, &mut max_id),
            Call::Linearize { .. } => (subject.linearize)(
                image.as_ptr(),
                image.len(),
                out.as_mut_ptr(),
                out.len(),
                &mut length,
                &mut max_id,
            ),
            Call::Annotate { record, .. } => (subject.annotate)(
                image.as_ptr(),
                image.len(),
                record,
                out.as_mut_ptr(),
                out.len(),
                &mut length,
                &mut max_id,
            ),
        }
    };
    (number, length, max_id)
}
