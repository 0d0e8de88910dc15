//! The subject's stack: its calls on a thread with little of it.

use crate::compare::ask;
use crate::subject::Subject;
use generators::boundaries;
use generators::cases::Cases;
use reference::oracle::Oracle;

use std::thread;

/// Makes the calls of the boundaries and of so many generated cases on a thread with so many bytes of
/// stack, and answers how many calls there were. A subject that needs more stack ends the program.
pub fn calls_with_stack(subject: Subject, cases: &Cases, generated: u64, bytes: usize) -> usize {
    let boundaries = boundaries::all()
        .into_iter()
        .map(|boundary| (boundary.image, vec![boundary.call]));
    let first = cases.fixed() as u64;
    let generated = (first..first + generated).map(|index| {
        let image = cases.image(index);
        let calls = cases.calls(index, &Oracle::new(&image));
        (image, calls)
    });
    let all: Vec<_> = boundaries.chain(generated).collect();
    let work = move || {
        let mut count = 0;
        for (image, calls) in &all {
            for &call in calls {
                ask(&subject, call, image, &mut vec![0; call.room()]);
                count += 1;
            }
        }
        count
    };
    thread::Builder::new()
        .stack_size(bytes)
        .spawn(work)
        .expect("a thread")
        .join()
        .expect("no panic")
}
