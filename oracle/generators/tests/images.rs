//! Images and programs: one for one, and the pass gives images that read back.

use generators::{Rng, build, small, typed, wild};
use reference::image::{Frame, order};
use reference::oracle::Oracle;
use reference::syntax::Prog;

fn programs() -> impl Iterator<Item = Prog> {
    (0..10_000).map(|index| {
        let mut rng = Rng::of_case(7, index);
        match index % 4 {
            0 => typed::program(&mut rng),
            _ => wild::program(&mut rng),
        }
    })
}

#[test]
fn generated_programs_are_accepted() {
    let mut answers = [0; 14];
    for prog in programs() {
        let oracle = Oracle::new(&build::image(&prog));
        assert_eq!(oracle.check().number, 0);
        let answer = oracle.linearize(&mut vec![0; 65_535]);
        answers[usize::from(answer.number)] += 1;
    }
    println!("{answers:?}");
    assert!(answers[0] > 8_000 && answers[11] > 100);
}

#[test]
fn programs_read_back() {
    for prog in programs() {
        assert_eq!(Oracle::new(&build::image(&prog)).program(), Ok(&prog));
    }
}

/// What reads as a program is the image of that program, whatever its bytes.
#[test]
fn images_write_back() {
    let mut accepted = 0;
    let damaged = programs()
        .enumerate()
        .map(|(index, prog)| generators::damage::image(&mut Rng::of_case(8, index as u64), &prog));
    for image in damaged.chain(small::images()) {
        if let Ok(prog) = Oracle::new(&image).program() {
            assert_eq!(build::image(prog), image);
            accepted += 1;
        }
    }
    println!("{accepted} images read");
    assert!(accepted > 3_000);
}

#[test]
fn outputs_read_back() {
    let (mut outputs, mut records) = (0, 0);
    for prog in programs() {
        let oracle = Oracle::new(&build::image(&prog));
        let mut out = vec![0; 65_535];
        let answer = oracle.linearize(&mut out);
        if answer.number == 0 {
            let output = Oracle::new(&out[..answer.length]);
            assert_eq!(output.program(), oracle.linearized());
            assert_eq!(output.read().max_id, answer.max_id);
            outputs += 1;
            records += order::records(&prog).len();
        }
    }
    println!("{outputs} outputs of {records} records");
    assert!(outputs > 8_000 && records > 100_000);
}

/// A frame is taken apart and put together without loss, whether or not its records are in order.
#[test]
fn frames_write_back() {
    let mut disordered = 0;
    for (index, prog) in programs().enumerate() {
        let image = generators::damage::image(&mut Rng::of_case(9, index as u64), &prog);
        if let Ok(frame) = Frame::read(&image) {
            assert_eq!(frame.write(), image);
            disordered += usize::from(order::program(&frame).is_err());
        }
    }
    assert!(disordered > 100);
}
