//! The wrappers over the programs of `examples/`.

mod files;

use axcut::{Refusal, Written, LARGEST_IMAGE};
use files::file;

const EXAMPLES: [&str; 6] = [
    "axle",
    "handset",
    "hysteresis",
    "rules",
    "timeout",
    "worked",
];

fn max_id(image: &[u8]) -> u32 {
    u16::from_le_bytes([image[4], image[5]]).into()
}

#[test]
fn programs_are_accepted() {
    for example in EXAMPLES {
        let image = file(example, "program.axc");
        assert_eq!(axcut::read(&image), Ok(max_id(&image)));
        assert_eq!(axcut::check(&image), Ok(max_id(&image)));
    }
}

#[test]
fn outputs_are_the_stored_ones() {
    for example in EXAMPLES {
        let output = axcut::linearize(&file(example, "program.axc")).unwrap();
        assert_eq!(output.bytes, file(example, "linear.axc"), "{example}");
        assert_eq!(output.max_id, max_id(&output.bytes));
        assert_eq!(axcut::read(&output.bytes), Ok(output.max_id));
    }
}

#[test]
fn an_output_is_no_source_program() {
    let linear = file("axle", "linear.axc");
    assert_eq!(axcut::check(&linear), Err(Refusal::Linearized));
    assert_eq!(axcut::linearize(&linear), Err(Refusal::Linearized));
    assert_eq!(axcut::annotate(&linear, 1), Err(Refusal::Linearized));
}

#[test]
fn a_small_buffer_is_zeroed_and_others_are_kept() {
    let image = file("worked", "program.axc");
    let mut out = [7; 46];
    let written = Written {
        length: 45,
        max_id: 1,
    };
    assert_eq!(axcut::linearize_into(&image, &mut out), Ok(written));
    assert_eq!(out[..45], file("worked", "linear.axc"));
    assert_eq!(out[45], 7);

    let mut out = [7; 44];
    assert_eq!(axcut::linearize_into(&image, &mut out), Err(Refusal::Room));
    assert_eq!(out, [0; 44]);

    let mut out = [7; 44];
    assert_eq!(
        axcut::linearize_into(&image[1..], &mut out),
        Err(Refusal::LayoutNumber)
    );
    assert_eq!(out, [7; 44]);
}

#[test]
fn annotations() {
    let image = file("worked", "program.axc");
    assert_eq!(axcut::annotate(&image, 1).unwrap().bytes, [1, 0, 1, 0]);
    assert_eq!(axcut::free_variables(&image, 1), Ok(vec![vec![1]]));
    assert_eq!(axcut::annotate(&image, 0), Err(Refusal::Place));
    assert_eq!(axcut::annotate(&image, 3), Err(Refusal::Place));
    let mut out = [7; 3];
    assert_eq!(
        axcut::annotate_into(&image, 1, &mut out),
        Err(Refusal::Room)
    );
    assert_eq!(out, [0; 3]);

    // the closure of examples/timeout: its clauses use report, pressure and age, what follows all but that
    let image = file("timeout", "program.axc");
    let sets = axcut::free_variables(&image, 1).unwrap();
    assert_eq!(sets, [vec![1, 2, 5], vec![1, 2, 3, 4, 6]]);

    // examples/handset: what follows a PrintI64, without its own variable there or with it; an Exit has none
    let image = file("handset", "program.axc");
    assert_eq!(axcut::free_variables(&image, 4), Ok(vec![vec![1, 2, 3]]));
    assert_eq!(axcut::free_variables(&image, 13), Ok(vec![vec![10, 11]]));
    assert_eq!(axcut::annotate(&image, 15), Err(Refusal::Place));
}

#[test]
fn refusals_have_words() {
    assert_eq!(axcut::read(&[]), Err(Refusal::Size));
    assert_eq!(axcut::read(&vec![0; LARGEST_IMAGE + 1]), Err(Refusal::Size));
    let words = "refused 1: Has it 8 to 65,535 bytes?";
    assert_eq!(Refusal::Size.to_string(), words);
    for number in 1..=15 {
        let refusal = Refusal::of_number(number).unwrap();
        assert_eq!(refusal.number(), number);
        assert!(refusal
            .to_string()
            .starts_with(&format!("refused {number}: ")));
    }
    assert_eq!(Refusal::of_number(0), None);
    assert_eq!(Refusal::of_number(16), None);
}

/// Every cut and every changed byte of an image is answered, and an image that is refused leaves the
/// buffer as it was.
#[test]
fn damaged_images_are_answered() {
    let image = file("hysteresis", "program.axc");
    let mut out = vec![7; LARGEST_IMAGE];
    for place in 0..image.len() {
        let mut damaged = image.clone();
        damaged[place] ^= 0x55;
        for bytes in [&damaged[..], &image[..place]] {
            let refused = axcut::annotate_into(bytes, place, &mut out).is_err();
            assert!(!refused || out.iter().all(|&byte| byte == 7));
            out.fill(7);
        }
    }
}
