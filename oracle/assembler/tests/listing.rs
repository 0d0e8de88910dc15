//! What `axcut dump --types` prints of an image is a text of just that image. Needs the tool
//! (`make tool`).

use generators::cases::Cases;
use reference::calls;
use std::io::Write;
use std::path::{Path, PathBuf};
use std::process::{Command, Stdio};
use std::thread;

const SEED: u64 = 1;
/// How many of the fixed cases are tried: one in so many, and how many generated ones.
const EVERY: usize = 97;
const GENERATED: u64 = 1_500;
/// How many generated cases are listed with annotations.
const ANNOTATED: u64 = 300;

fn tool() -> PathBuf {
    Path::new(env!("CARGO_MANIFEST_DIR")).join("../../target/bin/tool_command")
}

fn dump(image: &[u8], options: &[&str]) -> String {
    let mut tool = Command::new(tool())
        .arg("dump")
        .args(options)
        .stdin(Stdio::piped())
        .stdout(Stdio::piped())
        .spawn()
        .expect("the tool is built by `make tool`");
    let mut input = tool.stdin.take().unwrap();
    let image = image.to_vec();
    let writer = thread::spawn(move || input.write_all(&image));
    let output = tool.wait_with_output().unwrap();
    writer.join().unwrap().unwrap();
    String::from_utf8(output.stdout).unwrap()
}

/// Both ways, if the image is one.
fn both_ways(image: &[u8], options: &[&str]) -> bool {
    if calls::read(image).number != 0 {
        return false;
    }
    let listing = dump(image, options);
    let made = assembler::assemble(&listing)
        .unwrap_or_else(|fault| panic!("line {}: {}\n{listing}", fault.line, fault.what));
    assert!(made.image == image, "another image:\n{listing}");
    true
}

/// The image that linearization gives.
fn linearized(image: &[u8]) -> Option<Vec<u8>> {
    let mut out = vec![0; 65_535];
    let answer = calls::linearize(image, &mut out);
    out.truncate(answer.length);
    (answer.number == 0).then_some(out)
}

#[test]
fn a_listing_is_a_text_of_its_image() {
    let cases = Cases::new(SEED);
    let fixed = (0..cases.fixed()).step_by(EVERY).map(|place| place as u64);
    let generated = (0..GENERATED).map(|place| cases.fixed() as u64 + place);
    let (mut images, mut outputs) = (0, 0);
    for case in fixed.chain(generated) {
        let image = cases.image(case);
        images += u64::from(both_ways(&image, &["--types"]));
        if let Some(linear) = linearized(&image) {
            outputs += u64::from(both_ways(&linear, &["--types", "--records"]));
        }
    }
    println!("{images} images, {outputs} linearized ones");
    assert!(images > 500 && outputs > 200);
}

/// The sets of a record as they stand in a listing: `clauses {1}, next {1, 2}`.
fn sets(kind: u8, annotation: &[u8]) -> String {
    let words: &[&str] = match kind {
        5 => &["clauses"],
        6 => &["clauses", "next"],
        4 | 8 | 9 | 12 => &["next"],
        _ => panic!("kind {kind} has no annotation"),
    };
    let mut halves = annotation
        .chunks_exact(2)
        .map(|half| u16::from_le_bytes([half[0], half[1]]));
    let mut set = |word: &&str| {
        let count = halves.next().unwrap().into();
        let ids: Vec<String> = halves
            .by_ref()
            .take(count)
            .map(|id| id.to_string())
            .collect();
        format!("{word} {{{}}}", ids.join(", "))
    };
    words
        .iter()
        .map(&mut set)
        .collect::<Vec<String>>()
        .join(", ")
}

/// The remarks of a listing with records and annotations are the oracle's annotations, if there are any.
fn annotated(image: &[u8]) -> usize {
    let records = u16::from_le_bytes([image[6], image[7]]).into();
    let listing = dump(image, &["--records", "--annotations"]);
    let remarks: Vec<&str> = listing
        .lines()
        .filter_map(|line| line.split_once("  // "))
        .map(|(_, remark)| remark)
        .collect();
    assert_eq!(remarks.len(), records);
    let mut out = vec![0; 65_535];
    let mut sets_seen = 0;
    for (record, remark) in remarks.into_iter().enumerate() {
        let answer = calls::annotate(image, record, &mut out);
        let at = 8 + 4 * record;
        let kind = image[usize::from(u16::from_le_bytes([image[at], image[at + 1]]))];
        if answer.number == 0 {
            assert_eq!(
                remark,
                format!("{record}: {}", sets(kind, &out[..answer.length]))
            );
            sets_seen += 1;
        } else {
            assert_eq!((answer.number, remark), (13, record.to_string().as_str()));
        }
    }
    sets_seen
}

#[test]
fn remarks_are_the_annotations() {
    let cases = Cases::new(SEED);
    let mut seen = 0;
    for place in 0..ANNOTATED {
        let image = cases.image(cases.fixed() as u64 + place);
        // 13 comes behind questions 1 to 7
        if calls::annotate(&image, usize::MAX, &mut []).number == 13 {
            seen += annotated(&image);
        }
    }
    println!("{seen} annotations");
    assert!(seen > 1_000);
}
