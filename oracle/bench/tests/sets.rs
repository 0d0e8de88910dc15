//! The sets are what they are said to be.

use bench::paths::Runner;
use bench::sets::{NAMES, Set, set};
use differential::subject::LINKED;

const SEED: u64 = 1;

fn records_within(set: &Set, least: usize, most: usize) {
    for image in &set.images {
        assert!((least..=most).contains(&image.records));
    }
}

/// Every statement is there, contexts have some length, and the linked subject gives the Rust's bytes.
fn is_mixed(set: &Set) {
    let figures = set.figures();
    assert!(
        figures.kinds.iter().all(|&share| share >= 2.0),
        "{figures:?}"
    );
    assert!(figures.context > 2.0 && figures.substitutes > 20.0);
    let sum: f64 = figures.kinds.iter().sum();
    assert!((sum - 100.0).abs() < 0.001);
    let mut runner = Runner::new(LINKED);
    assert!(set.images.iter().all(|image| runner.agrees(image)));
}

#[test]
fn small() {
    let small = set("small", SEED);
    assert_eq!(small.images.len(), 32);
    records_within(&small, 15, 17);
    is_mixed(&small);
}

#[test]
fn medium() {
    let medium = set("medium", SEED);
    assert_eq!(medium.images.len(), 32);
    records_within(&medium, 195, 205);
    is_mixed(&medium);
}

#[test]
fn large() {
    let large = set("large", SEED);
    assert_eq!(large.images.len(), 8);
    records_within(&large, 1_795, 1_805);
    is_mixed(&large);
}

#[test]
fn deep() {
    let deep = set("deep", SEED);
    assert_eq!(deep.images.len(), 8);
    is_mixed(&deep);
    let figures = deep.figures();
    assert_eq!(figures.depth, 64);
    assert!(figures.clauses > 20, "{}", figures.clauses);
}

/// All images and outputs of a set in one number (FNV-1a).
fn hash(set: &Set) -> u64 {
    let images = set.images.iter();
    let bytes = images.flat_map(|image| image.bytes.iter().chain(&image.expected));
    bytes.fold(0xcbf2_9ce4_8422_2325, |hash, &byte| {
        (hash ^ u64::from(byte)).wrapping_mul(0x100_0000_01b3)
    })
}

/// Times are compared with earlier ones: the sets are those of before PrintI64 and Exit, byte for byte.
#[test]
fn the_sets_are_as_ever() {
    let hashes = NAMES.map(|name| hash(&set(name, SEED)));
    let expected = [
        0x76df_d229_af09_786b,
        0xb1b6_265d_4b50_c80f,
        0xdaa8_64e9_0ab3_47e3,
        0xac82_4865_3e3e_229a,
    ];
    assert_eq!(hashes, expected);
}

#[test]
fn the_same_seed_gives_the_same_images() {
    let bytes = |seed: u64| -> Vec<Vec<u8>> {
        let images = set("small", seed).images;
        images.into_iter().map(|image| image.bytes).collect()
    };
    assert_eq!(bytes(7), bytes(7));
    assert_ne!(bytes(7), bytes(8));
}
