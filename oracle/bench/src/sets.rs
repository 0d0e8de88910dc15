//! The sets of images. All are made from one seed, and linearization answers 0 for each.

mod deep;
mod joined;

use crate::contexts;
use generators::{Rng, build};
use reference::image::{Record, order};
use reference::oracle::Oracle;
use reference::syntax::Prog;

/// The statements whose share is told, by kind byte, and their names: all that the sets hold.
pub const KINDS: [(u8, &str); 8] = [
    (3, "Call"),
    (4, "Let"),
    (5, "Switch"),
    (6, "Create"),
    (7, "Invoke"),
    (8, "Literal"),
    (9, "Op"),
    (10, "IfC"),
];

pub struct Image {
    pub source: Prog,
    pub bytes: Vec<u8>,
    pub records: usize,
    /// What the pass gives.
    pub linear: Prog,
    /// Its image.
    pub expected: Vec<u8>,
}

impl Image {
    /// The image of a program, if linearization with the largest buffer answers 0.
    pub fn accepted(source: Prog) -> Option<Image> {
        let bytes = build::image(&source);
        let oracle = Oracle::new(&bytes);
        let needed = oracle.needed().ok()?;
        let linear = oracle.linearized().ok()?.clone();
        let mut expected = vec![0; needed];
        oracle.linearize(&mut expected);
        Some(Image {
            records: order::records(&source).len(),
            source,
            bytes,
            linear,
            expected,
        })
    }
}

pub struct Set {
    pub name: &'static str,
    pub images: Vec<Image>,
}

pub const NAMES: [&str; 4] = ["small", "medium", "large", "deep"];

/// The set of that name.
pub fn set(name: &'static str, seed: u64) -> Set {
    let images = |count: u64, make: fn(&mut Rng) -> Image| -> Vec<Image> {
        (0..count)
            .map(|index| make(&mut Rng::of_case(seed, index)))
            .collect()
    };
    let images = match name {
        "small" => images(32, |rng| joined::of_records(rng, 15, 17)),
        "medium" => images(32, |rng| joined::of_records(rng, 195, 205)),
        "large" => images(8, |rng| joined::of_records(rng, 1_795, 1_805)),
        "deep" => images(8, deep::image),
        _ => unreachable!("one of the names above"),
    };
    Set { name, images }
}

/// What a set is like.
#[derive(Debug, Clone, Default, PartialEq)]
pub struct Figures {
    pub images: usize,
    /// Means for an image.
    pub records: f64,
    pub bytes: f64,
    pub records_out: f64,
    pub bytes_out: f64,
    /// The mean and the largest number of bindings in the context of a statement.
    pub context: f64,
    pub largest_context: usize,
    /// Substitutes for a hundred statements, and the mean number of pairs in one.
    pub substitutes: f64,
    pub pairs: f64,
    /// Of a hundred statements, so many are of each of `KINDS`.
    pub kinds: [f64; KINDS.len()],
    /// The deepest statement, and the most clauses on the way to one.
    pub depth: usize,
    pub clauses: usize,
}

impl Set {
    pub fn records(&self) -> usize {
        self.images.iter().map(|image| image.records).sum()
    }

    pub fn figures(&self) -> Figures {
        let images = self.images.len() as f64;
        let mean = |of: fn(&Image) -> usize| -> f64 {
            self.images.iter().map(of).sum::<usize>() as f64 / images
        };
        let mut seen = contexts::Seen::default();
        let mut figures = Figures {
            images: self.images.len(),
            records: mean(|image| image.records),
            bytes: mean(|image| image.bytes.len()),
            records_out: mean(|image| order::records(&image.linear).len()),
            bytes_out: mean(|image| image.expected.len()),
            ..Figures::default()
        };
        for image in &self.images {
            contexts::program(&image.linear, &mut seen);
            for record in order::records(&image.source) {
                let place = KINDS.iter().position(|(kind, _)| *kind == record.kind());
                if let Some(place) = place {
                    figures.kinds[place] += 1.0;
                }
            }
            for record in order::records(&image.linear) {
                if let Record::Substitute { rearrange } = record {
                    figures.substitutes += 1.0;
                    figures.pairs += rearrange.len() as f64;
                }
            }
        }
        let statements: f64 = figures.kinds.iter().sum();
        figures.pairs /= figures.substitutes.max(1.0);
        figures.substitutes *= 100.0 / statements;
        figures
            .kinds
            .iter_mut()
            .for_each(|kind| *kind *= 100.0 / statements);
        figures.context = seen.bindings as f64 / seen.statements as f64;
        figures.largest_context = seen.largest;
        figures.depth = seen.depth;
        figures.clauses = seen.clauses;
        figures
    }
}
