//! Rounds over a set: in each round every path in turn, and in it every image once, timed on its own.

use crate::paths::{Path, Runner, STEPS};
use crate::sets::Set;

use std::time::Duration;

/// The first rounds do not count.
pub const WARM_UP: usize = 2;

/// The times of each image in the rounds, in ns.
#[derive(Debug, Clone)]
pub struct Times(Vec<Vec<u64>>);

impl Times {
    pub fn new(images: usize) -> Times {
        Times(vec![Vec::new(); images])
    }

    /// One time more of the image at that place.
    pub fn add(&mut self, place: usize, time: Duration) {
        self.0[place].push(time.as_nanos() as u64);
    }

    /// The least time of the image at that place.
    pub fn least_of(&self, place: usize) -> u64 {
        *self.0[place].iter().min().expect("one round or more")
    }

    /// The least time of each image, summed. Other work on the machine only adds to a time.
    pub fn least(&self) -> u64 {
        (0..self.0.len()).map(|place| self.least_of(place)).sum()
    }

    /// The median time of each image, summed.
    pub fn median(&self) -> u64 {
        let median = |times: &Vec<u64>| {
            let mut sorted = times.clone();
            sorted.sort_unstable();
            sorted[sorted.len() / 2]
        };
        self.0.iter().map(median).sum()
    }
}

/// The times of a set.
pub struct Timed {
    pub records: usize,
    paths: Vec<(Path, Times)>,
    pub steps: Vec<Times>,
}

impl Timed {
    pub fn of(&self, path: Path) -> &Times {
        let found = self.paths.iter().find(|(known, _)| *known == path);
        &found.expect("every path was run").1
    }

    /// ns for each record of the source.
    pub fn per_record(&self, time: u64) -> f64 {
        time as f64 / self.records as f64
    }

    /// How many times as long the path takes as the library: by the least times, and by the medians.
    pub fn ratio(&self, path: Path) -> (f64, f64) {
        let (path, library) = (self.of(path), self.of(Path::Linearize));
        (
            path.least() as f64 / library.least() as f64,
            path.median() as f64 / library.median() as f64,
        )
    }
}

pub fn run(runner: &mut Runner, set: &Set, rounds: usize) -> Timed {
    let images = set.images.len();
    let mut timed = Timed {
        records: set.records(),
        paths: Path::ALL
            .iter()
            .map(|&path| (path, Times::new(images)))
            .collect(),
        steps: STEPS.iter().map(|_| Times::new(images)).collect(),
    };
    for round in 0..WARM_UP + rounds {
        let counts = round >= WARM_UP;
        for (path, times) in &mut timed.paths {
            for (place, image) in set.images.iter().enumerate() {
                let time = runner.time(*path, image);
                if counts {
                    times.add(place, time);
                }
            }
        }
        for (place, image) in set.images.iter().enumerate() {
            let steps = runner.steps(image);
            if counts {
                for (step, times) in steps.iter().zip(&mut timed.steps) {
                    times.add(place, *step);
                }
            }
        }
    }
    timed
}

#[cfg(test)]
mod tests {
    use super::*;
    use crate::sets::Image;
    use differential::subject::LINKED;
    use generators::changes::every_kind;

    #[test]
    fn least_and_median_are_by_image() {
        let times = Times(vec![vec![5, 3, 9], vec![20, 40, 10]]);
        assert_eq!(times.least(), 3 + 10);
        assert_eq!(times.median(), 5 + 20);
    }

    #[test]
    fn rounds_are_counted() {
        let image = || Image::accepted(every_kind()).unwrap();
        let set = Set {
            name: "two",
            images: vec![image(), image()],
        };
        let timed = run(&mut Runner::new(LINKED), &set, 3);
        assert_eq!(timed.records, 26);
        for path in Path::ALL {
            let times = timed.of(path);
            assert!(times.0.iter().all(|of_image| of_image.len() == 3));
            assert!(times.0.len() == 2 && times.least() > 0);
            assert!(times.least() <= times.median());
        }
        assert_eq!(timed.steps.len(), STEPS.len());
        assert_eq!(timed.ratio(Path::Linearize), (1.0, 1.0));
    }
}
