//! The runs that are stepped, each on both machines.

use super::figures::Figures;
use super::machines::Oracle;
use super::programs::{self, Over, Touching};
use crate::sets::Image;
use generators::{Rng, Statements, starts, typed};
use reference::image::order;
use reference::machines::{Event, Given};
use reference::syntax::{Name, Prog};
use stepper::Machine;

use std::fmt;

/// A run of one machine from a start, and the stretch of it that is timed.
pub struct Run {
    pub machine: Machine,
    pub image: Vec<u8>,
    /// What the image reads as.
    pub program: Prog,
    pub definition: usize,
    pub given: Vec<Given>,
    /// The steps that come before the stretch.
    pub before: u64,
    pub steps: u64,
}

/// Runs of one machine.
pub struct Set {
    pub name: String,
    pub machine: Machine,
    pub runs: Vec<Run>,
}

impl fmt::Display for Set {
    fn fmt(&self, f: &mut fmt::Formatter) -> fmt::Result {
        let machine = match self.machine {
            Machine::Source => "source",
            Machine::Linear => "linear",
        };
        write!(f, "{}, {machine}", self.name)
    }
}

pub const MACHINES: [Machine; 2] = [Machine::Source, Machine::Linear];

/// How long the timed stretches are, and how many cells and entries there are.
#[derive(Debug, Clone)]
pub struct Scale {
    /// The steps of the runs of all statements, and how many of these are generated.
    pub steps: u64,
    pub generated: usize,
    /// The steps in a store with so many cells: where they are read, and where others are made.
    pub reading: u64,
    pub making: u64,
    pub cells: [usize; 3],
    /// The steps with so many entries.
    pub touching: u64,
    pub entries: [u32; 6],
}

impl Scale {
    pub const FULL: Scale = Scale {
        steps: 20_000,
        generated: 16,
        reading: 30_000,
        making: 4_000,
        cells: [10, 1_000, 100_000],
        touching: 3_000,
        entries: [1, 2, 4, 8, 16, programs::MOST_ENTRIES],
    };
}

impl Run {
    /// So many steps from a start: on the program's image, or on that of its linearization.
    fn new(machine: Machine, started: &Started, steps: u64) -> Run {
        let image = &started.image;
        let (bytes, program) = match machine {
            Machine::Source => (&image.bytes, &image.source),
            Machine::Linear => (&image.expected, &image.linear),
        };
        Run {
            machine,
            image: bytes.clone(),
            program: program.clone(),
            definition: started.definition,
            given: started.given.clone(),
            before: 0,
            steps,
        }
    }

    pub fn records(&self) -> usize {
        order::records(&self.program).len()
    }

    /// The same from behind the first Call of that label.
    fn behind_call(self, label: u16) -> Run {
        let mut machine = Oracle::start(&self).expect("it starts");
        let (mut before, mut called) = (0, false);
        while !called {
            before += machine.advance(1, |event| {
                called = event == Some(Event::Call { label: Name(label) });
            });
        }
        Run { before, ..self }
    }
}

/// A program and a start of it.
struct Started {
    image: Image,
    definition: usize,
    given: Vec<Given>,
}

impl Started {
    /// The first definition of a program with integers.
    fn first(prog: Prog, given: &[i64]) -> Started {
        Started {
            image: Image::accepted(prog).expect("within the limits"),
            definition: 0,
            given: given.iter().copied().map(Given::Int).collect(),
        }
    }

    /// The first definition of an image with an integer for each parameter.
    fn of_image(image: Image) -> Started {
        let count = image.source.defs[0].params.len();
        Started {
            image,
            definition: 0,
            given: vec![Given::Int(1); count],
        }
    }
}

/// The sets of both machines.
fn on_both(name: &str, starts: &[Started], run: impl Fn(Machine, &Started) -> Run) -> [Set; 2] {
    MACHINES.map(|machine| Set {
        name: name.to_string(),
        machine,
        runs: starts.iter().map(|started| run(machine, started)).collect(),
    })
}

/// The runs of all statements: one that is written down, and generated ones.
pub fn of_all_statements(scale: &Scale, seed: u64) -> Vec<Set> {
    let mixed = [Started::first(programs::mixed(), &[FOREVER, 0])];
    let run = |machine: Machine, started: &Started| Run::new(machine, started, scale.steps);
    let mixed = on_both("mixed", &mixed, run);
    let generated = on_both("generated", &generated(scale, seed), run);
    mixed.into_iter().chain(generated).collect()
}

/// What counts down does not come to an end.
const FOREVER: i64 = 1 << 40;

/// A generated run has so many kinds of statement at least, each with one of a hundred steps or more.
const LEAST_KINDS: usize = 6;

/// Generated programs with a start from which both machines make all steps.
fn generated(scale: &Scale, seed: u64) -> Vec<Started> {
    let lasts = |started: &Started| {
        MACHINES.into_iter().all(|machine| {
            let figures = Figures::of(&Run::new(machine, started, scale.steps));
            figures.is_some_and(|figures| figures.frequent_kinds() >= LEAST_KINDS)
        })
    };
    let found = (0..).filter_map(|index| {
        let mut rng = Rng::of_case(seed, index);
        let source = typed::program_of(&mut rng, Statements::All);
        let (definition, given) = starts::start(&mut rng, &source);
        let started = Started {
            image: Image::accepted(source)?,
            definition,
            given,
        };
        lasts(&started).then_some(started)
    });
    found.take(scale.generated).collect()
}

/// For each loop and machine a run with each number of cells in the store.
pub fn over_cells(scale: &Scale) -> Vec<Set> {
    let mut sets = Vec::new();
    for over in Over::ALL {
        let steps = match over {
            Over::Reads => scale.reading,
            Over::Makes => scale.making,
        };
        let starts = scale.cells.map(|cells| {
            let first = (cells - programs::OTHER_CELLS) as i64;
            Started::first(programs::cells(over), &[first, FOREVER])
        });
        sets.extend(on_both(over.name(), &starts, |machine, started| {
            Run::new(machine, started, steps).behind_call(programs::LOOP)
        }));
    }
    sets
}

/// For each loop and machine a run with each number of entries.
pub fn over_entries(scale: &Scale) -> Vec<Set> {
    let mut sets = Vec::new();
    for touching in Touching::ALL {
        let starts = scale.entries.map(|count| {
            let given: Vec<i64> = (1..=count.into()).collect();
            Started::first(programs::entries(touching, count), &given)
        });
        sets.extend(on_both(touching.name(), &starts, |machine, started| {
            Run::new(machine, started, scale.touching)
        }));
    }
    sets
}

/// Starts of the first definition of each image, and at most so many steps.
pub fn of_images(name: &str, images: Vec<Image>, steps: u64) -> [Set; 2] {
    let starts: Vec<Started> = images.into_iter().map(Started::of_image).collect();
    on_both(name, &starts, |machine, started| {
        Run::new(machine, started, steps)
    })
}
