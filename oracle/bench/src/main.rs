//! Times the library and the Rust on the same images, and its steppers and the oracle's machines on the
//! same runs, and measures the library's stack; `options.rs` says with what options. Exit status: 0, or 1
//! where the library's bytes are not the Rust's or its events not those of the machines, or 2 with wrong
//! options.

use bench::options::{Only, Options, USAGE};
use bench::paths::{Path, Runner};
use bench::report::{self, Report};
use bench::rounds;
use bench::sets::{self, Set};
use bench::steps::calls::Calls;
use bench::steps::runs::Scale;
use bench::steps::{self, Bench};
use differential::{stepping, subject};

use std::env;
use std::process::ExitCode;

fn main() -> ExitCode {
    let options = match Options::read(env::args().skip(1)) {
        Ok(options) => options,
        Err(error) => {
            eprintln!("{error}\n{USAGE}");
            return ExitCode::from(2);
        }
    };
    let done = match options.only {
        Some(Only::Pass(path)) => {
            only(path, &options);
            Ok(())
        }
        Some(Only::Steps(only)) => bench(&options).only(only),
        None => all(&options),
    };
    match done {
        Ok(()) => ExitCode::SUCCESS,
        Err(unlike) => {
            println!("{unlike}");
            ExitCode::FAILURE
        }
    }
}

fn all(options: &Options) -> Result<(), String> {
    report::head(subject::LINKED.name, options.seed, options.rounds);
    if !options.sets.is_empty() {
        pass(options)?;
    }
    if !options.runs.is_empty() {
        steppers(options)?;
    }
    report::foot();
    Ok(())
}

fn images(options: &Options) -> Vec<Set> {
    let names = options.sets.iter();
    names.map(|&name| sets::set(name, options.seed)).collect()
}

/// The pass on the sets of images.
fn pass(options: &Options) -> Result<(), String> {
    let sets = images(options);
    let mut runner = Runner::new(subject::LINKED);
    let report = Report {
        sets: &sets,
        markdown: options.markdown,
    };
    println!(
        "Times are ns for each record of the source: for each image the least of the rounds, summed over \
         the set."
    );
    report.sets();
    for set in &sets {
        if let Some(place) = set.images.iter().position(|image| !runner.agrees(image)) {
            let name = set.name;
            return Err(format!(
                "{name}: image {place} is not linearized as by the Rust"
            ));
        }
    }
    println!("The library's bytes are the Rust's on every image.");
    let timed: Vec<_> = sets
        .iter()
        .map(|set| rounds::run(&mut runner, set, options.rounds))
        .collect();
    report.times(&timed);
    report.medians(&timed);
    report.library(&timed);
    report.steps(&timed);
    report.stack(&mut runner);
    Ok(())
}

fn bench(options: &Options) -> Bench {
    Bench {
        calls: Calls::new(stepping::LINKED),
        scale: Scale::FULL,
        seed: options.seed,
        rounds: options.rounds,
        report: steps::report::Report {
            markdown: options.markdown,
        },
    }
}

/// The steppers on the sets of runs.
fn steppers(options: &Options) -> Result<(), String> {
    let mut bench = bench(options);
    println!("steppers: {}", stepping::LINKED.name);
    println!(
        "Times are ns for each step, if not said otherwise: for each run the least of the rounds, summed \
         over the set."
    );
    for name in &options.runs {
        bench.set(name)?;
    }
    println!("The library's events are those of the oracle's machines on every run.");
    bench.stack();
    Ok(())
}

/// One path on all images, again and again.
fn only(path: Path, options: &Options) {
    let sets = images(options);
    let mut runner = Runner::new(subject::LINKED);
    for _ in 0..options.rounds {
        for image in sets.iter().flat_map(|set| &set.images) {
            runner.time(path, image);
        }
    }
}
