//! `differential [--cases N] [--seed S] [--first I] [--threads T] [--save FILE] [--image FILE]
//! [--stack KIB] [--show I] [--calls N]`
//!
//! Compares the library with the oracle on N cases. Prints the seed, the cases by answer and the
//! mismatches; with a mismatch the exit status is 1 and the smallest failing image is saved.
//! `--image` compares on the image in that file only. `--stack` makes calls on a thread with so many
//! KiB of stack instead, and `--show` prints the image of one case in hexadecimal. `--calls` compares the
//! steppers instead, in so many calls; `--first` is then a session, and the smallest failing image is saved
//! with the store before the call beside it.

use differential::{Report, calls_with_stack, run, stepping, subject, watch_for_faults};
use generators::cases::Cases;

use std::process::ExitCode;
use std::time::{Duration, Instant};
use std::{env, fs, thread};

/// The generated cases whose calls are made with little stack.
const STACK_CASES: u64 = 20_000;

struct Options {
    cases: u64,
    seed: u64,
    first: u64,
    threads: usize,
    save: String,
    image: Option<Vec<u8>>,
    stack: Option<u64>,
    show: Option<u64>,
    calls: Option<u64>,
}

fn options() -> Result<Options, String> {
    let mut options = Options {
        cases: 1_000_000,
        seed: 1,
        first: 0,
        threads: thread::available_parallelism().map_or(1, usize::from),
        save: "mismatch.image".to_string(),
        image: None,
        stack: None,
        show: None,
        calls: None,
    };
    let mut words = env::args().skip(1);
    while let Some(option) = words.next() {
        let value = words.next().ok_or(format!("{option} needs a value"))?;
        let number = || {
            let parsed = value.replace(['_', ','], "").parse::<u64>();
            parsed.map_err(|error| format!("{option} {value}: {error}"))
        };
        match option.as_str() {
            "--cases" => options.cases = number()?,
            "--seed" => options.seed = number()?,
            "--first" => options.first = number()?,
            "--threads" => options.threads = number()?.clamp(1, 64) as usize,
            "--save" => options.save = value,
            "--image" => {
                let image = fs::read(&value).map_err(|error| format!("{value}: {error}"))?;
                options.image = Some(image);
                options.cases = 1;
            }
            "--stack" => options.stack = Some(number()?),
            "--show" => options.show = Some(number()?),
            "--calls" => options.calls = Some(number()?),
            _ => return Err(format!("unknown option {option}")),
        }
    }
    Ok(options)
}

fn main() -> ExitCode {
    let options = match options() {
        Ok(options) => options,
        Err(error) => {
            eprintln!("{error}");
            return ExitCode::from(2);
        }
    };
    if let Some(calls) = options.calls {
        return compare_steppers(&options, calls);
    }
    let cases = match &options.image {
        Some(image) => Cases::of_image(options.seed, image.clone()),
        None => Cases::new(options.seed),
    };
    if let Some(index) = options.show {
        let bytes = cases.image(index);
        let words: Vec<String> = bytes.iter().map(|byte| format!("{byte:02X}")).collect();
        println!("{}", words.join(" "));
        return ExitCode::SUCCESS;
    }
    println!("subject: {}", subject::LINKED.name);
    if let Some(kib) = options.stack {
        let bytes = 1_024 * kib as usize;
        let calls = calls_with_stack(subject::LINKED, &cases, STACK_CASES, bytes);
        println!("{calls} calls with {kib} KiB of stack");
        return ExitCode::SUCCESS;
    }
    println!(
        "seed {}, cases {} from {} ({} fixed), {} threads",
        options.seed,
        options.cases,
        options.first,
        cases.fixed(),
        options.threads
    );
    watch_for_faults();
    let begun = Instant::now();
    let report = run(
        subject::LINKED,
        &cases,
        options.first,
        options.cases,
        options.threads,
    );
    print(&report, begun.elapsed());
    if report.mismatches == 0 {
        return ExitCode::SUCCESS;
    }
    if let Some((index, image)) = &report.smallest {
        match fs::write(&options.save, image) {
            Ok(()) => println!(
                "smallest failing image: case {index}, {} bytes, saved as {}",
                image.len(),
                options.save
            ),
            Err(error) => println!("{} was not saved: {error}", options.save),
        }
    }
    ExitCode::FAILURE
}

fn compare_steppers(options: &Options, calls: u64) -> ExitCode {
    println!("subject: {}", stepping::LINKED.name);
    println!(
        "seed {}, {calls} calls in sessions of {} from {}, {} threads",
        options.seed,
        stepping::CALLS,
        options.first,
        options.threads
    );
    let sessions = stepping::Sessions {
        seed: options.seed,
        first: options.first,
        calls,
        image: options.image.clone(),
    };
    watch_for_faults();
    let begun = Instant::now();
    let report = stepping::run(stepping::LINKED, &sessions, options.threads);
    print_steppers(&report, begun.elapsed());
    let Some(failing) = &report.smallest else {
        return ExitCode::SUCCESS;
    };
    let store = format!("{}.store", options.save);
    let saved =
        fs::write(&options.save, &failing.image).and_then(|()| fs::write(&store, &failing.store));
    match saved {
        Ok(()) => println!(
            "smallest failing call: session {}, {}; saved as {} and {store}",
            failing.session, failing.what, options.save
        ),
        Err(error) => println!("{} was not saved: {error}", options.save),
    }
    ExitCode::FAILURE
}

fn print_steppers(report: &stepping::Report, time: Duration) {
    println!("calls by answer:");
    print!("{:>13}", "");
    (0..report.answers[0].len()).for_each(|number| print!("{number:>8}"));
    println!();
    let names = ["source start", "source step", "linear start", "linear step"];
    for (name, answers) in names.iter().zip(&report.answers) {
        print!("{name:>13}");
        answers.iter().for_each(|count| print!("{count:>8}"));
        println!();
    }
    let [ended, stopped, stuck] = report.ends;
    println!(
        "{} steps and {} event bytes; calls that came to an end: {ended} ended, {stopped} stopped, {stuck} stuck",
        report.steps, report.event_bytes
    );
    let [passed, forged] = report.forged;
    println!("forged stores: {forged}, of which {passed} are those of a state");
    println!(
        "{} calls in {} sessions, {:.1} s, {} mismatches",
        report.calls,
        report.sessions,
        time.as_secs_f64(),
        report.mismatches
    );
    report.first.iter().for_each(|line| println!("  {line}"));
}

fn print(report: &Report, time: Duration) {
    println!("calls by answer:");
    print!("{:>10}", "");
    (0..report.answers[0].len()).for_each(|number| print!("{number:>9}"));
    println!();
    for (name, answers) in ["read", "check", "linearize", "annotate"]
        .iter()
        .zip(&report.answers)
    {
        print!("{name:>10}");
        answers.iter().for_each(|count| print!("{count:>9}"));
        println!();
    }
    let [with_print, with_exit] = report.accepted.shares();
    println!(
        "accepted programs: {}, of a hundred {with_print:.1} hold a PrintI64 and {with_exit:.1} an Exit",
        report.accepted.programs
    );
    println!(
        "demand 3: {} runs, {} events, {} substitutes, {} ended",
        report.runs, report.events, report.substitutes, report.ended
    );
    println!(
        "{} cases in {:.1} s, {} mismatches",
        report.cases,
        time.as_secs_f64(),
        report.mismatches
    );
    report.first.iter().for_each(|line| println!("  {line}"));
}
