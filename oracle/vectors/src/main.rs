//! `vectors FILE` writes the sample, and prints the summary of a replay where every call agrees.

use std::process::ExitCode;
use std::{env, fs};

fn main() -> ExitCode {
    let Some(file) = env::args().nth(1) else {
        eprintln!("vectors FILE");
        return ExitCode::from(2);
    };
    let (sample, sessions) = (vectors::sample(), vectors::sessions());
    if let Err(error) = fs::write(&file, vectors::file(&sample, &sessions)) {
        eprintln!("{file}: {error}");
        return ExitCode::FAILURE;
    }
    print!("{}", vectors::summary(&sample, &sessions));
    ExitCode::SUCCESS
}
