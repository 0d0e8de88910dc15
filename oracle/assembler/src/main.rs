//! `assembler TEXT IMAGE [NAMES]`: writes the image of a text, and the spellings of its names.

use std::process::ExitCode;
use std::{env, fs};

fn main() -> ExitCode {
    let words: Vec<String> = env::args().skip(1).collect();
    let done = match words.as_slice() {
        [text, image] => assemble(text, image, None),
        [text, image, names] => assemble(text, image, Some(names)),
        _ => Err("usage: assembler TEXT IMAGE [NAMES]".into()),
    };
    match done {
        Ok(()) => ExitCode::SUCCESS,
        Err(what) => {
            eprintln!("assembler: {what}");
            ExitCode::from(2)
        }
    }
}

fn assemble(text: &str, image: &str, names: Option<&String>) -> Result<(), String> {
    let source = fs::read_to_string(text).map_err(|error| format!("{text}: {error}"))?;
    let made = assembler::assemble(&source)
        .map_err(|fault| format!("{text}:{}: {}", fault.line, fault.what))?;
    if let Some(names) = names {
        fs::write(names, made.names.lines()).map_err(|error| format!("{names}: {error}"))?;
    }
    fs::write(image, made.image).map_err(|error| format!("{image}: {error}"))
}
