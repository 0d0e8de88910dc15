//! The options of the program.

use crate::paths::Path;
use crate::{sets, steps};

#[derive(Debug, Clone, PartialEq, Eq)]
pub struct Options {
    pub rounds: usize,
    pub seed: u64,
    /// The sets of images for the pass, and the sets of runs for the steppers.
    pub sets: Vec<&'static str>,
    pub runs: Vec<&'static str>,
    pub markdown: bool,
    /// Only this path, and nothing else, for a profiler.
    pub only: Option<Only>,
}

#[derive(Debug, Clone, Copy, PartialEq, Eq)]
pub enum Only {
    /// On the sets of images.
    Pass(Path),
    /// On the runs of all statements.
    Steps(steps::Only),
}

impl Only {
    fn of_name(name: &str) -> Option<Only> {
        let pass = Path::of_name(name).map(Only::Pass);
        pass.or_else(|| steps::Only::of_name(name).map(Only::Steps))
    }
}

pub const USAGE: &str = "bench [--rounds N] [--set small|medium|large|deep|steps|cells|entries|calls] \
                         [--seed S] [--quick] [--markdown] [--only linearize|whole|pass|read|check|\
                         source_step|linear_step|source_machine|linear_machine]";

const ROUNDS: usize = 25;
const QUICK: usize = 3;

impl Options {
    pub fn read(words: impl Iterator<Item = String>) -> Result<Options, String> {
        let mut options = Options {
            rounds: ROUNDS,
            seed: 1,
            sets: Vec::new(),
            runs: Vec::new(),
            markdown: false,
            only: None,
        };
        let mut words = words;
        while let Some(option) = words.next() {
            match option.as_str() {
                "--quick" => options.rounds = QUICK,
                "--markdown" => options.markdown = true,
                _ => {
                    let value = words.next().ok_or(format!("{option} needs a value"))?;
                    options.set(&option, &value)?;
                }
            }
        }
        if options.sets.is_empty() && options.runs.is_empty() {
            options.sets = sets::NAMES.to_vec();
            options.runs = steps::NAMES.to_vec();
        }
        Ok(options)
    }

    /// An option with a value.
    fn set(&mut self, option: &str, value: &str) -> Result<(), String> {
        let number = || {
            let parsed = value.replace(['_', ','], "").parse::<u64>();
            parsed.map_err(|error| format!("{option} {value}: {error}"))
        };
        match option {
            "--rounds" => self.rounds = number()?.max(1) as usize,
            "--seed" => self.seed = number()?,
            "--set" => self.add_set(value)?,
            "--only" => {
                let only = Only::of_name(value);
                self.only = Some(only.ok_or(format!("no path {value}"))?);
            }
            _ => return Err(format!("unknown option {option}")),
        }
        Ok(())
    }

    fn add_set(&mut self, value: &str) -> Result<(), String> {
        let find = |names: [&'static str; 4]| names.into_iter().find(|&name| name == value);
        match (find(sets::NAMES), find(steps::NAMES)) {
            (Some(set), _) => self.sets.push(set),
            (_, Some(runs)) => self.runs.push(runs),
            _ => return Err(format!("no set {value}")),
        }
        Ok(())
    }
}

#[cfg(test)]
mod tests {
    use super::*;

    fn read(words: &str) -> Result<Options, String> {
        Options::read(words.split_whitespace().map(str::to_string))
    }

    #[test]
    fn without_options() {
        let options = read("").unwrap();
        assert_eq!(options.rounds, 25);
        assert_eq!(options.sets, sets::NAMES);
        assert_eq!(options.runs, steps::NAMES);
    }

    #[test]
    fn with_options() {
        let options = read("--rounds 1_000 --set deep --set small --markdown --only pass").unwrap();
        assert_eq!(options.rounds, 1_000);
        assert_eq!(options.sets, ["deep", "small"]);
        assert!(options.runs.is_empty());
        assert!(options.markdown);
        assert_eq!(options.only, Some(Only::Pass(Path::Pass)));
        assert_eq!(read("--quick").unwrap().rounds, 3);
    }

    #[test]
    fn with_options_of_the_steppers() {
        let options = read("--set cells --set steps --only linear_step").unwrap();
        assert!(options.sets.is_empty());
        assert_eq!(options.runs, ["cells", "steps"]);
        let only = steps::Only::of_name("linear_step").unwrap();
        assert_eq!(options.only, Some(Only::Steps(only)));
        let both = read("--set cells --set deep").unwrap();
        assert_eq!((both.sets, both.runs), (vec!["deep"], vec!["cells"]));
    }

    #[test]
    fn wrong_options() {
        for words in [
            "--rounds",
            "--rounds many",
            "--set huge",
            "--only annotate",
            "--what 1",
        ] {
            assert!(read(words).is_err(), "{words}");
        }
    }
}
