//! Which statements generated programs hold.

use crate::rng::Rng;

#[derive(Debug, Clone, Copy, PartialEq, Eq)]
pub enum Statements {
    /// All of the source: PrintI64 and Exit are frequent, as in real programs.
    All,
    /// All but PrintI64 and Exit. The same numbers give the same programs as before there were these
    /// two, so that what is measured on them can be compared with what was measured then.
    WithoutOutput,
}

impl Statements {
    /// The value, or 0 for a program without output, which takes no number for it.
    pub(crate) fn output(self, value: impl FnOnce() -> usize) -> usize {
        match self {
            Statements::All => value(),
            Statements::WithoutOutput => 0,
        }
    }
}

/// Whether, so many times of 16, a PrintI64 or an Exit of some variable comes. It takes a number only
/// where one may come.
pub(crate) fn outputs<T>(rng: &mut Rng, of_16: usize, variables: &[T]) -> bool {
    of_16 > 0 && !variables.is_empty() && rng.chance(of_16)
}
