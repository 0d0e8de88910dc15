//! Images from text: the other direction of `axcut dump`.
//!
//! The text is a listing as `axcut dump` prints it. For people who write one, less is enough:
//!
//! - A variable may go without its `_ID`. A binder then gets the next free ID, and a use means the
//!   binder of that name that is in scope.
//! - `n5` is name number 5. Any other name gets the next number where it first stands.
//! - Where a variable is used, chirality and type may be left out, and so may the type of `switch` and
//!   `invoke`: they are those of its binder.
//! - `max_id` may be left out: it is the largest ID of a binder.
//! - `//` begins a remark.
//!
//! A statement that begins with `substitute`, `let`, `switch`, `create`, `invoke`, `lit`, `if`,
//! `print_i64`, `println_i64` or `exit` is that one. A label with such a name is called with its ID:
//! `exit_0(x_1)` calls `exit`, `exit x_1` exits.

mod names;
mod parser;
mod records;
mod tokens;

pub use names::Names;

/// An image, and the spellings of its name numbers.
#[derive(Debug)]
pub struct Assembled {
    pub image: Vec<u8>,
    pub names: Names,
}

/// What is wrong with a text, and in which line.
#[derive(Debug, Clone, PartialEq, Eq)]
pub struct Fault {
    pub line: usize,
    pub what: String,
}

/// The image of a text. The questions of the library are not asked.
pub fn assemble(text: &str) -> Result<Assembled, Fault> {
    parser::Parser::new(tokens::tokens(text)?).program()
}
