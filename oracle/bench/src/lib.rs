//! The library and the Rust on the same images, its steppers and the oracle's machines on the same runs:
//! time and stack.

pub mod contexts;
pub mod options;
pub mod paths;
pub mod report;
pub mod rounds;
pub mod sets;
pub mod stack;
pub mod steps;
pub mod table;
pub mod worst;
