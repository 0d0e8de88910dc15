//! Images and programs to try the oracle and the library on: accepted programs of all shapes,
//! programs whose runs get far, damaged copies aimed at each question, every boundary of document 01,
//! and all small ones; images for the linear machine, and starts and stores for the steppers.

pub mod boundaries;
pub mod build;
pub mod cases;
pub mod changes;
pub mod damage;
pub mod large;
pub mod linear;
pub mod rng;
pub mod small;
pub mod starts;
mod statements;
pub mod stores;
pub mod typed;
pub mod wild;

pub use rng::Rng;
pub use statements::Statements;
