//! What the tests in Rust have in common: random numbers, frames and what spoils them, counting and printing, and work on all
//! processors.

pub mod bits;
pub mod chain;
pub mod damage;
pub mod division;
pub mod random;
pub mod run;
pub mod score;
pub mod tally;
pub mod written;
