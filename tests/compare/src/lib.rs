//! Compares the proved engine with the second program.
//!
//! A *case* is one call of an entry point. Both sides get the same arguments and the same bytes in the output beforehand, and
//! must give the same number, the same counts and the same bytes. Where the way a case was made settles its answer by
//! the rules, both are also held to that: a *promise*.

pub mod batch;
pub mod case;
pub mod data;
pub mod edges;
pub mod erased;
pub mod found;
pub mod frames;
pub mod items;
pub mod kinds;
pub mod knots;
pub mod packed;
pub mod pieces;
pub mod promise;
pub mod refusals;
pub mod states;
pub mod words;
