//! Properties of words, frames and dumps, against a plain reading of the rules.

mod dumps;
mod frames;
mod plain;
mod spoiled;
mod words;
