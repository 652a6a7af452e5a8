//! GET CONFIGURATION: the box that answers from a drive sheet or from an image, and the driver that reads the answers.
#![forbid(unsafe_code)]

pub mod bench;
pub mod checks;
pub mod command;
pub mod convert;
pub mod fast;
pub mod fewest;
pub mod find;
pub mod import;
pub mod judge;
pub mod lister;
pub mod load;
pub mod mend;
pub mod numbers;
pub mod reading;
pub mod refusal;
pub mod rom;
pub mod sense;
pub mod sheet;
pub mod sweep;
pub mod wire;

#[cfg(test)]
mod tests;
