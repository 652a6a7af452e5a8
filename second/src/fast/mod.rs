//! The same functions once more, written for speed with the ordinary means of safe Rust: what the proved functions are
//! timed against. Their answers are those of the modules beside this one, and a test holds them to that.
//!
//! A command bisects once, a profile is checked on the walk of the reading, a sweep keeps where it has got to, and what
//! has a fixed width is moved in one go. The builder of commands and the sense data have no second version: the one beside this
//! module has nothing to save.

pub mod bench;
pub mod checks;
pub mod columns;
pub mod command;
pub mod convert;
pub mod find;
pub mod import;
pub mod lister;
pub mod load;
pub mod mend;
pub mod reading;
pub mod rom;
pub mod sheet;
pub mod sweep;
mod wanted;
mod wire;
