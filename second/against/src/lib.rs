//! The proved functions against the second program.
#![forbid(unsafe_code)]

pub mod cases;
pub mod kinds;
pub mod lent;
pub mod made;
pub mod random;
pub mod run;
pub mod timing;
