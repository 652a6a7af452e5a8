//! Inputs: good ones, ones with chosen faults, and damaged ones.

pub mod captures;
pub mod damage;
pub mod faults;
pub mod responses;
pub mod sheets;

/// A descriptor: feature number, flags, body.
pub type Part = (u16, u8, Vec<u8>);

/// Writes two bytes, the higher first.
pub fn put16(bytes: &mut [u8], at: usize, number: u16) {
    bytes[at..at + 2].copy_from_slice(&number.to_be_bytes());
}

/// Writes four bytes, the highest first.
pub fn put32(bytes: &mut [u8], at: usize, number: u32) {
    bytes[at..at + 4].copy_from_slice(&number.to_be_bytes());
}
