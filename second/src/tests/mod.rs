//! Tests, and what they share.

mod columns;
mod cross;
mod fast;
mod fewest;
mod import;
mod judge;
mod load;
mod mend;
mod places;
mod refusals;
mod rom;
mod sense;
mod sheets;
mod worked;

use crate::command::{respond, Request};
use crate::numbers::*;
use crate::refusal::Refusal;
use crate::sheet::Layout::Rows;
use crate::wire::Feature;

/// Sheet E of the paper.
pub const E: [u8; 52] = [
    0x00, 0x04, 0x00, 0x02, //
    0x00, 0x01, 0x03, 0x04, 0x00, 0x00, 0x00, 0x2C, //
    0x00, 0x03, 0x03, 0x04, 0x00, 0x00, 0x00, 0x30, //
    0x00, 0x1F, 0x01, 0x00, 0x00, 0x00, 0x00, 0x34, //
    0x01, 0x05, 0x03, 0x00, 0x00, 0x00, 0x00, 0x34, //
    0x00, 0x12, 0x01, 0x00, //
    0x00, 0x10, 0x00, 0x00, //
    0x00, 0x00, 0x00, 0x02, //
    0x29, 0x00, 0x00, 0x00,
];

/// Sheet E with its contents in columns.
pub const E_COLUMNS: [u8; 52] = [
    0x00, 0x04, 0x00, 0x02, //
    0x00, 0x01, 0x00, 0x03, 0x00, 0x1F, 0x01, 0x05, // the numbers
    0x03, 0x03, 0x01, 0x03, // the flags
    0x04, 0x04, 0x00, 0x00, // the lengths
    0x00, 0x00, 0x00, 0x2C, 0x00, 0x00, 0x00, 0x30, 0x00, 0x00, 0x00, 0x34, 0x00, 0x00, 0x00,
    0x34, // the offsets
    0x00, 0x12, 0x01, 0x00, //
    0x00, 0x10, 0x00, 0x00, //
    0x00, 0x00, 0x00, 0x02, //
    0x29, 0x00, 0x00, 0x00,
];

/// The full response of sheet E to RT 0 from 0.
pub const E_FULL: [u8; 44] = [
    0x00, 0x00, 0x00, 0x28, 0x00, 0x00, 0x00, 0x12, //
    0x00, 0x00, 0x03, 0x08, 0x00, 0x12, 0x01, 0x00, 0x00, 0x10, 0x00, 0x00, //
    0x00, 0x01, 0x03, 0x04, 0x00, 0x00, 0x00, 0x02, //
    0x00, 0x03, 0x03, 0x04, 0x29, 0x00, 0x00, 0x00, //
    0x00, 0x1F, 0x01, 0x00, //
    0x01, 0x05, 0x03, 0x00,
];

/// What a byte that must not change is set to.
pub const FILL: u8 = 0xA5;

/// A command's bytes.
pub fn command(rt: u8, sfn: u16, allocation: u16) -> [u8; 10] {
    Request { rt, sfn: Feature(sfn), allocation }.bytes()
}

/// Asks for a response; gives the number and the bytes sent, and sees that no other byte changed.
pub fn ask(sheet: &[u8], rt: u8, sfn: u16, allocation: u16) -> (u8, Vec<u8>) {
    asked(usize::from(allocation) + 16, |out| respond(Rows, sheet, &command(rt, sfn, allocation), out))
}

/// The number and the bytes that an answer into so much room gives; sees that no other byte changed.
pub fn asked(room: usize, answer: impl Fn(&mut [u8]) -> Result<usize, Refusal>) -> (u8, Vec<u8>) {
    let mut out = vec![FILL; room];
    let sent = answer(&mut out);
    let count = sent.unwrap_or(0);
    assert!(out[count..].iter().all(|&byte| byte == FILL));
    out.truncate(count);
    (told(sent).0, out)
}

/// The number and the place of what is given back; both are 0 where it is no refusal.
pub fn told<T>(given: Result<T, Refusal>) -> (u8, usize) {
    match given {
        Ok(_) => (ACCEPTED, 0),
        Err(refusal) => (refusal.number, refusal.place),
    }
}

/// A byte of a copy, and what it is set to.
pub type Change = (usize, u8);

/// A copy with some bytes changed.
pub fn changed<const LENGTH: usize>(bytes: &[u8; LENGTH], changes: &[Change]) -> [u8; LENGTH] {
    let mut copy = *bytes;
    for &(at, value) in changes {
        copy[at] = value;
    }
    copy
}

/// What the reading of E's full response is refused with for a change.
pub const UNREADABLE: [(u8, Change); 7] = [
    (DATA_LENGTH, (3, 0)),
    (DATA_LENGTH, (3, 0x29)),
    (RECEIVED_TOO_MUCH, (3, 0x24)),
    (ADDITIONAL_LENGTH, (11, 9)),
    (RESPONSE_ORDER, (29, 1)),
    (BEYOND_DATA, (43, 4)),
    (CHECK_CUT, (3, 0x2C)),
];

/// A complete response with the given descriptors' bytes.
pub fn response(profile: u16, descriptors: &[u8]) -> Vec<u8> {
    let mut bytes = (descriptors.len() as u32 + 4).to_be_bytes().to_vec();
    bytes.extend_from_slice(&[0, 0]);
    bytes.extend_from_slice(&profile.to_be_bytes());
    bytes.extend_from_slice(descriptors);
    bytes
}

/// A small generator of test numbers (xorshift).
pub struct Numbers(pub u64);

impl Numbers {
    /// The next number.
    pub fn next(&mut self) -> u64 {
        self.0 ^= self.0 << 13;
        self.0 ^= self.0 >> 7;
        self.0 ^= self.0 << 17;
        self.0
    }

    /// A number below a limit that isn't 0.
    pub fn below(&mut self, limit: u64) -> u64 {
        (self.next() >> 11) % limit
    }
}
