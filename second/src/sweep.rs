//! The driver's sweep: collects all descriptors of a drive, one response at a time.

use crate::command::most_bytes;
use crate::numbers::*;
use crate::reading::read_and_last;
use crate::wire::{part, Feature, Profile};

/// The most commands so far with which a record takes another response.
pub(crate) const COMMANDS_MOST: u32 = 65_535;

/// Where a sweep stands.
#[derive(Clone, Copy, Debug, PartialEq, Eq)]
pub struct Record {
    pub rt: u8,
    pub allocation: u16,
    pub next: Feature,
    pub commands: u32,
    pub collected: usize,
    pub ended: bool,
    /// The Current Profile of the first accepted response.
    pub profile: Profile,
}

impl Record {
    /// The record that a refused start gives: ended, with all numbers 0.
    pub fn refused() -> Record {
        Record {
            rt: 0,
            allocation: 0,
            next: Feature(0),
            commands: 0,
            collected: 0,
            ended: true,
            profile: Profile(0),
        }
    }

    /// Starts a sweep; gives 0, 21 or 22, and the record.
    pub fn start(rt: u8, allocation: u16) -> (u8, Record) {
        match check_request(rt, allocation) {
            ACCEPTED => (ACCEPTED, Record { rt, allocation, ended: false, ..Record::refused() }),
            number => (number, Record::refused()),
        }
    }

    /// Takes one response; gives the number and the next record, and adds the whole descriptors to the buffer.
    pub fn take(self, response: &[u8], buffer: &mut [u8]) -> (u8, Record) {
        let (descriptors, after) = match self.step(response) {
            Ok(step) => step,
            // 23 and 45 end the sweep; every other refusal leaves the record as it was.
            Err(number @ (NOTHING_WHOLE | PROFILE_CHANGED)) => {
                return (number, Record { ended: true, ..self })
            }
            Err(number) => return (number, self),
        };
        let behind = buffer.get_mut(self.collected..);
        match behind.and_then(|behind| behind.get_mut(..descriptors.len())) {
            Some(room) => room.copy_from_slice(descriptors),
            None => return (COLLECTED_FULL, self),
        }
        (ACCEPTED, after.with_collected(descriptors.len()))
    }

    /// Checks all but 24; gives the descriptors to add and the record with its next start or its end set.
    fn step(self, response: &[u8]) -> Result<(&[u8], Record), u8> {
        let number = check_request(self.rt, self.allocation);
        if number != ACCEPTED {
            return Err(number);
        }
        if self.ended || self.commands > COMMANDS_MOST {
            return Err(SWEEP_ENDED);
        }
        let most = most_bytes(self.allocation);
        let (reading, last) = read_and_last(self.rt, self.next, response, Some(most))?;
        let descriptors = part(response, HEADER_BYTES, reading.end);
        if !reading.complete && response.len() < most {
            return Err(CUT_SHORT);
        }
        let first = self.commands == 0;
        if !first && reading.profile != self.profile {
            return Err(PROFILE_CHANGED);
        }
        let profile = if first { reading.profile } else { self.profile };
        if reading.complete {
            return Ok((descriptors, Record { ended: true, profile, ..self }));
        }
        let last = last.ok_or(NOTHING_WHOLE)?;
        let next = last.0.checked_add(1).ok_or(CUT_AFTER_LAST)?;
        Ok((descriptors, Record { next: Feature(next), profile, ..self }))
    }

    /// Counts one more command and the bytes it added, which fit the buffer.
    fn with_collected(self, added: usize) -> Record {
        Record { commands: self.commands + 1, collected: self.collected + added, ..self }
    }
}

/// Checks 21, then 22.
fn check_request(rt: u8, allocation: u16) -> u8 {
    if rt > 1 {
        return SWEEP_RT;
    }
    if usize::from(allocation) < HEADER_BYTES {
        return SWEEP_ALLOCATION;
    }
    ACCEPTED
}
