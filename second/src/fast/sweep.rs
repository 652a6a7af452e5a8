//! The driver's sweep: one walk for a response.

use super::reading::read_each;
use super::wire::Header;
use crate::command::most_bytes;
use crate::numbers::*;
use crate::sweep::{Record, COMMANDS_MOST};
use crate::wire::Feature;

/// Takes one response; gives the number and the next record, and adds the whole descriptors to the buffer.
pub fn take(record: Record, response: &[u8], buffer: &mut [u8]) -> (u8, Record) {
    match step(record, response, buffer) {
        Ok(after) => (ACCEPTED, after),
        // 23 and 45 end the sweep; every other refusal leaves the record as it was.
        Err(number @ (NOTHING_WHOLE | PROFILE_CHANGED)) => (number, Record { ended: true, ..record }),
        Err(number) => (number, record),
    }
}

/// Checks all, and then adds the descriptors.
fn step(record: Record, response: &[u8], buffer: &mut [u8]) -> Result<Record, u8> {
    if record.rt > 1 {
        return Err(SWEEP_RT);
    }
    if usize::from(record.allocation) < HEADER_BYTES {
        return Err(SWEEP_ALLOCATION);
    }
    if record.ended || record.commands > COMMANDS_MOST {
        return Err(SWEEP_ENDED);
    }
    let most = most_bytes(record.allocation);
    let mut last = None;
    let see = |header: Header, _: &[u8]| last = Some(header.feature());
    let reading = read_each(record.rt, record.next, response, most, see)?;
    if !reading.complete && response.len() < most {
        return Err(CUT_SHORT);
    }
    if record.commands != 0 && reading.profile != record.profile {
        return Err(PROFILE_CHANGED);
    }
    let mut after = Record { commands: record.commands + 1, profile: reading.profile, ..record };
    if reading.complete {
        after.ended = true;
    } else {
        after.next = Feature(last.ok_or(NOTHING_WHOLE)?.checked_add(1).ok_or(CUT_AFTER_LAST)?);
    }
    let descriptors = &response[HEADER_BYTES..reading.end];
    let room = buffer.get_mut(record.collected..).and_then(|behind| behind.get_mut(..descriptors.len()));
    room.ok_or(COLLECTED_FULL)?.copy_from_slice(descriptors);
    after.collected += descriptors.len();
    Ok(after)
}
