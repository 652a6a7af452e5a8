//! The bench sweep: the box answers and the driver reads, round by round, but where the box has got to is kept.

use super::command::Rows;
use super::reading::read_each;
use super::sheet::accept;
use super::wanted::{Entries, Wanted};
use crate::bench::{Buffers, Outcome};
use crate::command::most_bytes;
use crate::numbers::*;
use crate::refusal::Refusal;
use crate::wire::Feature;

/// Sweeps the sheet; on a refusal all three buffers are set to zero.
pub fn bench(sheet: &[u8], rt: u8, allocation: u16, buffers: Buffers) -> Result<Outcome, Refusal> {
    sweep(accept(sheet).map(|parts| Wanted::new(Rows::of(parts), rt, 0)), allocation, buffers)
}

/// Sweeps what a sheet gives, if it is accepted; on a refusal all three buffers are set to zero.
pub(super) fn sweep<E: Entries>(
    wanted: Result<Wanted<E>, Refusal>,
    allocation: u16,
    mut buffers: Buffers,
) -> Result<Outcome, Refusal> {
    let swept = wanted.and_then(|wanted| {
        let Buffers { response, collected, starts } = &mut buffers;
        begin(wanted.rt, allocation, response.len())?;
        Ok(Sweep::new(wanted, allocation, response).run(response, collected, starts)?)
    });
    if swept.is_err() {
        buffers.clear();
    }
    swept
}

/// Checks what a sweep is given beside the sheet.
fn begin(rt: u8, allocation: u16, room: usize) -> Result<(), u8> {
    if rt > 1 {
        return Err(SWEEP_RT);
    }
    if usize::from(allocation) < HEADER_BYTES {
        return Err(SWEEP_ALLOCATION);
    }
    if room < most_bytes(allocation) {
        return Err(BUFFER_SHORT);
    }
    Ok(())
}

/// Where a sweep stands.
struct Sweep<E> {
    /// The most bytes of a response.
    most: usize,
    /// What is still to come, and the length of the response with all of it.
    left: Wanted<E>,
    full: usize,
    next: u16,
    commands: usize,
    collected: usize,
    /// Behind so many bytes the response buffer is zero.
    dirty: usize,
}

impl<E: Entries> Sweep<E> {
    /// A sweep at its start.
    fn new(left: Wanted<E>, allocation: u16, response: &[u8]) -> Sweep<E> {
        Sweep {
            most: most_bytes(allocation),
            full: left.full_length(),
            left,
            next: 0,
            commands: 0,
            collected: 0,
            dirty: response.len(),
        }
    }

    /// Runs the rounds to the end.
    fn run(mut self, response: &mut [u8], collected: &mut [u8], starts: &mut [u16]) -> Result<Outcome, u8> {
        loop {
            *starts.get_mut(self.commands).ok_or(STARTS_FULL)? = self.next;
            self.commands += 1;
            let sent = self.send(response);
            if self.take(sent, collected)? {
                return Ok(Outcome { commands: self.commands, collected: self.collected });
            }
        }
    }

    /// The box's half of a round: gives the bytes sent.
    fn send<'b>(&mut self, response: &'b mut [u8]) -> &'b [u8] {
        let count = self.full.min(self.most);
        self.left.send(self.full, &mut response[..count]);
        if self.dirty > count {
            response[count..self.dirty].fill(0);
        }
        self.dirty = count;
        &response[..count]
    }

    /// The driver's half of a round: gives whether it was the last.
    fn take(&mut self, sent: &[u8], collected: &mut [u8]) -> Result<bool, u8> {
        let mut last = None;
        let reading = read_each(self.left.rt, Feature(self.next), sent, self.most, |header, _| {
            last = Some(header.feature());
        })?;
        if !reading.complete {
            let last = last.ok_or(NOTHING_WHOLE)?;
            self.next = last.checked_add(1).ok_or(CUT_AFTER_LAST)?;
            self.left.pass(self.next);
        }
        let descriptors = &sent[HEADER_BYTES..reading.end];
        let room = collected.get_mut(self.collected..self.collected + descriptors.len());
        room.ok_or(COLLECTED_FULL)?.copy_from_slice(descriptors);
        self.collected += descriptors.len();
        self.full -= descriptors.len();
        Ok(reading.complete)
    }
}
