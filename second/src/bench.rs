//! The bench sweep: runs a sweep against a sheet.

use crate::command::{full_length, most_bytes, send, Request};
use crate::numbers::*;
use crate::refusal::Refusal;
use crate::sheet::{Layout, Sheet};
use crate::sweep::Record;

/// What a bench sweep gives back: the count of starts written and of bytes collected.
#[derive(Clone, Copy, Debug, PartialEq, Eq)]
pub struct Outcome {
    pub commands: usize,
    pub collected: usize,
}

/// The buffers that a bench sweep writes: a response, the bytes collected, and the starts.
#[derive(Debug)]
pub struct Buffers<'a> {
    pub response: &'a mut [u8],
    pub collected: &'a mut [u8],
    pub starts: &'a mut [u16],
}

impl<'a> Buffers<'a> {
    /// These three.
    pub fn new(response: &'a mut [u8], collected: &'a mut [u8], starts: &'a mut [u16]) -> Buffers<'a> {
        Buffers { response, collected, starts }
    }

    /// Sets all three to zero.
    pub(crate) fn clear(self) {
        self.response.fill(0);
        self.collected.fill(0);
        self.starts.fill(0);
    }
}

/// Sweeps the sheet; on a refusal all three buffers are set to zero.
pub fn bench(
    layout: Layout,
    sheet: &[u8],
    rt: u8,
    allocation: u16,
    mut buffers: Buffers,
) -> Result<Outcome, Refusal> {
    let outcome = Sheet::accept(layout, sheet).and_then(|sheet| run(sheet, rt, allocation, &mut buffers));
    if outcome.is_err() {
        buffers.clear();
    }
    outcome
}

/// Runs the rounds.
fn run(sheet: Sheet, rt: u8, allocation: u16, buffers: &mut Buffers) -> Result<Outcome, Refusal> {
    let Buffers { response, collected, starts } = buffers;
    let (number, mut record) = Record::start(rt, allocation);
    accept(number)?;
    if response.len() < most_bytes(allocation) {
        return Err(BUFFER_SHORT.into());
    }
    // Each round collects a front part of what is left, so the full length is found once and shrinks.
    let mut full = full_length(sheet, rt, record.next);
    // After the first round only the bytes of the last response can differ from zero.
    let mut dirty = response.len();
    let mut commands = 0;
    while !record.ended {
        *starts.get_mut(commands).ok_or(STARTS_FULL)? = record.next.0;
        commands += 1;
        response[..dirty].fill(0);
        let request = Request { rt, sfn: record.next, allocation };
        let count = send(sheet, request, full, response)?;
        let (number, after) = record.take(&response[..count], collected);
        accept(number)?;
        full -= after.collected - record.collected;
        dirty = count;
        record = after;
    }
    Ok(Outcome { commands, collected: record.collected })
}

/// Turns a number into a result, so that a refusal ends the run.
fn accept(number: u8) -> Result<(), u8> {
    if number == ACCEPTED {
        return Ok(());
    }
    Err(number)
}
