//! What a command wants of a sheet, in either layout, and how it is sent.
//!
//! It is inlined into each layout, so that the sheet's parts stay in registers: without that a command to a short sheet took a third longer.

use super::sheet::Parts;
use super::wire::copy_body;
use crate::command::{most_bytes, Request, RT_ONE};
use crate::numbers::*;

/// Entries of a sheet, in order: all of them, or a part.
pub(super) trait Entries: Copy {
    /// The sheet's parts.
    fn parts(&self) -> Parts<'_>;
    /// Those from the first on whose number is the wanted one or higher, found by a bisection.
    fn from(self, wanted: u16) -> Self;
    /// The first of them if it has this number, else none.
    fn one(self, wanted: u16) -> Self;
    /// Those behind the ones with numbers below, which are few.
    fn behind(self, next: u16) -> Self;
    /// The length of their descriptors, for RT 1 of the current ones.
    fn length(&self, rt: u8) -> usize;
    /// Sends these descriptors up to the cut.
    fn send(&self, rt: u8, out: &mut [u8]);
}

/// What a response has behind its header.
pub(super) struct Wanted<E> {
    pub rt: u8,
    /// Whether feature 0 is among them.
    with_list: bool,
    /// The entries of the others; for RT 1 only the current ones count.
    entries: E,
}

impl<E: Entries> Wanted<E> {
    /// What RT and SFN ask for.
    #[inline(always)]
    pub fn new(all: E, rt: u8, sfn: u16) -> Wanted<E> {
        let mut entries = all.from(sfn);
        if rt == RT_ONE {
            entries = entries.one(sfn);
        }
        Wanted { rt, with_list: sfn == 0, entries }
    }

    /// The length of the response before any cut.
    #[inline(always)]
    pub fn full_length(&self) -> usize {
        let list = if self.with_list { DESCRIPTOR_BYTES + self.entries.parts().profiles.len() } else { 0 };
        HEADER_BYTES + list + self.entries.length(self.rt)
    }

    /// Sends the first bytes of the response, as many as there is room for.
    #[inline(always)]
    pub fn send(&self, full: usize, out: &mut [u8]) {
        let at = send_front(self.entries.parts(), self.with_list, full, out);
        self.entries.send(self.rt, &mut out[at..]);
    }

    /// Passes feature 0 and the entries below the next start.
    #[inline(always)]
    pub fn pass(&mut self, next: u16) {
        self.entries = self.entries.behind(next);
        self.with_list = false;
    }
}

/// Answers the command from all entries of a sheet; gives the count of bytes sent.
#[inline(always)]
pub(super) fn answer<E: Entries>(all: E, command: &[u8], out: &mut [u8]) -> Result<usize, u8> {
    let request = Request::parse(command)?;
    let wanted = Wanted::new(all, request.rt, request.sfn.0);
    let full = wanted.full_length();
    let count = full.min(most_bytes(request.allocation));
    wanted.send(full, out.get_mut(..count).ok_or(BUFFER_SHORT)?);
    Ok(count)
}

/// Sends what stands before the entries' descriptors; gives how many bytes.
fn send_front(parts: Parts, with_list: bool, full: usize, out: &mut [u8]) -> usize {
    let mut head = [0; HEADER_BYTES + DESCRIPTOR_BYTES];
    head[..4].copy_from_slice(&(full as u32 - 4).to_be_bytes());
    head[6..8].copy_from_slice(&parts.current_profile().to_be_bytes());
    head[10] = PERSISTENT | CURRENT;
    head[11] = parts.profiles.len() as u8;
    if !with_list {
        return put(out, 0, &head[..HEADER_BYTES]);
    }
    let at = put(out, 0, &head);
    put(out, at, parts.profiles)
}

/// Sends a descriptor; gives the room behind it, or none where it is cut.
#[inline]
pub(super) fn send_descriptor<'b>(
    out: &'b mut [u8],
    header: &[u8; DESCRIPTOR_BYTES],
    body: &[u8],
) -> Option<&'b mut [u8]> {
    if DESCRIPTOR_BYTES + body.len() > out.len() {
        let at = put(out, 0, header);
        put(out, at, body);
        return None;
    }
    let (room, behind) = out.split_at_mut(DESCRIPTOR_BYTES + body.len());
    room[..DESCRIPTOR_BYTES].copy_from_slice(header);
    copy_body(&mut room[DESCRIPTOR_BYTES..], body);
    Some(behind)
}

/// Writes as many of the bytes as there is room for behind a place; gives the place behind them.
fn put(out: &mut [u8], at: usize, bytes: &[u8]) -> usize {
    let count = bytes.len().min(out.len() - at);
    out[at..at + count].copy_from_slice(&bytes[..count]);
    at + count
}
