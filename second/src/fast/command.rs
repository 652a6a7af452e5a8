//! The box.

use super::sheet::{accept, header_of, offset_of, Parts};
use super::wanted::{answer, send_descriptor, Entries};
use super::wire::first16;
use crate::command::{RT_ALL, RT_CURRENT};
use crate::numbers::*;
use crate::refusal::Refusal;

/// Checks the sheet and answers the command; gives the count of bytes sent.
pub fn respond(sheet: &[u8], command: &[u8], out: &mut [u8]) -> Result<usize, Refusal> {
    accept(sheet).and_then(|parts| Ok(answer(Rows::of(parts), command, out)?))
}

/// Answers the command from a sheet accepted before; gives the count of bytes sent.
pub fn respond_checked(sheet: &[u8], command: &[u8], out: &mut [u8]) -> Result<usize, u8> {
    let parts = Parts::of(sheet).ok_or(SHEET_SHORT)?;
    answer(Rows::of(parts), command, out)
}

/// Entries of a sheet in rows.
#[derive(Clone, Copy)]
pub(super) struct Rows<'a> {
    parts: Parts<'a>,
    contents: &'a [u8],
}

impl<'a> Rows<'a> {
    /// All entries of a sheet.
    #[inline(always)]
    pub fn of(parts: Parts<'a>) -> Rows<'a> {
        Rows { parts, contents: parts.contents }
    }
}

impl Entries for Rows<'_> {
    #[inline(always)]
    fn parts(&self) -> Parts<'_> {
        self.parts
    }

    #[inline(always)]
    fn from(self, wanted: u16) -> Self {
        Rows { contents: self.parts.from(wanted), ..self }
    }

    #[inline(always)]
    fn one(self, wanted: u16) -> Self {
        let is_there = !self.contents.is_empty() && first16(self.contents) == wanted;
        Rows { contents: &self.contents[..ENTRY_BYTES * usize::from(is_there)], ..self }
    }

    #[inline(always)]
    fn behind(self, next: u16) -> Self {
        let passed = self.contents.chunks_exact(ENTRY_BYTES).take_while(|entry| first16(entry) < next);
        Rows { contents: &self.contents[ENTRY_BYTES * passed.count()..], ..self }
    }

    #[inline(always)]
    fn length(&self, rt: u8) -> usize {
        if self.contents.is_empty() {
            return 0;
        }
        match rt {
            // All bodies from the first on stand in a row up to the sheet's end.
            RT_ALL => {
                let bodies = self.parts.bytes.len().saturating_sub(offset_of(self.contents));
                self.contents.len() / ENTRY_BYTES * DESCRIPTOR_BYTES + bodies
            }
            RT_CURRENT => self.contents.chunks_exact(ENTRY_BYTES).map(length_if_current).sum(),
            _ => DESCRIPTOR_BYTES + header_of(self.contents).length(),
        }
    }

    #[inline(always)]
    fn send(&self, rt: u8, mut out: &mut [u8]) {
        for entry in self.contents.chunks_exact(ENTRY_BYTES) {
            let header = header_of(entry);
            if rt == RT_CURRENT && header.flags() & CURRENT == 0 {
                continue;
            }
            let body = match self.parts.bytes.get(offset_of(entry)..offset_of(entry) + header.length()) {
                Some(body) => body,
                None => return,
            };
            out = match send_descriptor(out, header.0, body) {
                Some(behind) => behind,
                None => return,
            };
        }
    }
}

/// The length of an entry's descriptor; 0 where it isn't current.
fn length_if_current(entry: &[u8]) -> usize {
    let header = header_of(entry);
    if header.flags() & CURRENT == 0 {
        return 0;
    }
    DESCRIPTOR_BYTES + header.length()
}
