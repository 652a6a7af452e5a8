//! The same over a sheet whose contents stand in columns.

use super::bench::sweep;
use super::sheet::{check_profiles, flags_are_legal, flags_refused, Parts};
use super::wanted::{answer, send_descriptor, Entries, Wanted};
use super::wire::{first16, first32};
use crate::bench::{Buffers, Outcome};
use crate::command::{RT_ALL, RT_CURRENT};
use crate::numbers::*;
use crate::refusal::Refusal;

/// A sheet's parts, and its contents' four columns.
#[derive(Clone, Copy)]
pub(super) struct Columns<'a> {
    pub parts: Parts<'a>,
    pub numbers: &'a [u8],
    pub flags: &'a [u8],
    pub lengths: &'a [u8],
    pub offsets: &'a [u8],
}

impl<'a> Columns<'a> {
    /// The columns; none where there are fewer bytes than the counts say.
    fn of(bytes: &'a [u8]) -> Option<Columns<'a>> {
        let parts = Parts::of(bytes)?;
        let count = parts.contents.len() / ENTRY_BYTES;
        let (numbers, behind) = parts.contents.split_at(2 * count);
        let (flags, behind) = behind.split_at(count);
        let (lengths, offsets) = behind.split_at(count);
        Some(Columns { parts, numbers, flags, lengths, offsets })
    }

    /// The entries from an index up to another.
    fn part(self, from: usize, to: usize) -> Columns<'a> {
        Columns {
            parts: self.parts,
            numbers: &self.numbers[2 * from..2 * to],
            flags: &self.flags[from..to],
            lengths: &self.lengths[from..to],
            offsets: &self.offsets[4 * from..4 * to],
        }
    }
}

/// Checks a sheet in columns; gives the first of its numbers that refuses it, with the profile's or the entry's place.
#[inline]
pub fn check(bytes: &[u8]) -> Result<(), Refusal> {
    accept(bytes).map(|_| ())
}

/// Checks a sheet; gives its columns.
pub(super) fn accept(bytes: &[u8]) -> Result<Columns<'_>, Refusal> {
    let columns = Columns::of(bytes).ok_or(SHEET_SHORT)?;
    if columns.parts.profiles.len() > PROFILE_BYTES * PROFILES_MOST {
        return Err(PROFILE_COUNT.into());
    }
    check_profiles(columns.parts.profiles)?;
    if check_entries(columns)? != bytes.len() {
        return Err(SHEET_END.into());
    }
    Ok(columns)
}

/// Checks the entries in order; gives where the last body ends.
fn check_entries(columns: Columns) -> Result<usize, Refusal> {
    let mut before = 0;
    let mut end = columns.parts.bodies_at();
    let heads = columns.numbers.chunks_exact(2).zip(columns.flags).zip(columns.lengths);
    for (index, (((number, &flags), &length), offset)) in
        heads.zip(columns.offsets.chunks_exact(4)).enumerate()
    {
        let refused = |number| Err(Refusal::of_index(number, index));
        if first16(number) <= before {
            return refused(FEATURE_ORDER);
        }
        if !flags_are_legal(flags) {
            return refused(flags_refused(flags));
        }
        if length % 4 != 0 {
            return refused(BODY_LENGTH);
        }
        if first32(offset) as usize != end {
            return refused(BODY_OFFSET);
        }
        before = first16(number);
        end += usize::from(length);
    }
    Ok(end)
}

/// Checks the sheet and answers the command; gives the count of bytes sent.
pub fn respond(sheet: &[u8], command: &[u8], out: &mut [u8]) -> Result<usize, Refusal> {
    accept(sheet).and_then(|columns| Ok(answer(columns, command, out)?))
}

/// Answers the command from a sheet accepted before; gives the count of bytes sent.
pub fn respond_checked(sheet: &[u8], command: &[u8], out: &mut [u8]) -> Result<usize, u8> {
    let columns = Columns::of(sheet).ok_or(SHEET_SHORT)?;
    answer(columns, command, out)
}

impl Entries for Columns<'_> {
    fn parts(&self) -> Parts<'_> {
        self.parts
    }

    fn from(self, wanted: u16) -> Self {
        // No entry has number 0, so the first is the one for it.
        if wanted == 0 {
            return self;
        }
        // A bisection without a branch that the wanted number decides.
        let number = |index: usize| first16(&self.numbers[2 * index..]);
        let (mut low, mut size) = (0, self.flags.len());
        while size > 1 {
            let half = size / 2;
            low = if number(low + half) < wanted { low + half } else { low };
            size -= half;
        }
        let passed = size == 1 && number(low) < wanted;
        self.part(low + usize::from(passed), self.flags.len())
    }

    fn one(self, wanted: u16) -> Self {
        let is_there = !self.flags.is_empty() && first16(self.numbers) == wanted;
        self.part(0, usize::from(is_there))
    }

    fn behind(self, next: u16) -> Self {
        let passed = self.numbers.chunks_exact(2).take_while(|number| first16(number) < next);
        self.part(passed.count(), self.flags.len())
    }

    fn length(&self, rt: u8) -> usize {
        let Columns { parts, flags, lengths, offsets, .. } = *self;
        if flags.is_empty() {
            return 0;
        }
        match rt {
            // All bodies from the first on stand in a row up to the sheet's end.
            RT_ALL => {
                let bodies = parts.bytes.len().saturating_sub(first32(offsets) as usize);
                flags.len() * DESCRIPTOR_BYTES + bodies
            }
            RT_CURRENT => {
                flags.iter().zip(lengths).map(|(flags, length)| length_if_current(*flags, *length)).sum()
            }
            _ => DESCRIPTOR_BYTES + usize::from(lengths[0]),
        }
    }

    fn send(&self, rt: u8, mut out: &mut [u8]) {
        let Columns { parts, numbers, flags, lengths, offsets } = *self;
        let heads = numbers.chunks_exact(2).zip(flags).zip(lengths);
        for (((number, &flags), &length), offset) in heads.zip(offsets.chunks_exact(4)) {
            if rt == RT_CURRENT && flags & CURRENT == 0 {
                continue;
            }
            let from = first32(offset) as usize;
            let body = match parts.bytes.get(from..from + usize::from(length)) {
                Some(body) => body,
                None => return,
            };
            out = match send_descriptor(out, &[number[0], number[1], flags, length], body) {
                Some(behind) => behind,
                None => return,
            };
        }
    }
}

/// The length of an entry's descriptor; 0 where it isn't current.
fn length_if_current(flags: u8, length: u8) -> usize {
    if flags & CURRENT == 0 {
        return 0;
    }
    DESCRIPTOR_BYTES + usize::from(length)
}

/// Sweeps the sheet; on a refusal all three buffers are set to zero.
pub fn bench(sheet: &[u8], rt: u8, allocation: u16, buffers: Buffers) -> Result<Outcome, Refusal> {
    sweep(accept(sheet).map(|columns| Wanted::new(columns, rt, 0)), allocation, buffers)
}
