//! A sheet's parts and its check.

use super::wire::{first16, first32, Header};
use crate::numbers::*;
use crate::refusal::Refusal;

/// The header of an entry of eight bytes, as a response has it.
pub(super) fn header_of(entry: &[u8]) -> Header<'_> {
    Header(entry[..4].try_into().unwrap_or(&[0; 4]))
}

/// Where the body of an entry of eight bytes stands.
pub(super) fn offset_of(entry: &[u8]) -> usize {
    first32(&entry[4..]) as usize
}

/// A sheet's bytes and the two parts that its counts give.
#[derive(Clone, Copy)]
pub(super) struct Parts<'a> {
    pub bytes: &'a [u8],
    pub contents: &'a [u8],
    pub profiles: &'a [u8],
}

impl<'a> Parts<'a> {
    /// The parts; none where there are fewer bytes than the counts say.
    pub fn of(bytes: &'a [u8]) -> Option<Parts<'a>> {
        let (counts, behind) = Header::split(bytes)?;
        let profiles_at = ENTRY_BYTES * usize::from(first16(counts.0));
        let bodies_at = profiles_at + PROFILE_BYTES * usize::from(first16(&counts.0[2..]));
        let (contents, profiles) = behind.get(..bodies_at)?.split_at(profiles_at);
        Some(Parts { bytes, contents, profiles })
    }

    /// Where the bodies start.
    pub fn bodies_at(self) -> usize {
        SHEET_HEADER_BYTES + self.contents.len() + self.profiles.len()
    }

    /// The contents from the first entry on whose number is the wanted one or higher.
    pub fn from(self, wanted: u16) -> &'a [u8] {
        // No entry has number 0, so the first is the one for it.
        if wanted == 0 {
            return self.contents;
        }
        // A bisection without a branch that the wanted number decides.
        let number = |index: usize| first16(&self.contents[ENTRY_BYTES * index..]);
        let (mut low, mut size) = (0, self.contents.len() / ENTRY_BYTES);
        while size > 1 {
            let half = size / 2;
            low = if number(low + half) < wanted { low + half } else { low };
            size -= half;
        }
        let passed = size == 1 && number(low) < wanted;
        &self.contents[ENTRY_BYTES * (low + usize::from(passed))..]
    }

    /// The number of the first current profile; 0 if none is.
    pub fn current_profile(self) -> u16 {
        self.profiles.chunks_exact(PROFILE_BYTES).find(|profile| profile[2] != 0).map_or(0, first16)
    }
}

/// Checks a sheet; gives the first of its numbers that refuses it, with the profile's or the entry's place.
#[inline]
pub fn check(bytes: &[u8]) -> Result<(), Refusal> {
    accept(bytes).map(|_| ())
}

/// Checks a sheet; gives its parts.
pub(super) fn accept(bytes: &[u8]) -> Result<Parts<'_>, Refusal> {
    let parts = Parts::of(bytes).ok_or(SHEET_SHORT)?;
    if parts.profiles.len() > PROFILE_BYTES * PROFILES_MOST {
        return Err(PROFILE_COUNT.into());
    }
    check_profiles(parts.profiles)?;
    if check_entries(parts)? != bytes.len() {
        return Err(SHEET_END.into());
    }
    Ok(parts)
}

/// Checks that each of at most 63 profiles has a new number that isn't 0, a current byte of 0 or 1, and a zero byte.
pub(super) fn check_profiles(profiles: &[u8]) -> Result<(), Refusal> {
    // The highest number so far: one above it is new, and is looked for nowhere.
    let mut highest = 0;
    for (index, profile) in profiles.chunks_exact(PROFILE_BYTES).enumerate() {
        let number = first16(profile);
        let known = number <= highest && lists(&profiles[..PROFILE_BYTES * index], number);
        if number == 0 || profile[2] > 1 || profile[3] != 0 || known {
            return Err(Refusal::of_index(PROFILE_BAD, index));
        }
        highest = highest.max(number);
    }
    Ok(())
}

/// Whether a profile has this number, without a branch for each.
fn lists(profiles: &[u8], number: u16) -> bool {
    profiles.chunks_exact(PROFILE_BYTES).fold(false, |found, profile| found | (first16(profile) == number))
}

/// Whether the reserved bits are 0, and Persistent isn't set without Current.
pub(super) fn flags_are_legal(flags: u8) -> bool {
    flags & RESERVED == 0 && flags & (PERSISTENT | CURRENT) != PERSISTENT
}

/// Why flags that are not legal are refused; only then are the reasons told apart.
#[cold]
pub(super) fn flags_refused(flags: u8) -> u8 {
    if flags & RESERVED != 0 {
        return FLAGS_RESERVED;
    }
    PERSISTENT_UNCURRENT
}

/// Checks the entries in order; gives where the last body ends.
fn check_entries(parts: Parts) -> Result<usize, Refusal> {
    let mut before = 0;
    let mut end = parts.bodies_at();
    for (index, entry) in parts.contents.chunks_exact(ENTRY_BYTES).enumerate() {
        let refused = |number| Err(Refusal::of_index(number, index));
        // The eight bytes in one go.
        let word = entry.try_into().map_or(0, u64::from_be_bytes);
        let (feature, flags, length) = ((word >> 48) as u16, (word >> 40) as u8, (word >> 32) as u8);
        if feature <= before {
            return refused(FEATURE_ORDER);
        }
        if !flags_are_legal(flags) {
            return refused(flags_refused(flags));
        }
        if length % 4 != 0 {
            return refused(BODY_LENGTH);
        }
        if word as u32 as usize != end {
            return refused(BODY_OFFSET);
        }
        before = feature;
        end += usize::from(length);
    }
    Ok(end)
}
