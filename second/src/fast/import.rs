//! Turns a captured response into a sheet: one walk to judge it, one to write.

use super::reading::read_complete;
use super::sheet::{check_profiles, flags_are_legal, flags_refused};
use super::wire::{copy_body, first16, Header};
use crate::numbers::*;
use crate::refusal::Refusal;

/// Makes the sheet whose full response was captured; gives its length, or why the capture is refused.
pub fn import(response: &[u8], sheet: &mut [u8]) -> Result<usize, Refusal> {
    let (count, profiles, features) = accept(response)?;
    // An entry has four bytes more than the descriptor's header; the sheet's header has the list's four.
    let length = response.len() - HEADER_BYTES + 4 * count;
    write(sheet.get_mut(..length).ok_or(SHEET_BUFFER_SHORT)?, count, profiles, features);
    Ok(length)
}

/// Judges a captured response; gives the count of the features behind feature 0, the list of profiles, and these features.
#[inline]
pub(super) fn accept(response: &[u8]) -> Result<(usize, &[u8], &[u8]), Refusal> {
    let mut flags_legal = true;
    let reading = read_complete(response, |header, _| flags_legal &= flags_are_legal(header.flags()))?;
    let (list, behind) = Header::split(&response[HEADER_BYTES..]).ok_or(CAPTURE_BAD)?;
    if list.feature() != 0 || list.flags() != PERSISTENT | CURRENT || first16(&response[4..]) != 0 {
        return Err(CAPTURE_BAD.into());
    }
    let (profiles, features) = behind.split_at(list.length());
    if reading.profile.0 != first_current(profiles) {
        return Err(CAPTURE_BAD.into());
    }
    check_profiles(profiles)?;
    if !flags_legal {
        check_flags(features)?;
    }
    Ok((reading.count - 1, profiles, features))
}

/// Refuses the first of the descriptors behind feature 0 whose flags are not legal: walked only where there is one.
#[cold]
fn check_flags(mut features: &[u8]) -> Result<(), Refusal> {
    let mut index = 0;
    while let Some((header, behind)) = Header::split(features) {
        if !flags_are_legal(header.flags()) {
            return Err(Refusal::of_index(flags_refused(header.flags()), index));
        }
        features = &behind[header.length()..];
        index += 1;
    }
    Ok(())
}

/// Writes the sheet to a room of its length.
fn write(room: &mut [u8], count: usize, profiles: &[u8], mut features: &[u8]) {
    let mut offset = (SHEET_HEADER_BYTES + ENTRY_BYTES * count + profiles.len()) as u32;
    let (header, rest) = room.split_at_mut(SHEET_HEADER_BYTES);
    let (contents, rest) = rest.split_at_mut(ENTRY_BYTES * count);
    let (list, mut bodies) = rest.split_at_mut(profiles.len());
    let counts = (count as u32) << 16 | (profiles.len() / PROFILE_BYTES) as u32;
    header.copy_from_slice(&counts.to_be_bytes());
    list.copy_from_slice(profiles);
    for entry in contents.chunks_exact_mut(ENTRY_BYTES) {
        let (header, behind) = match Header::split(features) {
            Some(split) => split,
            None => return,
        };
        entry[..4].copy_from_slice(header.0);
        entry[4..].copy_from_slice(&offset.to_be_bytes());
        offset += header.length() as u32;
        let (body, next) = behind.split_at(header.length());
        let (here, later) = bodies.split_at_mut(header.length());
        copy_body(here, body);
        (bodies, features) = (later, next);
    }
}

/// The number of the first profile with CurrentP in the body of feature 0; 0 if there is none.
fn first_current(list: &[u8]) -> u16 {
    list.chunks_exact(PROFILE_BYTES).find(|profile| profile[2] & 1 != 0).map_or(0, first16)
}
