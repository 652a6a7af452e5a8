//! A drive sheet as a medium leaves it, in either layout: the contents and the list are walked side by side, once to see that
//! nothing is lacking and once to set the flags.

use super::columns;
use super::sheet::{self, Parts};
use super::wire::first16;
use crate::load::Medium;
use crate::numbers::*;
use crate::refusal::Refusal;
use crate::wire::{Feature, Profile};

/// Writes the sheet with a medium in it; gives its length.
pub fn load(sheet: &[u8], medium: Medium, out: &mut [u8]) -> Result<usize, Refusal> {
    let parts = sheet::accept(sheet)?;
    let numbers = || parts.contents.chunks_exact(ENTRY_BYTES).map(first16);
    let room = accept(parts, numbers(), medium, out)?;
    let contents = &mut room[SHEET_HEADER_BYTES..SHEET_HEADER_BYTES + parts.contents.len()];
    let flags = contents.chunks_exact_mut(ENTRY_BYTES).map(|entry| &mut entry[2]);
    set(flags, numbers(), medium.features);
    Ok(sheet.len())
}

/// The same of a sheet in columns.
pub fn load_columns(sheet: &[u8], medium: Medium, out: &mut [u8]) -> Result<usize, Refusal> {
    let columns = columns::accept(sheet)?;
    let numbers = || columns.numbers.chunks_exact(2).map(first16);
    let room = accept(columns.parts, numbers(), medium, out)?;
    let at = SHEET_HEADER_BYTES + columns.numbers.len();
    set(room[at..at + columns.flags.len()].iter_mut(), numbers(), medium.features);
    Ok(sheet.len())
}

/// Sees to the lists and to the buffer; gives a copy of the sheet with its profiles set.
fn accept<'a>(
    parts: Parts,
    numbers: impl Iterator<Item = u16>,
    medium: Medium,
    out: &'a mut [u8],
) -> Result<&'a mut [u8], Refusal> {
    let Medium { features, profiles } = medium;
    if !ascends(features) || !ascends(profiles) {
        return Err(LIST_ORDER.into());
    }
    if lacks_features(numbers, features) || lacks_profiles(parts.profiles, profiles) {
        return Err(SHEET_LACKS.into());
    }
    let room = out.get_mut(..parts.bytes.len()).ok_or(LOADED_SHORT)?;
    room.copy_from_slice(parts.bytes);
    let bodies_at = parts.bodies_at();
    for profile in room[bodies_at - parts.profiles.len()..bodies_at].chunks_exact_mut(PROFILE_BYTES) {
        profile[2] = u8::from(profiles.contains(&Profile(first16(profile))));
    }
    Ok(room)
}

/// Whether each number is above the one before.
fn ascends<T: PartialOrd>(list: &[T]) -> bool {
    list.windows(2).all(|pair| pair[0] < pair[1])
}

/// Whether one of an ascending list is not among ascending numbers.
fn lacks_features(numbers: impl Iterator<Item = u16>, features: &[Feature]) -> bool {
    let mut left = features.iter();
    let mut next = left.next();
    for number in numbers {
        match next {
            None => break,
            Some(feature) if feature.0 == number => next = left.next(),
            Some(_) => {}
        }
    }
    next.is_some()
}

/// Whether one of these is not listed.
fn lacks_profiles(listed: &[u8], profiles: &[Profile]) -> bool {
    let has = |profile: &Profile| listed.chunks_exact(PROFILE_BYTES).any(|own| first16(own) == profile.0);
    !profiles.iter().all(has)
}

/// Sets each feature's flags: Current where it is Persistent or comes next in the list.
fn set<'a>(
    flags: impl Iterator<Item = &'a mut u8>,
    numbers: impl Iterator<Item = u16>,
    features: &[Feature],
) {
    let mut left = features.iter();
    let mut next = left.next();
    for (flags, number) in flags.zip(numbers) {
        let mut current = *flags >> 1 & 1;
        if matches!(next, Some(feature) if feature.0 == number) {
            current = 1;
            next = left.next();
        }
        *flags = *flags & !CURRENT | current;
    }
}
