//! The drive sheet: its check, its parts, what it means, and how to build one.

use crate::numbers::*;
use crate::refusal::Refusal;
use crate::wire::{be16, be32, byte, part, Descriptor, Feature, Profile};

/// How the contents stand.
#[derive(Clone, Copy, Debug, PartialEq, Eq)]
pub enum Layout {
    /// Entry behind entry.
    Rows,
    /// All feature numbers, then all flags, all lengths, all offsets.
    Columns,
}

/// One entry of the contents.
#[derive(Clone, Copy, Debug, PartialEq, Eq)]
pub struct Entry {
    pub feature: Feature,
    pub flags: u8,
    pub length: u8,
    pub offset: u32,
}

impl Entry {
    /// Whether the Current bit is set.
    pub fn is_current(self) -> bool {
        self.flags & CURRENT != 0
    }
}

/// The contents of a sheet, 8 bytes an entry.
#[derive(Clone, Copy, Debug)]
struct Contents<'a> {
    layout: Layout,
    bytes: &'a [u8],
}

impl Contents<'_> {
    /// The number of entries.
    fn count(self) -> usize {
        self.bytes.len() / ENTRY_BYTES
    }

    /// The entry with an index below the count.
    fn entry(self, index: usize) -> Entry {
        let count = self.count();
        // Where its number, flags, length and offset stand.
        let [feature, flags, length, offset] = match self.layout {
            Layout::Rows => [0, 2, 3, 4].map(|at| ENTRY_BYTES * index + at),
            Layout::Columns => [2 * index, 2 * count + index, 3 * count + index, 4 * count + 4 * index],
        };
        Entry {
            feature: Feature(be16(self.bytes, feature)),
            flags: byte(self.bytes, flags),
            length: byte(self.bytes, length),
            offset: be32(self.bytes, offset),
        }
    }
}

/// The bytes of entries in a layout.
pub(crate) fn laid_out(layout: Layout, entries: &[Entry]) -> Vec<u8> {
    let mut bytes = Vec::new();
    match layout {
        Layout::Rows => {
            for entry in entries {
                bytes.extend_from_slice(&entry.feature.0.to_be_bytes());
                bytes.extend_from_slice(&[entry.flags, entry.length]);
                bytes.extend_from_slice(&entry.offset.to_be_bytes());
            }
        }
        Layout::Columns => {
            bytes.extend(entries.iter().flat_map(|entry| entry.feature.0.to_be_bytes()));
            bytes.extend(entries.iter().map(|entry| entry.flags));
            bytes.extend(entries.iter().map(|entry| entry.length));
            bytes.extend(entries.iter().flat_map(|entry| entry.offset.to_be_bytes()));
        }
    }
    bytes
}

/// A profile as the sheet lists it.
#[derive(Clone, Copy, Debug, PartialEq, Eq)]
pub struct ListedProfile {
    pub number: Profile,
    pub current: bool,
}

/// What an accepted sheet says: profiles in order, and the descriptors besides feature 0 in order.
#[derive(Clone, Debug, PartialEq, Eq)]
pub struct Meaning<'a> {
    pub profiles: Vec<ListedProfile>,
    pub descriptors: Vec<Descriptor<'a>>,
}

/// A sheet that was checked.
#[derive(Clone, Copy, Debug)]
pub struct Sheet<'a> {
    bytes: &'a [u8],
    contents: Contents<'a>,
    profiles: &'a [u8],
}

impl<'a> Sheet<'a> {
    /// Checks the bytes; gives the sheet, or why it is refused.
    pub fn accept(layout: Layout, bytes: &'a [u8]) -> Result<Sheet<'a>, Refusal> {
        check(layout, bytes)?;
        Ok(Sheet::assume_checked(layout, bytes))
    }

    /// A sheet from bytes that `check` accepted earlier; other bytes give a sheet without promise, but no panic.
    pub fn assume_checked(layout: Layout, bytes: &'a [u8]) -> Sheet<'a> {
        let (profiles_at, bodies_at) = places(bytes);
        Sheet {
            bytes,
            contents: Contents { layout, bytes: part(bytes, SHEET_HEADER_BYTES, profiles_at) },
            profiles: part(bytes, profiles_at, bodies_at),
        }
    }

    /// The number of entries.
    pub fn feature_count(self) -> usize {
        self.contents.count()
    }

    /// The number of profiles.
    pub fn profile_count(self) -> usize {
        self.profiles.len() / PROFILE_BYTES
    }

    /// The profiles' bytes, which are also the body of feature 0.
    pub fn profile_bytes(self) -> &'a [u8] {
        self.profiles
    }

    /// The length of the whole sheet.
    pub fn length(self) -> usize {
        self.bytes.len()
    }

    /// The entry with an index below the count.
    pub fn entry(self, index: usize) -> Entry {
        self.contents.entry(index)
    }

    /// The entries from one index up to another.
    pub fn entries(self, from: usize, to: usize) -> impl Iterator<Item = Entry> + 'a {
        (from..to).map(move |index| self.entry(index))
    }

    /// The profiles in their order.
    pub fn listed(self) -> impl Iterator<Item = ListedProfile> + 'a {
        self.profiles
            .chunks_exact(PROFILE_BYTES)
            .map(|bytes| ListedProfile { number: Profile(be16(bytes, 0)), current: byte(bytes, 2) != 0 })
    }

    /// The body of an entry.
    pub fn body(self, entry: Entry) -> &'a [u8] {
        let from = entry.offset as usize;
        part(self.bytes, from, from.saturating_add(usize::from(entry.length)))
    }

    /// The index of the first entry whose number is the wanted one or higher; the count if there is none.
    pub fn first_from(self, wanted: Feature) -> usize {
        let mut low = 0;
        let mut high = self.feature_count();
        while low < high {
            let middle = low + (high - low) / 2;
            if self.entry(middle).feature < wanted {
                low = middle + 1;
            } else {
                high = middle;
            }
        }
        low
    }

    /// The first listed profile that is current; 0 if none is.
    pub fn current_profile(self) -> Profile {
        self.listed().find(|profile| profile.current).map_or(Profile(0), |profile| profile.number)
    }

    /// The sheet as profiles and descriptors.
    pub fn meaning(self) -> Meaning<'a> {
        let entries = self.entries(0, self.feature_count());
        let descriptors = entries.map(|entry| Descriptor {
            feature: entry.feature,
            flags: entry.flags,
            body: self.body(entry),
        });
        Meaning { profiles: self.listed().collect(), descriptors: descriptors.collect() }
    }
}

/// Where the profiles start and where the bodies start, from the two counts.
pub(crate) fn places(bytes: &[u8]) -> (usize, usize) {
    let profiles_at = SHEET_HEADER_BYTES + ENTRY_BYTES * usize::from(be16(bytes, 0));
    let bodies_at = profiles_at + PROFILE_BYTES * usize::from(be16(bytes, 2));
    (profiles_at, bodies_at)
}

/// Checks a sheet; gives the first of its numbers that refuses it, with the profile's or the entry's place.
pub fn check(layout: Layout, bytes: &[u8]) -> Result<(), Refusal> {
    let (profiles_at, bodies_at) = places(bytes);
    if bytes.len() < SHEET_HEADER_BYTES || bytes.len() < bodies_at {
        return Err(SHEET_SHORT.into());
    }
    if usize::from(be16(bytes, 2)) > PROFILES_MOST {
        return Err(PROFILE_COUNT.into());
    }
    check_profiles(part(bytes, profiles_at, bodies_at))?;
    let end = check_entries(Sheet::assume_checked(layout, bytes), bodies_at)?;
    if end != bytes.len() {
        return Err(SHEET_END.into());
    }
    Ok(())
}

/// Checks that every profile has a new number that isn't 0, a current byte of 0 or 1, and a zero byte.
pub(crate) fn check_profiles(profiles: &[u8]) -> Result<(), Refusal> {
    for (index, profile) in profiles.chunks_exact(PROFILE_BYTES).enumerate() {
        let number = be16(profile, 0);
        let before = part(profiles, 0, index * PROFILE_BYTES);
        let listed_before = before.chunks_exact(PROFILE_BYTES).any(|other| be16(other, 0) == number);
        if number == 0 || listed_before || byte(profile, 2) > 1 || byte(profile, 3) != 0 {
            return Err(Refusal::of_index(PROFILE_BAD, index));
        }
    }
    Ok(())
}

/// Checks that the reserved bits are 0, then that Persistent isn't set without Current.
pub(crate) fn check_flags(flags: u8) -> Result<(), u8> {
    if flags & RESERVED != 0 {
        return Err(FLAGS_RESERVED);
    }
    if flags & PERSISTENT != 0 && flags & CURRENT == 0 {
        return Err(PERSISTENT_UNCURRENT);
    }
    Ok(())
}

/// Checks the entries in order; gives where the last body ends.
fn check_entries(sheet: Sheet, bodies_at: usize) -> Result<usize, Refusal> {
    // No number is above itself, so starting at 0 also refuses feature 0.
    let mut before = Feature(0);
    let mut end = bodies_at;
    for (index, entry) in sheet.entries(0, sheet.feature_count()).enumerate() {
        check_entry(entry, before, end).map_err(|number| Refusal::of_index(number, index))?;
        before = entry.feature;
        end += usize::from(entry.length);
    }
    Ok(end)
}

/// Checks one entry, given the feature and the end of the body before it.
fn check_entry(entry: Entry, before: Feature, end: usize) -> Result<(), u8> {
    if entry.feature <= before {
        return Err(FEATURE_ORDER);
    }
    check_flags(entry.flags)?;
    if entry.length % 4 != 0 {
        return Err(BODY_LENGTH);
    }
    if entry.offset as usize != end {
        return Err(BODY_OFFSET);
    }
    Ok(())
}

/// Builds a sheet's bytes in rows.
pub fn build(profiles: &[ListedProfile], descriptors: &[Descriptor]) -> Option<Vec<u8>> {
    build_in(Layout::Rows, profiles, descriptors)
}

/// Builds a sheet's bytes; none if a count or a body length doesn't fit its field. `check` decides the rest.
pub fn build_in(layout: Layout, profiles: &[ListedProfile], descriptors: &[Descriptor]) -> Option<Vec<u8>> {
    let feature_count = u16::try_from(descriptors.len()).ok()?;
    let profile_count = u16::try_from(profiles.len()).ok()?;
    let mut sheet = Vec::new();
    sheet.extend_from_slice(&feature_count.to_be_bytes());
    sheet.extend_from_slice(&profile_count.to_be_bytes());
    let mut offset = SHEET_HEADER_BYTES + ENTRY_BYTES * descriptors.len() + PROFILE_BYTES * profiles.len();
    let mut entries = Vec::new();
    for descriptor in descriptors {
        entries.push(Entry {
            feature: descriptor.feature,
            flags: descriptor.flags,
            length: u8::try_from(descriptor.body.len()).ok()?,
            offset: u32::try_from(offset).ok()?,
        });
        offset += descriptor.body.len();
    }
    sheet.extend_from_slice(&laid_out(layout, &entries));
    for profile in profiles {
        sheet.extend_from_slice(&profile.number.0.to_be_bytes());
        sheet.extend_from_slice(&[u8::from(profile.current), 0]);
    }
    for descriptor in descriptors {
        sheet.extend_from_slice(descriptor.body);
    }
    Some(sheet)
}
