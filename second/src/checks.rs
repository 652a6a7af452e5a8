//! The driver's checks of a complete response: its descriptors, and a profile's required features.

use crate::numbers::*;
use crate::reading::{read, whole, Reading};
use crate::wire::{be16, byte, part, Descriptor, Descriptors, Feature, Profile};

const REMOVABLE_MEDIUM: Feature = Feature(0x0003);
const RANDOM_READABLE: Feature = Feature(0x0010);
const STREAMING_WRITABLE: Feature = Feature(0x0021);
const CD_MASTERING: Feature = Feature(0x002E);

/// The lengths a body may have.
#[derive(Clone, Copy, Debug, PartialEq, Eq)]
enum Length {
    Any,
    Exactly(usize),
    /// 4 bytes, as many link sizes as byte 7 says, and up to 3 pad bytes.
    LinkSizes,
}

/// The legal length of a feature's body, and which bits of every 4 bytes, or of all 12, may be 1.
struct Legal {
    feature: Feature,
    length: Length,
    mask: &'static [u8],
}

/// One row of the table below.
const fn legal(feature: u16, length: Length, mask: &'static [u8]) -> Legal {
    Legal { feature: Feature(feature), length, mask }
}

/// Legal lengths and body bits; for 0021h the mask counts for the first 4 bytes only.
const LEGAL: [Legal; 11] = [
    legal(0x0000, Length::Any, &[0xFF, 0xFF, 0x01, 0x00]),
    legal(0x0001, Length::Exactly(4), &[0xFF, 0xFF, 0xFF, 0xFF]),
    legal(0x0002, Length::Exactly(4), &[0x01, 0x00, 0x00, 0x00]),
    legal(0x0003, Length::Exactly(4), &[0xED, 0x00, 0x00, 0x00]),
    legal(0x001F, Length::Exactly(0), &[0x00, 0x00, 0x00, 0x00]),
    legal(0x0020, Length::Exactly(12), &RANDOM_WRITABLE),
    legal(0x0021, Length::LinkSizes, &[0x00, 0x00, 0x00, 0xFF]),
    legal(0x0026, Length::Exactly(4), &[0xFF, 0xFF, 0xFF, 0xFF]),
    legal(0x002D, Length::Exactly(4), &[0x07, 0x00, 0x00, 0x00]),
    legal(0x002E, Length::Exactly(4), &[0x3F, 0xFF, 0xFF, 0xFF]),
    legal(0x002F, Length::Exactly(4), &[0x04, 0x00, 0x00, 0x00]),
];

/// 0020h: last block address, block size, blocking, Page Present in bit 0, and a reserved byte.
const RANDOM_WRITABLE: [u8; 12] = [0xFF, 0xFF, 0xFF, 0xFF, 0xFF, 0xFF, 0xFF, 0xFF, 0xFF, 0xFF, 0x01, 0x00];

/// Features of the medium, which can't be Persistent where the medium can be removed.
const OF_THE_MEDIUM: [u16; 7] = [0x001F, 0x0020, 0x0021, 0x0026, 0x002D, 0x002E, 0x002F];

/// The tables of 98-116r0's profile clause: the features, line by line. Where a table has 0010h, its line is "Random Readable, PP=1".
/// Table 58, Mandatory Features for Removable Disks: profile 2.
const TABLE_58: [u16; 11] =
    [0x0000, 0x0001, 0x0002, 0x0003, 0x0010, 0x0020, 0x0023, 0x0024, 0x0100, 0x0101, 0x0105];

/// Table 59, Mandatory Features for CD-ROM: profile 8.
const TABLE_59: [u16; 8] = [0x0000, 0x0001, 0x0002, 0x0003, 0x0010, 0x001E, 0x0100, 0x0105];

/// Table 60, Mandatory Features for DVD-ROM: profile 10h.
const TABLE_60: [u16; 9] = [0x0000, 0x0001, 0x0002, 0x0003, 0x0010, 0x001F, 0x0100, 0x0105, 0x0107];

/// Table 61, Mandatory Features for DVD-RAM: profile 12h.
const TABLE_61: [u16; 13] =
    [0x0000, 0x0001, 0x0002, 0x0003, 0x0010, 0x001F, 0x0020, 0x0023, 0x0024, 0x0100, 0x0101, 0x0105, 0x0107];

/// Table 62, Mandatory Features for Logical Units Not Conforming to a Standard Profile: profile FFFFh.
const TABLE_62: [u16; 2] = [0x0000, 0x0001];

/// The number that asks for the archive subset.
const ARCHIVE: Profile = Profile(0x0000);

/// What is wrong with a feature that breaks a profile; of one feature the first counts.
#[derive(Clone, Copy, Debug, PartialEq, Eq, PartialOrd, Ord)]
pub enum Wrong {
    Absent,
    TooShort,
    BitClear,
    NotCurrent,
    TooLong,
}

/// What the profile check answers.
#[derive(Clone, Copy, Debug, PartialEq, Eq)]
pub enum ProfileAnswer {
    /// A reading's number or 29.
    Refused(u8),
    /// 40: no table for the profile.
    NoTable,
    /// The lowest feature that breaks the profile, and what is wrong with it.
    Broken(Feature, Wrong),
    /// The response has all that the profile asks for.
    Conforms,
}

impl ProfileAnswer {
    /// The answer as number, what is wrong (0 is nothing, then as the cases stand above), and with which feature.
    pub fn fields(self) -> (u8, u8, Feature) {
        match self {
            ProfileAnswer::Refused(number) => (number, 0, Feature(0)),
            ProfileAnswer::NoTable => (NO_TABLE, 0, Feature(0)),
            ProfileAnswer::Broken(feature, wrong) => (ACCEPTED, wrong as u8 + 1, feature),
            ProfileAnswer::Conforms => (ACCEPTED, 0, Feature(0)),
        }
    }
}

/// Reads a response to RT 0 from 0, which must be complete.
pub(crate) fn read_complete(response: &[u8]) -> Result<Reading, u8> {
    let reading = read(0, Feature(0), response, None);
    if reading.number != ACCEPTED {
        return Err(reading.number);
    }
    if !reading.complete {
        return Err(CHECK_CUT);
    }
    Ok(reading)
}

/// The descriptor of a feature, if it is reported.
fn reported<'a>(mut walk: Descriptors<'a>, feature: Feature) -> Option<Descriptor<'a>> {
    walk.find(|descriptor| descriptor.feature == feature)
}

/// Checks the descriptors of a response; gives the first finding and its feature, or 0 and feature 0.
pub fn check_descriptors(response: &[u8]) -> (u8, Feature) {
    let reading = match read_complete(response) {
        Ok(reading) => reading,
        Err(number) => return (number, Feature(0)),
    };
    let walk = whole(response, &reading);
    for needed in [Feature(0x0000), Feature(0x0001)] {
        if reported(walk.clone(), needed).is_none() {
            return (FINDING_MISSING, needed);
        }
    }
    let removable = reported(walk.clone(), REMOVABLE_MEDIUM).is_some();
    for descriptor in walk {
        let finding = check_descriptor(descriptor, removable);
        if finding != ACCEPTED {
            return (finding, descriptor.feature);
        }
    }
    (ACCEPTED, Feature(0))
}

/// Checks one descriptor in the paper's order; gives the first finding or 0.
fn check_descriptor(descriptor: Descriptor, removable: bool) -> u8 {
    let flags = descriptor.flags;
    let persistent = flags & PERSISTENT != 0;
    let current = flags & CURRENT != 0;
    let newer = flags & VERSION != 0;
    if flags & RESERVED != 0 {
        return FINDING_FLAGS;
    }
    if persistent && !current {
        return FINDING_PERSISTENT;
    }
    let legal = match LEGAL.iter().find(|legal| legal.feature == descriptor.feature) {
        Some(legal) => legal,
        None => return ACCEPTED,
    };
    if !length_is_legal(legal, newer, descriptor.body) {
        return FINDING_LENGTH;
    }
    if descriptor.feature <= REMOVABLE_MEDIUM && !(persistent && current) {
        return FINDING_NOT_BOTH;
    }
    if persistent && removable && OF_THE_MEDIUM.contains(&descriptor.feature.0) {
        return FINDING_REMOVABLE;
    }
    // What a newer version of a feature has in its body is not known here.
    if newer {
        return ACCEPTED;
    }
    if !reserved_is_zero(legal, descriptor.body) {
        return FINDING_RESERVED;
    }
    if descriptor.feature == CD_MASTERING && cue_sheet_without_sao(descriptor.body) {
        return FINDING_CUE_SHEET;
    }
    if descriptor.feature == Feature(0) && lists_profile_zero(descriptor.body) {
        return FINDING_PROFILE;
    }
    ACCEPTED
}

/// Whether the body has the length its feature wants; a newer version's may be longer.
fn length_is_legal(legal: &Legal, newer: bool, body: &[u8]) -> bool {
    let wanted = match legal.length {
        Length::Any => return true,
        Length::Exactly(length) => length,
        // Without byte 7 there is no number of link sizes; with it, the pad is what fills 4 bytes.
        Length::LinkSizes => 4 + (link_sizes(body) + 3) / 4 * 4,
    };
    body.len() == wanted || newer && body.len() > wanted
}

/// The number of link sizes in the body of 0021h.
fn link_sizes(body: &[u8]) -> usize {
    usize::from(byte(body, 3))
}

/// Whether all reserved bits and pad bytes of a body of legal length are 0.
fn reserved_is_zero(legal: &Legal, body: &[u8]) -> bool {
    if legal.feature == STREAMING_WRITABLE {
        let pad = part(body, 4 + link_sizes(body), body.len());
        return fits_mask(part(body, 0, 4), legal.mask) && pad.iter().all(|&byte| byte == 0);
    }
    fits_mask(body, legal.mask)
}

/// Whether no bit is outside the mask, which repeats.
fn fits_mask(body: &[u8], mask: &[u8]) -> bool {
    body.iter().zip(mask.iter().cycle()).all(|(byte, mask)| byte & !mask == 0)
}

/// Whether SAO is 0 though the cue sheet length isn't.
fn cue_sheet_without_sao(body: &[u8]) -> bool {
    let sao = byte(body, 0) & 0x20 != 0;
    !sao && part(body, 1, 4).iter().any(|&byte| byte != 0)
}

/// Whether a profile list holds profile 0.
fn lists_profile_zero(body: &[u8]) -> bool {
    body.chunks_exact(PROFILE_BYTES).any(|profile| be16(profile, 0) == 0)
}

/// Whether a feature is one of the medium, which can't be Persistent where the medium can be removed.
pub(crate) fn is_of_the_medium(feature: Feature) -> bool {
    OF_THE_MEDIUM.contains(&feature.0)
}

/// A descriptor's body with every bit cleared that may not be 1, every pad and the cue sheet length where SAO is 0. A body of
/// wrong length, or of a newer version, stays as it is.
pub(crate) fn mended_body(descriptor: Descriptor) -> Vec<u8> {
    let mut body = descriptor.body.to_vec();
    let newer = descriptor.flags & VERSION != 0;
    let legal = match LEGAL.iter().find(|legal| legal.feature == descriptor.feature) {
        Some(legal) if !newer && length_is_legal(legal, newer, &body) => legal,
        _ => return body,
    };
    // Behind the first 4 bytes 0021h has its link sizes, any bits, and then the pad.
    let masked = if legal.length == Length::LinkSizes { 4 } else { body.len() };
    for (byte, mask) in body.iter_mut().take(masked).zip(legal.mask.iter().cycle()) {
        *byte &= mask;
    }
    if legal.length == Length::LinkSizes {
        let pad = 4 + link_sizes(&body);
        body[pad..].fill(0);
    }
    if descriptor.feature == CD_MASTERING && cue_sheet_without_sao(&body) {
        body[1..4].fill(0);
    }
    body
}

/// The table of a profile; the archive subset has what DVD-RAM needs.
fn table_of(profile: Profile) -> Option<&'static [u16]> {
    match profile {
        Profile(0x0002) => Some(&TABLE_58),
        Profile(0x0008) => Some(&TABLE_59),
        Profile(0x0010) => Some(&TABLE_60),
        Profile(0x0012) | ARCHIVE => Some(&TABLE_61),
        Profile(0xFFFF) => Some(&TABLE_62),
        _ => None,
    }
}

/// Checks that a response has what a profile asks for: of all that is wrong, what is wrong with the lowest feature is the answer.
pub fn check_profile(profile: Profile, response: &[u8]) -> ProfileAnswer {
    let reading = match read_complete(response) {
        Ok(reading) => reading,
        Err(number) => return ProfileAnswer::Refused(number),
    };
    let table = match table_of(profile) {
        Some(table) => table,
        None => return ProfileAnswer::NoTable,
    };
    let walk = whole(response, &reading);
    let mut faults: Vec<(Feature, Wrong)> =
        table.iter().filter_map(|&feature| unmet(Feature(feature), walk.clone())).collect();
    if profile == ARCHIVE {
        faults.extend(archive_faults(walk));
    }
    match faults.into_iter().min() {
        Some((feature, wrong)) => ProfileAnswer::Broken(feature, wrong),
        None => ProfileAnswer::Conforms,
    }
}

/// What is wrong by a table's line for a feature.
fn unmet(feature: Feature, walk: Descriptors) -> Option<(Feature, Wrong)> {
    let descriptor = match reported(walk, feature) {
        Some(descriptor) => descriptor,
        None => return Some((feature, Wrong::Absent)),
    };
    if feature != RANDOM_READABLE {
        return None;
    }
    // PP is bit 0 of byte 10, which is byte 6 of the body; the feature has a length of 8.
    bit_set(descriptor, 8, 6, 0x01)
}

/// What is wrong with a descriptor whose body has to have so many bytes and a bit of one of them set.
fn bit_set(descriptor: Descriptor, least: usize, at: usize, bit: u8) -> Option<(Feature, Wrong)> {
    if descriptor.body.len() < least {
        return Some((descriptor.feature, Wrong::TooShort));
    }
    if byte(descriptor.body, at) & bit == 0 {
        return Some((descriptor.feature, Wrong::BitClear));
    }
    None
}

/// What the archive subset asks for beside its table: 0020h and 0024h current, Lock (byte 4 bit 0) in a 0003h of length 4 or more, and no descriptor over 36 bytes.
fn archive_faults(walk: Descriptors) -> Vec<(Feature, Wrong)> {
    let mut faults = Vec::new();
    for descriptor in walk {
        let feature = descriptor.feature;
        if feature == REMOVABLE_MEDIUM {
            faults.extend(bit_set(descriptor, 4, 0, 0x01));
        }
        if [0x0020, 0x0024].contains(&feature.0) && descriptor.flags & CURRENT == 0 {
            faults.push((feature, Wrong::NotCurrent));
        }
        if 4 + descriptor.body.len() > 36 {
            faults.push((feature, Wrong::TooLong));
        }
    }
    faults
}
