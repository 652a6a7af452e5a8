//! The driver's checks of a complete response.

use super::reading::read_complete;
use super::wire::{first32, Header};
use crate::checks::{ProfileAnswer, Wrong};
use crate::numbers::*;
use crate::wire::{Feature, Profile};

/// What a profile asks of a feature that it needs.
#[derive(Clone, Copy)]
enum Ask {
    There,
    Page,
    Lock,
    Current,
}

use Ask::{Current, Lock, Page, There};

/// The features that each profile needs, ascending.
const DISK: [(u16, Ask); 11] = [
    (0x0000, There),
    (0x0001, There),
    (0x0002, There),
    (0x0003, There),
    (0x0010, Page),
    (0x0020, There),
    (0x0023, There),
    (0x0024, There),
    (0x0100, There),
    (0x0101, There),
    (0x0105, There),
];

const CD: [(u16, Ask); 8] = [
    (0x0000, There),
    (0x0001, There),
    (0x0002, There),
    (0x0003, There),
    (0x0010, Page),
    (0x001E, There),
    (0x0100, There),
    (0x0105, There),
];

const DVD: [(u16, Ask); 9] = [
    (0x0000, There),
    (0x0001, There),
    (0x0002, There),
    (0x0003, There),
    (0x0010, Page),
    (0x001F, There),
    (0x0100, There),
    (0x0105, There),
    (0x0107, There),
];

/// Those of DVD-RAM and of the archive subset, which asks more of three of them.
const fn ram(medium: Ask, writable: Ask, defects: Ask) -> [(u16, Ask); 13] {
    [
        (0x0000, There),
        (0x0001, There),
        (0x0002, There),
        (0x0003, medium),
        (0x0010, Page),
        (0x001F, There),
        (0x0020, writable),
        (0x0023, There),
        (0x0024, defects),
        (0x0100, There),
        (0x0101, There),
        (0x0105, There),
        (0x0107, There),
    ]
}

const RAM: [(u16, Ask); 13] = ram(There, There, There);

const ARCHIVE: [(u16, Ask); 13] = ram(Lock, Current, Current);

/// No body is longer: Additional Length is a byte.
const ANY_LENGTH: usize = 255;

/// The last feature that there is a rule for.
const LAST_RULED: u16 = 0x002F;

/// Checks the descriptors of a response; gives the first finding and its feature, or 0 and feature 0.
pub fn check_descriptors(response: &[u8]) -> (u8, Feature) {
    // Which of features 0 to 3 there are.
    let mut reported = 0;
    let reading = read_complete(response, |header, _| {
        if header.feature() <= 3 {
            reported |= 1 << header.feature();
        }
    });
    if let Err(number) = reading {
        return (number, Feature(0));
    }
    for needed in 0..2 {
        if reported & 1 << needed == 0 {
            return (FINDING_MISSING, Feature(needed));
        }
    }
    first_finding(&response[HEADER_BYTES..], reported & 1 << 3 != 0)
}

/// Checks descriptors that stand in a row, all of them whole.
fn first_finding(mut descriptors: &[u8], removable: bool) -> (u8, Feature) {
    while let Some((header, behind)) = Header::split(descriptors) {
        let (body, next) = behind.split_at(header.length());
        let number = finding(header, body, removable);
        if number != ACCEPTED {
            return (number, Feature(header.feature()));
        }
        descriptors = next;
    }
    (ACCEPTED, Feature(0))
}

/// Checks one descriptor; gives the first finding or 0.
fn finding(header: Header, body: &[u8], removable: bool) -> u8 {
    if header.flags() & RESERVED != 0 {
        return FINDING_FLAGS;
    }
    if header.flags() & (PERSISTENT | CURRENT) == PERSISTENT {
        return FINDING_PERSISTENT;
    }
    if header.feature() > LAST_RULED {
        return ACCEPTED;
    }
    ruled_finding(header.feature(), header.flags(), body, removable)
}

/// Checks a descriptor whose flags are legal for any feature.
fn ruled_finding(feature: u16, flags: u8, body: &[u8], removable: bool) -> u8 {
    let wanted = match feature {
        0x0000 => body.len(),
        0x001F => 0,
        0x0020 => 12,
        0x0021 => body.get(3).map_or(4, |&count| 4 + (usize::from(count) + 3) / 4 * 4),
        0x0001..=0x0003 | 0x0026 | 0x002D..=0x002F => 4,
        _ => return ACCEPTED,
    };
    let newer = flags & VERSION != 0;
    if body.len() < wanted || !newer && body.len() > wanted {
        return FINDING_LENGTH;
    }
    if feature <= 3 && flags & (PERSISTENT | CURRENT) != PERSISTENT | CURRENT {
        return FINDING_NOT_BOTH;
    }
    if feature > 3 && removable && flags & PERSISTENT != 0 {
        return FINDING_REMOVABLE;
    }
    if newer {
        return ACCEPTED;
    }
    match feature {
        0x0000 => list_finding(body),
        0x001F => ACCEPTED,
        0x0020 if body[10] > 1 || body[11] != 0 => FINDING_RESERVED,
        0x0020 => ACCEPTED,
        0x0021 => link_sizes_finding(body),
        _ => word_finding(feature, first32(body)),
    }
}

/// Checks the profile list's body.
fn list_finding(body: &[u8]) -> u8 {
    let mut profiles = body.chunks_exact(PROFILE_BYTES).map(first32);
    if profiles.clone().any(|profile| profile & 0x0000_FEFF != 0) {
        return FINDING_RESERVED;
    }
    if profiles.any(|profile| profile >> 16 == 0) {
        return FINDING_PROFILE;
    }
    ACCEPTED
}

/// Checks the body of 0021h: three reserved bytes, the number of link sizes, those, and the pad.
fn link_sizes_finding(body: &[u8]) -> u8 {
    let pad = &body[4 + usize::from(body[3])..];
    if body[..3] != [0, 0, 0] || pad.iter().any(|&byte| byte != 0) {
        return FINDING_RESERVED;
    }
    ACCEPTED
}

/// Checks a body of four bytes.
fn word_finding(feature: u16, body: u32) -> u8 {
    let legal_bits = match feature {
        0x0002 => 0x0100_0000,
        0x0003 => 0xED00_0000,
        0x002D => 0x0700_0000,
        0x002E => 0x3FFF_FFFF,
        0x002F => 0x0400_0000,
        _ => 0xFFFF_FFFF,
    };
    if body & !legal_bits != 0 {
        return FINDING_RESERVED;
    }
    // SAO is 0, but the cue sheet's length isn't.
    if feature == 0x002E && body & 0x2000_0000 == 0 && body & 0x00FF_FFFF != 0 {
        return FINDING_CUE_SHEET;
    }
    ACCEPTED
}

/// The features that a profile needs, and how long a body may be; none without a table.
fn needs(profile: Profile) -> Option<(&'static [(u16, Ask)], usize)> {
    match profile.0 {
        0x0000 => Some((&ARCHIVE, 32)),
        0x0002 => Some((&DISK, ANY_LENGTH)),
        0x0008 => Some((&CD, ANY_LENGTH)),
        0x0010 => Some((&DVD, ANY_LENGTH)),
        0x0012 => Some((&RAM, ANY_LENGTH)),
        0xFFFF => Some((&RAM[..2], ANY_LENGTH)),
        _ => None,
    }
}

/// Checks that a response has what a profile needs.
pub fn check_profile(profile: Profile, response: &[u8]) -> ProfileAnswer {
    let table = needs(profile);
    // Numbers ascend on both sides, so the first that breaks the profile is the lowest.
    let (mut left, longest) = table.unwrap_or((&[], ANY_LENGTH));
    let mut broken = None;
    let reading = read_complete(response, |header, body| {
        if broken.is_none() {
            broken = step(&mut left, longest, header, body);
        }
    });
    let broken = broken.or(left.first().map(|&(feature, _)| (feature, Wrong::Absent)));
    match (reading, table, broken) {
        (Err(number), _, _) => ProfileAnswer::Refused(number),
        (_, None, _) => ProfileAnswer::NoTable,
        (_, _, Some((feature, wrong))) => ProfileAnswer::Broken(Feature(feature), wrong),
        _ => ProfileAnswer::Conforms,
    }
}

/// A feature that breaks the profile at a descriptor, if there is one; the need that it meets is taken from those that are left.
fn step(left: &mut &[(u16, Ask)], longest: usize, header: Header, body: &[u8]) -> Option<(u16, Wrong)> {
    let feature = header.feature();
    if let Some(&(needed, ask)) = left.first() {
        if needed < feature {
            return Some((needed, Wrong::Absent));
        }
        if needed == feature {
            *left = &left[1..];
            if let Some(wrong) = lacks(ask, header, body) {
                return Some((feature, wrong));
            }
        }
    }
    (body.len() > longest).then_some((feature, Wrong::TooLong))
}

/// What a descriptor lacks of what is asked.
fn lacks(ask: Ask, header: Header, body: &[u8]) -> Option<Wrong> {
    match ask {
        There => None,
        Page if body.len() < 8 => Some(Wrong::TooShort),
        Page => (body[6] & 1 == 0).then_some(Wrong::BitClear),
        Lock if body.len() < 4 => Some(Wrong::TooShort),
        Lock => (body[0] & 1 == 0).then_some(Wrong::BitClear),
        Current => (header.flags() & CURRENT == 0).then_some(Wrong::NotCurrent),
    }
}
