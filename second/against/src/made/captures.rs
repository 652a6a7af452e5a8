//! Captured responses: complete ones to RT 0 from 0 that a sheet could have sent, and ones with chosen faults.

use super::damage::damage;
use super::faults::{fault, fault_at, Fault, FLAG_FAULTS};
use super::responses::{places, response_of, sent};
use super::sheets::{body, in_a_row, profiles, random_parts, sheet_of, short_sheets, starts_near, E};
use super::{put16, put32, Part};
use crate::random::Random;
use crate::run::Told;
use second::wire::be16;

/// A capture of a profile list and descriptors behind it; its Current Profile is the one that the list gives.
pub fn capture_of(list: &[u8], parts: &[Part]) -> Vec<u8> {
    let mut all = vec![(0, 3, list.to_vec())];
    all.extend_from_slice(parts);
    let mut bytes = response_of(0, &all);
    put_current(&mut bytes);
    bytes
}

/// Writes the Current Profile that the list behind the header gives.
pub fn put_current(bytes: &mut [u8]) {
    let mut list = bytes[12..12 + usize::from(bytes[11])].chunks(4);
    let current = list.find(|profile| profile[2] % 2 == 1).map_or(0, |profile| be16(profile, 0));
    put16(bytes, 6, current);
}

/// Captures short enough to spoil at every bit.
pub fn short_captures() -> Vec<Vec<u8>> {
    short_sheets().iter().map(|sheet| sent(sheet, 0, 0, 65_535)).collect()
}

/// Starting feature numbers that matter to a capture.
pub fn starts_of(capture: &[u8], most: usize) -> Vec<u16> {
    let numbers: Vec<u16> = descriptors_in(capture).iter().map(|&at| be16(capture, at)).collect();
    starts_near(&numbers, most)
}

/// Sheets whose responses have 65,532 bytes.
pub fn full_sheets() -> [Vec<u8>; 3] {
    let mut mixed = in_a_row(255, 252);
    mixed.push((0xFFFF, 1, body(232)));
    [long_bodies(), no_bodies(), sheet_of(&profiles(1, 1), &mixed)]
}

/// E's response.
pub fn example() -> Vec<u8> {
    sent(&E, 0, 0, 65_535)
}

/// A sheet whose response has 65,532 bytes: 60 profiles and 255 features with bodies of 252 bytes.
pub fn long_bodies() -> Vec<u8> {
    sheet_of(&profiles(60, 60), &in_a_row(255, 252))
}

/// A sheet whose response has 65,532 bytes: 16,381 descriptors with feature 0, all of them without a body.
pub fn no_bodies() -> Vec<u8> {
    sheet_of(&[], &in_a_row(16_380, 0))
}

/// A capture and the room for its sheet.
#[derive(Clone)]
pub struct Import {
    pub capture: Vec<u8>,
    pub room: usize,
}

/// The descriptors behind feature 0 of a good capture; 1 and 2 are free.
fn good_parts() -> Vec<Part> {
    vec![(3, 7, body(4)), (0x10, 0, body(0)), (0x100, 0x3D, body(8)), (0xFFFF, 3, body(4))]
}

/// Three profiles, of which the second and the third are current.
const GOOD_LIST: [u8; 12] = [0, 0x12, 0, 0, 1, 2, 1, 0, 0, 0x10, 1, 0];

/// The length of the sheet that the good capture gives.
const GOOD_SHEET: usize = 4 + 8 * 4 + 12 + 16;

/// A capture that is accepted, with just enough room.
pub fn good_import() -> Import {
    Import { capture: capture_of(&GOOD_LIST, &good_parts()), room: GOOD_SHEET }
}

/// A fault of a capture's bytes that has no place.
fn of_bytes(number: u8, spoil: impl Fn(&mut Vec<u8>) + 'static) -> Fault<Import> {
    of_bytes_at((number, 0), spoil)
}

/// A fault of a capture's bytes with its number and its place.
fn of_bytes_at(told: Told, spoil: impl Fn(&mut Vec<u8>) + 'static) -> Fault<Import> {
    fault_at(told, move |import: &mut Import| spoil(&mut import.capture))
}

/// Every fault of that capture, in the order in which they are looked for.
pub fn import_faults() -> Vec<Fault<Import>> {
    let mut faults = vec![
        of_bytes(14, |bytes| bytes.truncate(0)),
        of_bytes(14, |bytes| bytes.truncate(7)),
        of_bytes(14, |bytes| bytes.resize(65_535, 0)),
        of_bytes(15, |bytes| put32(bytes, 0, 0)),
        of_bytes(15, |bytes| bytes[3] |= 1),
        of_bytes(15, |bytes| bytes[3] |= 2),
        of_bytes(16, |bytes| bytes.resize(65_534, 0)),
        of_bytes(16, |bytes| put32(bytes, 0, 4)),
        of_bytes(16, |bytes| put_data_length(bytes, 0_u32.wrapping_sub(4))),
    ];
    let mut parts = vec![(0, 3, GOOD_LIST.to_vec())];
    parts.extend(good_parts());
    let places = places(&parts);
    for (index, &at) in places.iter().enumerate() {
        for more in 1..4 {
            faults.push(of_bytes(17, move |bytes| bytes[at + 3] |= more));
        }
        if index > 0 {
            let before = places[index - 1];
            faults.push(of_bytes(18, move |bytes| bytes.copy_within(before..before + 2, at)));
            faults.push(of_bytes(18, move |bytes| put16(bytes, at, 0)));
        }
        faults.push(of_bytes(20, move |bytes| bytes[at + 3] = 252));
    }
    for more in [4, 8, 0x80] {
        faults.push(of_bytes(29, move |bytes| put_data_length(bytes, more)));
    }
    header_faults(&mut faults);
    for place in 1..=GOOD_LIST.len() / 4 {
        profile_faults(place, &mut faults);
    }
    // Feature 0 is the first descriptor and isn't counted.
    for (place, &at) in places.iter().enumerate().skip(1) {
        for (number, spoil) in FLAG_FAULTS {
            faults.push(of_bytes_at((number, place), move |bytes| bytes[at + 2] = spoil(bytes[at + 2])));
        }
    }
    for room in [0, 1, 4, GOOD_SHEET - 4, GOOD_SHEET - 1] {
        faults.push(fault(42, move |import: &mut Import| import.room = room));
    }
    faults
}

/// The faults of feature 0 and of the header; the profile is only moved, since a later fault may have changed it.
fn header_faults(faults: &mut Vec<Fault<Import>>) {
    for feature in 1..3 {
        faults.push(of_bytes(41, move |bytes| put16(bytes, 8, feature)));
    }
    for bit in 0..8 {
        faults.push(of_bytes(41, move |bytes| bytes[10] ^= 1 << bit));
        faults.push(of_bytes(41, move |bytes| bytes[4] |= 1 << bit));
        faults.push(of_bytes(41, move |bytes| bytes[5] |= 1 << bit));
    }
    for bit in 0..16 {
        faults.push(of_bytes(41, move |bytes| {
            put_current(bytes);
            bytes[6 + bit / 8] ^= 1 << (bit % 8);
        }));
    }
}

/// The faults of the profile at a place in feature 0's list; the Current Profile follows them, so that it isn't what is
/// refused. Of two profiles with the same number the later one is at fault.
fn profile_faults(place: usize, faults: &mut Vec<Fault<Import>>) {
    let at = 12 + 4 * (place - 1);
    let mut push = |spoil: fn(&mut Vec<u8>, usize)| {
        faults.push(of_bytes_at((3, place), move |bytes| {
            spoil(bytes, at);
            put_current(bytes);
        }));
    };
    push(|bytes, at| put16(bytes, at, 0));
    if place > 1 {
        push(|bytes, at| bytes.copy_within(at - 4..at - 2, at));
        push(|bytes, at| bytes.copy_within(12..14, at));
    }
    push(|bytes, at| bytes[at + 2] = 2);
    push(|bytes, at| bytes[at + 2] = 3);
    push(|bytes, at| bytes[at + 2] |= 0x80);
    push(|bytes, at| bytes[at + 2] = 0xFF);
    push(|bytes, at| bytes[at + 3] = 1);
    push(|bytes, at| bytes[at + 3] = 0x80);
}

/// A made-up capture that is accepted, of at most so many features and 65,532 bytes.
pub fn random_capture(random: &mut Random, most: usize) -> Vec<u8> {
    let mut list = Vec::new();
    let many = random.one_of(&[4, 4, 4, 64]);
    let step = 1 + random.below(1_000);
    for index in 0..random.below(many) {
        // Listed from the highest number down, so that order and number disagree.
        let number = (65_535 - index * step - random.below(step)) as u16;
        list.extend_from_slice(&number.to_be_bytes());
        list.extend_from_slice(&[u8::from(random.once_in(3)), 0]);
    }
    let count = random.below(most + 1);
    let mut parts = random_parts(random, count, 1);
    let mut room = 65_532 - 12 - list.len();
    let fitting = parts.iter().take_while(|part| {
        let fits = room >= 4 + part.2.len();
        room = room.saturating_sub(4 + part.2.len());
        fits
    });
    let fitting = fitting.count();
    parts.truncate(fitting);
    capture_of(&list, &parts)
}

/// A copy of a capture that is spoilt in some fields, or damaged anywhere.
pub fn spoilt(random: &mut Random, capture: &[u8]) -> Vec<u8> {
    let mut bytes = capture.to_vec();
    if random.once_in(3) {
        damage(random, &mut bytes);
        return bytes;
    }
    for _ in 0..=random.below(3) {
        spoil(random, &mut bytes);
    }
    bytes
}

/// Spoils one field of a capture: in its header, in the list's header, in a profile or in a descriptor's header.
pub fn spoil(random: &mut Random, bytes: &mut Vec<u8>) {
    // Too short to have a list.
    if bytes.len() < 12 {
        return;
    }
    let list = 12..(12 + usize::from(bytes[11])).min(bytes.len());
    match random.below(8) {
        0 => bytes[random.below(8)] ^= 1 << random.below(8),
        1 => bytes[8 + random.below(4)] ^= 1 << random.below(8),
        2 | 3 if !list.is_empty() => {
            let at = list.start + random.below(list.len());
            bytes[at] = random.one_of(&[0, 0, 1, 2, 3]);
        }
        4 => bytes.truncate(bytes.len() - random.below(9).min(bytes.len())),
        _ => {
            let at = random.one_of(&descriptors_in(bytes)) + random.below(4);
            let any = random.byte();
            bytes[at] = random.one_of(&[0, 1, 2, 3, 4, 8, any]);
        }
    }
    // Half of the time what depends on the spoilt field follows it, so that a later check decides.
    if bytes.len() < 12 {
        return;
    }
    if random.once_in(2) {
        put_data_length(bytes, 0);
    }
    if random.once_in(2) && bytes[11] % 4 == 0 && 12 + usize::from(bytes[11]) <= bytes.len() {
        put_current(bytes);
    }
}

/// The places of the descriptors whose headers are there, one behind the other.
fn descriptors_in(bytes: &[u8]) -> Vec<usize> {
    let mut places = Vec::new();
    let mut at = 8;
    while at + 4 <= bytes.len() {
        places.push(at);
        at += 4 + usize::from(bytes[at + 3]);
    }
    places
}

/// Writes the Data Length of a complete response and so much more.
fn put_data_length(bytes: &mut [u8], more: u32) {
    let length = (bytes.len() as u32 - 4).wrapping_add(more);
    put32(bytes, 0, length);
}
