//! Faults in the order in which they are looked for: of two faults in one input, the earlier one decides.

use super::responses::{places, response_of};
use super::sheets::{body, profiles, sheet_of};
use super::{put16, put32, Part};
use crate::run::Told;
use second::wire::{be16, be32};

/// A way to spoil an input, and the number and the place that it gets.
pub struct Fault<T> {
    pub told: Told,
    make: Box<dyn Fn(&mut T)>,
}

impl<T> Fault<T> {
    /// Spoils an input.
    pub fn make(&self, input: &mut T) {
        (self.make)(input);
    }
}

/// A fault that has no place.
pub fn fault<T>(number: u8, make: impl Fn(&mut T) + 'static) -> Fault<T> {
    fault_at((number, 0), make)
}

/// A fault with its number and its place.
pub fn fault_at<T>(told: Told, make: impl Fn(&mut T) + 'static) -> Fault<T> {
    Fault { told, make: Box::new(make) }
}

/// Shows each fault alone and each two together, made on a good input; the faults are listed in their order.
pub fn each_pair<T: Clone>(good: &T, faults: &[Fault<T>], see: &mut dyn FnMut(&T, Told)) {
    for (at, earlier) in faults.iter().enumerate() {
        let mut alone = good.clone();
        earlier.make(&mut alone);
        see(&alone, earlier.told);
        for later in &faults[at + 1..] {
            let mut both = good.clone();
            later.make(&mut both);
            earlier.make(&mut both);
            see(&both, earlier.told);
        }
    }
}

/// A sheet that has room for each fault: 5 entries, 3 profiles, and bodies that 64 profiles would fit in.
pub fn good_sheet() -> Vec<u8> {
    let parts = [
        (1, 7, body(252)),
        (2, 1, body(0)),
        (0x10, 0x3C, body(8)),
        (0x100, 3, body(4)),
        (0xFFFF, 0x29, body(0)),
    ];
    sheet_of(&profiles(3, 2), &parts)
}

/// Where the entries and the profiles of that sheet stand.
const ENTRIES: usize = 5;
const PROFILES_AT: usize = 4 + 8 * ENTRIES;
const BODIES_AT: usize = PROFILES_AT + 4 * 3;

/// Every fault of a sheet.
pub fn sheet_faults() -> Vec<Fault<Vec<u8>>> {
    let mut faults = vec![
        fault(1, |sheet: &mut Vec<u8>| sheet.truncate(0)),
        fault(1, |sheet: &mut Vec<u8>| sheet.truncate(3)),
        fault(1, |sheet: &mut Vec<u8>| sheet.truncate(BODIES_AT - 1)),
        fault(1, |sheet: &mut Vec<u8>| put16(sheet, 0, 0xFFFF)),
        fault(1, |sheet: &mut Vec<u8>| put16(sheet, 2, 0xFFFF)),
        fault(2, |sheet: &mut Vec<u8>| put16(sheet, 2, 64)),
        fault(2, |sheet: &mut Vec<u8>| put16(sheet, 2, 65)),
    ];
    for place in 1..=3 {
        profile_faults(place, &mut faults);
    }
    for place in 1..=ENTRIES {
        entry_faults(place, &mut faults);
    }
    faults.push(fault(8, |sheet: &mut Vec<u8>| sheet.push(0)));
    faults.push(fault(8, |sheet: &mut Vec<u8>| sheet.extend_from_slice(&[0; 4])));
    faults.push(fault(8, |sheet: &mut Vec<u8>| sheet.truncate(sheet.len() - 2)));
    faults
}

/// The faults of the profile at a place; of two with the same number the later one is at fault.
fn profile_faults(place: usize, faults: &mut Vec<Fault<Vec<u8>>>) {
    let at = PROFILES_AT + 4 * (place - 1);
    let mut push = |spoil: fn(&mut Vec<u8>, usize)| {
        faults.push(fault_at((3, place), move |sheet: &mut Vec<u8>| spoil(sheet, at)));
    };
    push(|sheet, at| put16(sheet, at, 0));
    if place > 1 {
        push(|sheet, at| sheet.copy_within(at - 4..at - 2, at));
        push(|sheet, at| sheet.copy_within(PROFILES_AT..PROFILES_AT + 2, at));
    }
    push(|sheet, at| sheet[at + 2] = 2);
    push(|sheet, at| sheet[at + 2] |= 0x80);
    push(|sheet, at| sheet[at + 3] = 1);
}

/// The faults of the entry at a place.
fn entry_faults(place: usize, faults: &mut Vec<Fault<Vec<u8>>>) {
    let at = 4 + 8 * (place - 1);
    faults.push(fault_at((4, place), move |sheet: &mut Vec<u8>| put16(sheet, at, 0)));
    if place > 1 {
        faults.push(fault_at((4, place), move |sheet: &mut Vec<u8>| sheet.copy_within(at - 8..at - 6, at)));
        faults.push(fault_at((4, place), move |sheet: &mut Vec<u8>| {
            let below = be16(sheet, at - 8).wrapping_sub(1);
            put16(sheet, at, below);
        }));
    }
    for (number, spoil) in FLAG_FAULTS {
        faults
            .push(fault_at((number, place), move |sheet: &mut Vec<u8>| sheet[at + 2] = spoil(sheet[at + 2])));
    }
    for more in 1..4 {
        faults.push(fault_at((6, place), move |sheet: &mut Vec<u8>| sheet[at + 3] |= more));
    }
    for bit in [0, 2, 3, 8, 24, 31] {
        faults.push(fault_at((7, place), move |sheet: &mut Vec<u8>| {
            let offset = be32(sheet, at + 4) ^ (1 << bit);
            put32(sheet, at + 4, offset);
        }));
    }
}

/// The faults of flags in the order in which they are looked for: the number, and what is done to legal flags.
pub const FLAG_FAULTS: [(u8, fn(u8) -> u8); 8] = [
    (5, |flags| flags | 0x80),
    (5, |flags| flags | 0x40),
    (5, |flags| flags | 0xFC),
    (44, |flags| flags & 0xFC | 2),
    (44, |_| 2),
    (44, |_| 0x06),
    (44, |_| 0x22),
    (44, |_| 0x3E),
];

/// Shows a sheet of 65,535 features in a row with each fault of its last entry; it is then as it was.
pub fn each_last_fault(sheet: &mut [u8], see: &mut dyn FnMut(&[u8], Told)) {
    let last = 4 + 8 * 65_534;
    let entry: [u8; 8] = sheet[last..last + 8].try_into().unwrap_or_default();
    for (number, at, bits) in [
        (4, 1, 0x02),
        (5, 2, 0x40),
        (44, 2, entry[2] ^ 0x3E),
        (44, 2, entry[2] ^ 2),
        (6, 3, 0x02),
        (7, 7, 0x02),
    ] {
        sheet[last + at] ^= bits;
        see(sheet, (number, 65_535));
        sheet[last..last + 8].copy_from_slice(&entry);
    }
}

/// One fault of a sheet for each number and place.
pub fn some_sheet_faults() -> Vec<Fault<Vec<u8>>> {
    let mut faults = sheet_faults();
    let mut seen = Vec::new();
    faults.retain(|fault| {
        let first = !seen.contains(&fault.told);
        seen.push(fault.told);
        first
    });
    faults
}

/// A reading.
#[derive(Clone)]
pub struct Asked {
    pub rt: u8,
    pub sfn: u16,
    pub response: Vec<u8>,
}

/// The descriptors of a good reading.
fn good_parts(rt: u8, sfn: u16) -> Vec<Part> {
    if rt == 2 {
        return vec![(sfn, 1, body(8))];
    }
    vec![(sfn, 1, body(4)), (sfn + 1, 3, body(0)), (0x20, 1, body(8)), (0x100, 1, body(4))]
}

/// A reading that is complete and accepted, for an SFN of at most 30.
pub fn good_reading(rt: u8, sfn: u16) -> Asked {
    Asked { rt, sfn, response: response_of(0x0012, &good_parts(rt, sfn)) }
}

/// Every fault of that reading.
pub fn reading_faults(rt: u8, sfn: u16) -> Vec<Fault<Asked>> {
    let mut faults = vec![
        fault(13, |asked: &mut Asked| asked.rt = 3),
        fault(13, |asked: &mut Asked| asked.rt = 255),
        fault(14, |asked: &mut Asked| asked.response.truncate(0)),
        fault(14, |asked: &mut Asked| asked.response.truncate(7)),
        fault(14, |asked: &mut Asked| asked.response.resize(65_535, 0)),
        fault(15, |asked: &mut Asked| put32(&mut asked.response, 0, 0)),
        fault(15, |asked: &mut Asked| asked.response[3] |= 1),
        fault(15, |asked: &mut Asked| asked.response[3] |= 2),
        fault(16, |asked: &mut Asked| asked.response.resize(65_534, 0)),
        fault(16, |asked: &mut Asked| asked.response.push(0)),
        fault(16, |asked: &mut Asked| put32(&mut asked.response, 0, 4)),
    ];
    let parts = good_parts(rt, sfn);
    let mut before = None;
    for at in places(&parts) {
        for more in 1..4 {
            faults.push(fault(17, move |asked: &mut Asked| asked.response[at + 3] |= more));
        }
        if sfn > 0 {
            faults.push(fault(18, move |asked: &mut Asked| put16(&mut asked.response, at, asked.sfn - 1)));
        }
        if let Some(before) = before {
            faults
                .push(fault(18, move |asked: &mut Asked| asked.response.copy_within(before..before + 2, at)));
        }
        if rt == 2 {
            faults.push(fault(18, move |asked: &mut Asked| put16(&mut asked.response, at, asked.sfn + 1)));
        }
        if rt == 1 {
            faults.push(fault(19, move |asked: &mut Asked| asked.response[at + 2] &= 0xFE));
        }
        faults.push(fault(20, move |asked: &mut Asked| asked.response[at + 3] = 252));
        before = Some(at);
    }
    faults
}

/// Faults of a complete response to RT 0 from 0, in their order: the number of the reading, or 29, and what is done to the bytes.
pub const RESPONSE_FAULTS: [(u8, fn(&mut Vec<u8>)); 7] = [
    (14, |bytes| bytes.truncate(7)),
    (15, |bytes| bytes[3] |= 1),
    (16, |bytes| put32(bytes, 0, 4)),
    (17, |bytes| bytes[11] |= 1),
    (18, |bytes| {
        let second = 12 + usize::from(bytes[11]);
        bytes[second..second + 2].fill(0);
    }),
    (20, |bytes| {
        let last = bytes.len() - 5;
        bytes[last] = 252;
    }),
    (29, |bytes| {
        let longer = bytes.len() as u32;
        put32(bytes, 0, longer);
    }),
];

/// Shows the faults of a reading with RT 0 from 0, alone and two together, whole and cut at each byte.
pub fn each_faulty_response(see: &mut dyn FnMut(&[u8])) {
    // The first two spoil the RT, which is not a part of the response.
    let faults = reading_faults(0, 0).split_off(2);
    each_pair(&good_reading(0, 0), &faults, &mut |asked, _| see(&asked.response));
    for fault in &faults {
        let mut asked = good_reading(0, 0);
        fault.make(&mut asked);
        for cut in 0..asked.response.len().min(64) {
            see(&asked.response[..cut]);
        }
    }
}
