//! Responses: good ones, cut ones, and ones whose Data Length lies.

use second::command::{full_length, most_bytes, send, Request};
use second::sheet::{Layout, Sheet};
use second::wire::Feature;

use super::damage::{damage, each_flip};
use super::sheets::{
    at_edges, body, profiles, random_parts, random_sheet, sheet_of, short_sheets, starts_for, E,
};
use super::{put32, Part};
use crate::random::Random;

/// The most bytes of a response.
pub const MOST: usize = 65_534;

/// Every feature that the checks have a rule for, with bodies that the rules allow, and one that they don't know.
pub fn ruled_parts() -> Vec<Part> {
    vec![
        (0x0000, 3, vec![0, 0x12, 1, 0, 0, 0x10, 0, 0]),
        (0x0001, 3, vec![0, 0, 0, 2]),
        (0x0002, 3, vec![1, 0, 0, 0]),
        (0x0003, 3, vec![0x29, 0, 0, 0]),
        (0x0010, 1, vec![0, 0, 8, 0, 0, 16, 1, 0]),
        (0x001F, 1, vec![]),
        (0x0020, 1, vec![1, 2, 3, 4, 0, 0, 8, 0, 0, 16, 1, 0]),
        (0x0021, 1, vec![0, 0, 0, 5, 9, 8, 7, 6, 5, 0, 0, 0]),
        (0x0023, 1, vec![]),
        (0x0024, 1, vec![]),
        (0x0026, 1, vec![0xFF, 0, 0, 1]),
        (0x002D, 1, vec![7, 0, 0, 0]),
        (0x002E, 1, vec![0x3F, 1, 2, 3]),
        (0x002F, 1, vec![4, 0, 0, 0]),
        (0x0100, 1, vec![]),
        (0x0101, 1, vec![]),
        (0x0105, 3, vec![]),
        (0x0107, 1, vec![5, 6, 7, 8]),
        (0xFFFF, 1, vec![1, 2, 3, 4]),
    ]
}

/// Shows a response of all these features with each bit flipped, and with each two of some bits: Persistent is also wrong where 0003h is reported.
pub fn each_ruled_bit(see: &mut dyn FnMut(&[u8])) {
    each_flip(&mut response_of(0x0012, &ruled_parts()), 1, |bytes| {
        see(bytes);
        each_flip(bytes, 97, |bytes| see(bytes));
    });
}

/// A complete response.
pub fn response_of(profile: u16, parts: &[Part]) -> Vec<u8> {
    let mut bytes = vec![0; 6];
    bytes.extend_from_slice(&profile.to_be_bytes());
    for (feature, flags, body) in parts {
        bytes.extend_from_slice(&feature.to_be_bytes());
        bytes.extend_from_slice(&[*flags, body.len() as u8]);
        bytes.extend_from_slice(body);
    }
    let data_length = bytes.len() as u32 - 4;
    put32(&mut bytes, 0, data_length);
    bytes
}

/// Where each descriptor of a response with these parts stands.
pub fn places(parts: &[Part]) -> Vec<usize> {
    let mut at = 8;
    let mut places = Vec::new();
    for (_, _, body) in parts {
        places.push(at);
        at += 4 + body.len();
    }
    places
}

/// What an accepted sheet sends, by the plain side; nothing where the sheet is not accepted.
pub fn sent(sheet: &[u8], rt: u8, sfn: u16, allocation: u16) -> Vec<u8> {
    let sheet = match Sheet::accept(Layout::Rows, sheet) {
        Ok(sheet) => sheet,
        Err(_) => return Vec::new(),
    };
    let request = Request { rt, sfn: Feature(sfn), allocation };
    let full = full_length(sheet, rt, request.sfn);
    let mut response = vec![0; full.min(most_bytes(allocation))];
    match send(sheet, request, full, &mut response) {
        Ok(_) => response,
        Err(_) => Vec::new(),
    }
}

/// The length of the full response, at most the return limit; 0 where the sheet is not accepted.
pub fn length_to_send(sheet: &[u8], rt: u8, sfn: u16) -> usize {
    Sheet::accept(Layout::Rows, sheet).map_or(0, |sheet| full_length(sheet, rt, Feature(sfn)).min(MOST))
}

/// Complete responses to RT 0 from 0, each short enough to cut at every byte.
pub fn short_responses() -> Vec<Vec<u8>> {
    vec![
        sent(&E, 0, 0, 65_535),
        sent(&sheet_of(&[], &[]), 0, 0, 65_535),
        response_of(0, &[]),
        sent(&sheet_of(&profiles(63, 3), &[]), 0, 0, 65_535),
        sent(&sheet_of(&[], &at_edges()), 0, 0, 65_535),
        response_of(0x0012, &ruled_parts()),
        response_of(0xFFFF, &[(0xFFFE, 0xFD, body(4)), (0xFFFF, 0xFE, body(8))]),
    ]
}

/// A response of 65,532 bytes that no check finds a fault in.
pub fn long_faultless() -> Vec<u8> {
    let mut parts = vec![(0, 3, vec![0, 0x12, 1, 0]), (1, 3, vec![0, 0, 0, 2])];
    parts.extend((0x0100..0x0100 + 16_377).map(|number| (number, 1, vec![])));
    response_of(0x0012, &parts)
}

/// Responses as long as the limits let them be, and longer ones.
pub fn long_responses() -> Vec<Vec<u8>> {
    // Behind the header there is room for 16,381 descriptors without a body: 65,532 bytes.
    let empty: Vec<Part> = (0..16_381).map(|number| (number, 3, vec![])).collect();
    let whole = response_of(0x0012, &empty);
    let long: Vec<Part> = (0..257).map(|number| (number, 3, body(252))).collect();
    let cut = response_of(0x0012, &long);
    let mut last_is_wrong = whole.clone();
    last_is_wrong[65_528] = 0;
    let mut last_is_long = whole.clone();
    last_is_long[65_531] = 4;
    let mut last_is_persistent = long_faultless();
    last_is_persistent[65_530] = 2;
    // Its length would be right in sixteen bits.
    let mut far_too_long = sent(&E, 0, 0, 65_535);
    far_too_long.resize(65_536 + far_too_long.len(), 0);
    vec![
        far_too_long,
        long_faultless(),
        last_is_persistent,
        whole[..65_531].to_vec(),
        whole,
        cut[..MOST].to_vec(),
        cut[..MOST + 1].to_vec(),
        cut,
        last_is_wrong,
        last_is_long,
    ]
}

/// Data Lengths to lie with about a response of this full length.
pub fn lies(full: usize) -> Vec<u32> {
    let full = full as u32;
    let mut lies: Vec<u32> = (0..=full + 8).collect();
    for edge in [0x100, 0x1_0000, 65_530, 65_534, 0x0100_0000, 0x8000_0000, 0xFFFF_FFF8_u32] {
        lies.extend((0..8).map(|more| edge - 4 + more));
    }
    lies.extend_from_slice(&[u32::MAX, u32::MAX - 1, u32::MAX - 2, u32::MAX - 3, u32::MAX - 4]);
    lies
}

/// Shows every cut of the short responses, bytes added to them, and every lie about their length, whole and cut.
pub fn each_short(see: &mut dyn FnMut(&[u8])) {
    for response in short_responses() {
        let full = response.len();
        for cut in 0..=full {
            see(&response[..cut]);
        }
        let mut longer = response.clone();
        for more in 0..9 {
            longer.push(more);
            see(&longer);
        }
        for lie in lies(full) {
            let mut liar = response.clone();
            put32(&mut liar, 0, lie);
            see(&liar);
            see(&liar[..full * 2 / 3]);
        }
    }
}

/// A made-up response with the RT and the SFN that it answers.
pub struct Made {
    pub rt: u8,
    pub sfn: u16,
    pub bytes: Vec<u8>,
}

/// A made-up response: what a sheet sends, or descriptors in a row; whole or cut.
pub fn random_response(random: &mut Random, rt: u8) -> Made {
    if random.once_in(2) {
        return random_sent(random, rt);
    }
    let sfn = random.one_of(&[0, 0, 1, 0x10]);
    let most = if random.once_in(150) { 9_000 } else { random.one_of(&[3, 12, 12, 40]) };
    let count = random.below(most);
    let mut parts = random_parts(random, count, usize::from(sfn));
    for part in &mut parts {
        let version = if random.once_in(8) { random.byte() & 0xFC } else { 0 };
        part.1 = part.1 | version | u8::from(rt == 1);
    }
    if rt == 2 {
        parts.truncate(1);
        parts.iter_mut().for_each(|part| part.0 = sfn);
    }
    let mut bytes = response_of(random.near(0x12), &parts);
    if random.once_in(3) {
        let cut = random.below(bytes.len() + 1);
        bytes.truncate(cut);
    }
    // Longer ones are refused all alike.
    bytes.truncate(MOST + random.below(2));
    Made { rt, sfn, bytes }
}

/// What a made-up sheet sends to a made-up command.
fn random_sent(random: &mut Random, rt: u8) -> Made {
    let sheet = random_sheet(random, 12);
    let sfn = if random.once_in(2) { 0 } else { random.one_of(&starts_for(&sheet, 12)) };
    let full = length_to_send(&sheet, rt, sfn);
    let allocation = if random.once_in(2) { 65_535 } else { random.below(full + 2) as u16 };
    Made { rt, sfn, bytes: sent(&sheet, rt, sfn, allocation) }
}

/// A made-up response for the checks: features that have rules, most of them as the rules want them.
pub fn random_ruled(random: &mut Random) -> Vec<u8> {
    let mut parts = ruled_parts();
    let kept = random.one_of(&[2, 20, 50]);
    parts.retain(|part| part.0 < 2 || !random.once_in(kept));
    if random.once_in(8) {
        let at = random.below(2);
        parts.remove(at);
    }
    for _ in 0..random.below(3) {
        let at = random.below(parts.len());
        bend(random, &mut parts[at]);
    }
    let mut bytes = response_of(random.near(0x12), &parts);
    if random.once_in(8) {
        super::damage::damage(random, &mut bytes);
    }
    bytes
}

/// Changes one thing about a descriptor.
fn bend(random: &mut Random, part: &mut Part) {
    let (_, flags, body) = part;
    match random.below(7) {
        0 => *flags = random.one_of(&[0, 1, 2, 3]),
        1 => *flags ^= 1 << random.below(8),
        2 => body.resize(random.below(6) * 4, 0),
        3 => *flags |= random.byte() & 0x3C,
        _ if body.is_empty() => {}
        4 => {
            let at = random.below(body.len());
            body[at] = random.byte();
        }
        5 => {
            let at = random.below(body.len());
            body[at] = 0;
        }
        _ => {
            let at = random.below(body.len());
            body[at] ^= 1 << random.below(8);
        }
    }
}

/// What the short sheets send to each RT and several SFNs, cut at each byte, with that RT and SFN and the length of all of it.
pub fn each_cut_of_what_is_sent(see: &mut dyn FnMut(u8, u16, usize, &[u8])) {
    for sheet in short_sheets() {
        for rt in 0..3 {
            for sfn in starts_for(&sheet, 2) {
                let response = sent(&sheet, rt, sfn, 65_535);
                for cut in 0..=response.len() {
                    see(rt, sfn, response.len(), &response[..cut]);
                }
            }
        }
    }
}

/// A made-up response ten times, most times damaged, and the RT and SFN that it is read as, seldom others than it was made for.
pub fn ten_damaged(random: &mut Random, see: &mut dyn FnMut(&mut Random, u8, u16, &[u8])) {
    let rt = random.below(3) as u8;
    let made = random_response(random, rt);
    for _ in 0..10 {
        let mut bytes = made.bytes.clone();
        if !random.once_in(3) {
            damage(random, &mut bytes);
        }
        let rt = if random.once_in(6) { random.below(4) as u8 } else { made.rt };
        let sfn = if random.once_in(6) { random.near(usize::from(made.sfn)) } else { made.sfn };
        see(random, rt, sfn, &bytes);
    }
}
