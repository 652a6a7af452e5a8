//! Drive sheets.

use second::sheet::{build, ListedProfile};
use second::wire::{Descriptor, Feature, Profile};

use super::Part;
use crate::random::Random;

/// Sheet E of the paper.
pub use gcf::SHEET_E as E;

/// The length of the longest sheet.
pub const LONGEST: usize = 17_039_356;

/// A sheet from profiles, each with whether it is current, and descriptors.
pub fn sheet_of(profiles: &[(u16, bool)], parts: &[Part]) -> Vec<u8> {
    let profiles: Vec<ListedProfile> = profiles
        .iter()
        .map(|&(number, current)| ListedProfile { number: Profile(number), current })
        .collect();
    let descriptors: Vec<Descriptor> = parts
        .iter()
        .map(|(feature, flags, body)| Descriptor { feature: Feature(*feature), flags: *flags, body })
        .collect();
    build(&profiles, &descriptors).unwrap_or_default()
}

/// So many profiles, of which one is current.
pub fn profiles(count: u16, current: u16) -> Vec<(u16, bool)> {
    (1..=count).map(|number| (number, number == current)).collect()
}

/// A body of so many bytes, all different from their neighbours.
pub fn body(length: usize) -> Vec<u8> {
    (0..length).map(|at| (at * 37 + 11) as u8).collect()
}

/// Features 1, 2 and so on, as many as wanted, with bodies of one length.
pub fn in_a_row(count: u16, length: usize) -> Vec<Part> {
    let body = body(length);
    (1..=count).map(|number| (number, [3, 1, 0][scattered(number) % 3], body.clone())).collect()
}

/// A number for each number that shows no period: what a processor would learn is not there to be learnt.
fn scattered(number: u16) -> usize {
    let mixed = u32::from(number).wrapping_mul(0x9E37_79B1);
    ((mixed ^ mixed >> 15).wrapping_mul(0x85EB_CA77) >> 13) as usize
}

/// So many profiles in no order, of which one is current.
pub fn profiles_in_no_order(count: u16, current: u16) -> Vec<(u16, bool)> {
    let mut listed = profiles(count, current);
    listed.sort_by_key(|(number, _)| scattered(*number));
    listed
}

/// Features whose numbers are near the edges of a byte and of the field.
pub fn at_edges() -> Vec<Part> {
    let numbers = [1, 0x7F, 0x80, 0xFF, 0x100, 0x7FFF, 0x8000, 0xFFFE, 0xFFFF];
    let lengths = [0, 4, 0, 8, 252, 0, 12, 4, 16];
    let flags = [3, 1, 0, 0x3C, 1, 7, 0, 0x15, 3];
    (0..numbers.len()).map(|at| (numbers[at], flags[at], body(lengths[at]))).collect()
}

/// Sheets whose full responses are short enough to ask for with every allocation length.
pub fn short_sheets() -> Vec<Vec<u8>> {
    let mut not_current = E;
    not_current[22] = 0;
    let mixed = (1..=150)
        .map(|number| (number * 3, [1, 3, 0][usize::from(number) % 3], body(number as usize % 3 * 4)));
    vec![
        E.to_vec(),
        not_current.to_vec(),
        sheet_of(&[], &[]),
        sheet_of(&profiles(1, 1), &[]),
        sheet_of(&profiles(63, 63), &[]),
        sheet_of(&[], &in_a_row(3, 4)),
        sheet_of(&profiles(3, 2), &at_edges()),
        sheet_of(&profiles(63, 0), &in_a_row(4, 252)),
        sheet_of(&profiles(2, 2), &mixed.collect::<Vec<Part>>()),
    ]
}

/// The longest sheet: 63 profiles, and 65,535 features with bodies of 252 bytes.
pub fn longest() -> Vec<u8> {
    sheet_of(&profiles(63, 7), &in_a_row(65_535, 252))
}

/// A sheet of 65,535 features without bodies.
pub fn every_feature() -> Vec<u8> {
    sheet_of(&profiles(2, 1), &in_a_row(65_535, 0))
}

/// The feature numbers of a sheet's contents.
pub fn numbers_in(sheet: &[u8]) -> Vec<u16> {
    let count = usize::from(second::wire::be16(sheet, 0));
    (0..count).map(|index| second::wire::be16(sheet, 4 + 8 * index)).collect()
}

/// Starting feature numbers that matter to a sheet: the ends, and some of its numbers with their neighbours.
pub fn starts_for(sheet: &[u8], most: usize) -> Vec<u16> {
    starts_near(&numbers_in(sheet), most)
}

/// The ends, and some of these numbers with their neighbours.
pub fn starts_near(numbers: &[u16], most: usize) -> Vec<u16> {
    let step = numbers.len() / most.max(1) + 1;
    let mut starts = vec![0, 1, 0xFFFF];
    for number in numbers.iter().step_by(step).chain(numbers.last()) {
        starts.extend_from_slice(&[number.wrapping_sub(1), *number, number.wrapping_add(1)]);
    }
    starts.sort_unstable();
    starts.dedup();
    starts
}

/// A made-up legal sheet of at most so many features.
pub fn random_sheet(random: &mut Random, most: usize) -> Vec<u8> {
    let count = random.below(most + 1);
    let parts = random_parts(random, count, 1);
    let mut listed = Vec::new();
    let most_profiles = random.one_of(&[4, 4, 4, 64]);
    for number in 0..random.below(most_profiles) {
        listed.push((1 + number as u16 * 3 + random.below(3) as u16, random.once_in(3)));
    }
    sheet_of(&listed, &parts)
}

/// So many made-up descriptors in order, the first number at least the given one.
pub fn random_parts(random: &mut Random, count: usize, from: usize) -> Vec<Part> {
    let step = random.one_of(&[1, 2, 4, 300, 20_000]);
    let mut number = from + random.below(2);
    let mut parts = Vec::new();
    for _ in 0..count {
        if number > 0xFFFF {
            break;
        }
        let words = random.one_of(&[1, 3, 3, 3, 64]);
        let length = 4 * random.below(words);
        let version = if random.once_in(4) { random.byte() & 0x3C } else { 0 };
        parts.push((number as u16, random.one_of(&[0, 1, 3]) | version, random.bytes(length)));
        number += 1 + random.below(step);
    }
    // The last number there is comes up rarely otherwise.
    if let (Some(last), true) = (parts.last_mut(), random.once_in(6)) {
        last.0 = 0xFFFF;
    }
    parts
}
