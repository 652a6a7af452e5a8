//! The bench sweep's command count against every list of starts.

use super::{told, E};
use crate::bench::{bench, Buffers};
use crate::fewest::fewest;
use crate::numbers::NOTHING_WHOLE;
use crate::sheet::Layout::Rows;
use crate::sheet::{build, ListedProfile};
use crate::wire::{Descriptor, Feature, Profile};

/// The bench sweep's number and its count, with room enough.
fn swept(sheet: &[u8], rt: u8, allocation: u16) -> (u8, usize, Vec<u16>) {
    let mut response = vec![0; 65_534];
    let (mut collected, mut starts) = (vec![0; 4_096], vec![0; 64]);
    let outcome =
        bench(Rows, sheet, rt, allocation, Buffers::new(&mut response, &mut collected, &mut starts));
    let commands = outcome.map_or(0, |done| done.commands);
    starts.truncate(commands);
    (told(outcome).0, commands, starts)
}

/// Compares the count with the shortest of all lists, and sees that the sweep's own starts are enough.
fn compare(sheet: &[u8], rt: u8, allocation: u16, starts: &[u16]) -> Option<usize> {
    let least = fewest(sheet, rt, allocation, starts);
    let (number, commands, own) = swept(sheet, rt, allocation);
    match least {
        Some(least) => {
            assert_eq!((number, commands), (0, least), "rt {} allocation {}", rt, allocation);
            assert_eq!(fewest(sheet, rt, allocation, &own), Some(least));
        }
        // No list at all: a descriptor is too long.
        None => assert_eq!(number, NOTHING_WHOLE),
    }
    least
}

/// A sheet with these features, each with a body of so many bytes.
fn small(features: &[(u16, u8, usize)], profiles: u16) -> Vec<u8> {
    let body: Vec<u8> = (1..=252).collect();
    let descriptors: Vec<Descriptor> = features
        .iter()
        .map(|&(number, flags, length)| Descriptor { feature: Feature(number), flags, body: &body[..length] })
        .collect();
    let profiles: Vec<ListedProfile> = (1..=profiles)
        .map(|number| ListedProfile { number: Profile(number), current: number == 2 })
        .collect();
    build(&profiles, &descriptors).unwrap()
}

#[test]
fn sheet_e() {
    // Starts at, before and behind each feature, and above the last.
    let starts = [0, 1, 2, 3, 4, 0x1E, 0x1F, 0x20, 0x104, 0x105, 0x106, 0xFFFF];
    assert_eq!(compare(&E, 0, 19, &starts), None);
    assert_eq!(compare(&E, 0, 20, &starts), Some(4));
    assert_eq!(compare(&E, 0, 43, &starts), Some(2));
    assert_eq!(compare(&E, 0, 44, &starts), Some(1));
    for allocation in 8..50 {
        compare(&E, 0, allocation, &starts);
        compare(&E, 1, allocation, &starts);
    }
}

#[test]
fn every_list_of_small_sheets() {
    // Gaps in the numbering, and starts in them, at each feature and above the last.
    let starts = [0, 1, 2, 3, 4, 5, 6, 7, 65_535];
    let mut counts = [0; 6];
    for sizes in 0..81 {
        let length = |at: u32| 4 * (sizes / 3_usize.pow(at) % 3);
        let features = [(1, 3, length(0)), (2, 0, length(1)), (4, 1, length(2)), (6, 1, length(3))];
        let sheet = small(&features, sizes as u16 % 3);
        for room in [3, 4, 7, 8, 11, 12, 16, 20, 24, 28] {
            for rt in 0..2 {
                let least = compare(&sheet, rt, 8 + room, &starts);
                counts[least.unwrap_or(0)] += 1;
            }
        }
    }
    assert!(counts.iter().all(|&count| count > 0), "{:?}", counts);
}

#[test]
fn the_last_numbers() {
    let starts = [0, 1, 0xFFFC, 0xFFFD, 0xFFFE, 0xFFFF];
    let sheet = small(&[(0xFFFD, 1, 8), (0xFFFE, 3, 4), (0xFFFF, 1, 4)], 1);
    for allocation in 8..60 {
        compare(&sheet, 0, allocation, &starts);
    }
}
