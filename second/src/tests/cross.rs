//! The fast ways against slow ones, over many made-up inputs.

use super::{ask, told, Numbers, E_FULL, FILL};
use crate::bench::{bench, Buffers, Outcome};
use crate::checks::{check_descriptors, check_profile};
use crate::find::find;
use crate::lister::list;
use crate::numbers::*;
use crate::reading::read;
use crate::sheet::Layout::Rows;
use crate::sheet::{build, check, ListedProfile, Meaning, Sheet};
use crate::sweep::Record;
use crate::wire::{Descriptor, Feature, Profile};

/// The full response, built the slow way from a sheet's meaning.
fn slow_response(meaning: &Meaning, rt: u8, sfn: u16) -> Vec<u8> {
    let mut list = Vec::new();
    for profile in &meaning.profiles {
        list.extend_from_slice(&profile.number.0.to_be_bytes());
        list.extend_from_slice(&[u8::from(profile.current), 0]);
    }
    let mut all = vec![Descriptor { feature: Feature(0), flags: 3, body: &list }];
    all.extend_from_slice(&meaning.descriptors);
    let mut bytes = Vec::new();
    for descriptor in all {
        let wanted = match rt {
            0 => descriptor.feature.0 >= sfn,
            1 => descriptor.feature.0 >= sfn && descriptor.flags % 2 == 1,
            _ => descriptor.feature.0 == sfn,
        };
        if wanted {
            bytes.extend_from_slice(&descriptor.feature.0.to_be_bytes());
            bytes.extend_from_slice(&[descriptor.flags, descriptor.body.len() as u8]);
            bytes.extend_from_slice(descriptor.body);
        }
    }
    let current = meaning.profiles.iter().find(|profile| profile.current);
    super::response(current.map_or(0, |profile| profile.number.0), &bytes)
}

/// The slow response cut as the paper says.
fn slow_cut(meaning: &Meaning, rt: u8, sfn: u16, allocation: u16) -> Vec<u8> {
    let mut bytes = slow_response(meaning, rt, sfn);
    bytes.truncate(usize::from(allocation).min(65_534));
    bytes
}

/// A made-up legal sheet.
pub(super) fn make_sheet(numbers: &mut Numbers, most: u64) -> Vec<u8> {
    let bodies: Vec<u8> = (0..252).map(|_| numbers.next() as u8).collect();
    let mut descriptors = Vec::new();
    let mut feature = 0;
    for _ in 0..numbers.below(most + 1) {
        feature += 1 + numbers.below(4) as u16;
        let words = if numbers.below(8) == 0 { 64 } else { 4 };
        let length = 4 * numbers.below(words) as usize;
        let version = if numbers.below(4) == 0 { numbers.below(16) as u8 } else { 0 };
        let flags = [0, 1, 3][numbers.below(3) as usize] | version << 2;
        descriptors.push(Descriptor { feature: Feature(feature), flags, body: &bodies[..length] });
    }
    let most_profiles = if numbers.below(4) == 0 { 64 } else { 4 };
    let profiles: Vec<ListedProfile> = (0..numbers.below(most_profiles))
        .map(|i| ListedProfile { number: Profile(1 + i as u16), current: numbers.below(3) == 0 })
        .collect();
    build(&profiles, &descriptors).unwrap()
}

/// Sees so many made-up legal sheets, each with what it says.
pub(super) fn each_sheet(
    seed: u64,
    count: usize,
    most: u64,
    mut see: impl FnMut(&mut Numbers, &[u8], Meaning),
) {
    let mut numbers = Numbers(seed);
    for _ in 0..count {
        let sheet = make_sheet(&mut numbers, most);
        see(&mut numbers, &sheet, Sheet::accept(Rows, &sheet).unwrap().meaning());
    }
}

#[test]
fn responses() {
    each_sheet(0x1234_5678_9ABC_DEF1, 300, 24, |numbers, sheet, meaning| {
        assert_eq!(build(&meaning.profiles, &meaning.descriptors).unwrap(), sheet);
        for rt in 0..3 {
            for _ in 0..10 {
                let sfn = numbers.below(70) as u16;
                let allocation = numbers.below(300) as u16;
                let slow = slow_cut(&meaning, rt, sfn, allocation);
                assert_eq!(ask(sheet, rt, sfn, allocation), (ACCEPTED, slow));
            }
            let whole = ask(sheet, rt, 0, 65_535).1;
            assert_eq!(whole, slow_response(&meaning, rt, 0));
            for length in 8..=whole.len() {
                let reading = read(rt, Feature(0), &whole[..length], Some(length));
                assert_eq!(reading.number, ACCEPTED);
                assert_eq!(reading.complete, length == whole.len());
                assert_eq!(reading.data_length as usize + 4, whole.len());
            }
        }
    });
}

/// The bench sweep, done the slow way with one whole response a round.
fn slow_bench(meaning: &Meaning, rt: u8, allocation: u16) -> (u8, Vec<u16>, Vec<u8>, Vec<u8>) {
    let mut starts = Vec::new();
    let mut collected = vec![0; 65_536];
    let (_, mut record) = Record::start(rt, allocation);
    let mut response = Vec::new();
    while !record.ended {
        starts.push(record.next.0);
        response = slow_cut(meaning, rt, record.next.0, allocation);
        let (number, after) = record.take(&response, &mut collected);
        if number != ACCEPTED {
            return (number, vec![], vec![], vec![]);
        }
        record = after;
    }
    collected.truncate(record.collected);
    (ACCEPTED, starts, collected, response)
}

#[test]
fn bench_sweeps() {
    let mut accepted = 0;
    each_sheet(0x0F0F_1234_0000_0001, 400, 40, |numbers, sheet, meaning| {
        let rt = numbers.below(2) as u8;
        let allocation = 8 + numbers.below(400) as u16;
        let mut response = vec![FILL; usize::from(allocation) + 5];
        let mut collected = vec![FILL; 65_536];
        let mut starts = vec![0xA5A5; 99];
        let outcome =
            bench(Rows, sheet, rt, allocation, Buffers::new(&mut response, &mut collected, &mut starts));
        let (number, slow_starts, slow_collected, slow_last) = slow_bench(&meaning, rt, allocation);
        let (commands, bytes) = (slow_starts.len(), slow_collected.len());
        if number != ACCEPTED {
            assert_eq!(outcome, Err(number.into()));
            return;
        }
        assert_eq!(outcome, Ok(Outcome { commands, collected: bytes }));
        accepted += 1;
        assert_eq!(starts[..commands], slow_starts);
        assert!(starts[commands..].iter().all(|&start| start == 0xA5A5));
        assert_eq!(collected[..bytes], slow_collected);
        assert_eq!(slow_collected, slow_response(&meaning, rt, 0)[8..]);
        assert!(collected[bytes..].iter().all(|&byte| byte == FILL));
        assert_eq!(response[..slow_last.len()], slow_last);
        assert!(response[slow_last.len()..].iter().all(|&byte| byte == 0));
    });
    assert!(accepted > 100);
}

#[test]
fn a_sweep_of_every_feature_number() {
    let descriptors: Vec<Descriptor> =
        (1..=65_535).map(|number| Descriptor { feature: Feature(number), flags: 1, body: &[] }).collect();
    let sheet = build(&[], &descriptors).unwrap();
    let mut response = [0; 12];
    let mut collected = vec![0; 4 * 65_536];
    let mut starts = vec![0; 65_536];
    for rt in 0..2 {
        let outcome = bench(Rows, &sheet, rt, 12, Buffers::new(&mut response, &mut collected, &mut starts));
        assert_eq!(outcome, Ok(Outcome { commands: 65_536, collected: 262_144 }));
        assert!(starts.iter().enumerate().all(|(index, &start)| index == usize::from(start)));
        assert_eq!(
            bench(Rows, &sheet, rt, 12, Buffers::new(&mut response, &mut collected, &mut starts[..65_535])),
            Err(STARTS_FULL.into())
        );
    }
}

#[test]
fn damaged_inputs_do_no_harm() {
    let mut numbers = Numbers(0xDEAD_BEEF_0000_0007);
    let mut buffer = vec![0; 64];
    for _ in 0..30_000 {
        let mut sheet = make_sheet(&mut numbers, 4);
        let mut received = ask(&sheet, 0, 0, 2_000).1;
        for bytes in [&mut sheet, &mut received] {
            for _ in 0..numbers.below(3) {
                let at = numbers.below(bytes.len() as u64) as usize;
                bytes[at] = numbers.next() as u8;
            }
            let length = bytes.len() as u64 + 1 - numbers.below(2) * numbers.below(bytes.len() as u64);
            bytes.resize(length as usize, 0);
        }
        let (number, place) = told(check(Rows, &sheet));
        assert!(number <= SHEET_END || number == PERSISTENT_UNCURRENT);
        let of_profile = number == PROFILE_BAD && (1..=63).contains(&place);
        let of_entry = ![0, 1, 2, 3, 8].contains(&number) && (1..=65_535).contains(&place);
        assert!(of_profile || of_entry || [0, 1, 2, 8].contains(&number) && place == 0);
        let rt = numbers.below(4) as u8;
        let allocation = numbers.below(64) as u16;
        ask(&sheet, rt, numbers.below(9) as u16, allocation);
        let reading = read(rt, Feature(0), &received, None);
        assert!(reading.end <= received.len());
        list(&received);
        find(Feature(1), &received, &E_FULL);
        check_descriptors(&received);
        check_profile(Profile(0x0012), &received);
        let record = Record {
            rt,
            allocation,
            next: Feature(numbers.below(3) as u16),
            commands: numbers.below(70_000) as u32,
            collected: numbers.below(80) as usize,
            ended: numbers.below(9) == 0,
            profile: Profile(numbers.below(3) as u16),
        };
        let (number, after) = record.take(&received, &mut buffer);
        assert!(number == ACCEPTED || Record { ended: record.ended, ..after } == record);
    }
}
