//! The place that a refusal tells, of whoever gives one of the sheet's numbers.

use super::{command, response, told, FILL};
use crate::bench::{bench, Buffers};
use crate::command::respond;
use crate::import::import;
use crate::numbers::*;
use crate::sheet::Layout::Rows;
use crate::sheet::{build, check, ListedProfile};
use crate::wire::{be16, Descriptor, Feature, Profile};

/// A number and a place, and the byte of a sheet to change for them, with the value that it gets.
type Fault = ((u8, usize), usize, u8);

/// Features 2, 4 and so on with bodies of 4 bytes, and profiles 2, 4 and so on.
fn sheet_of(features: u16, profiles: u16) -> Vec<u8> {
    let descriptors: Vec<Descriptor> = (1..=features)
        .map(|index| Descriptor { feature: Feature(2 * index), flags: 3, body: &[1, 2, 3, 4] })
        .collect();
    let profiles: Vec<ListedProfile> = (1..=profiles)
        .map(|index| ListedProfile { number: Profile(2 * index), current: index == 2 })
        .collect();
    build(&profiles, &descriptors).unwrap()
}

/// What the check gives, which the box and the bench sweep give too, with nothing else.
fn given(sheet: &[u8]) -> (u8, usize) {
    let checked = told(check(Rows, sheet));
    let mut out = [FILL; 64];
    // The sheet comes before a command and a sweep that are wrong as well.
    for asked in [command(0, 0, 64).to_vec(), vec![]] {
        assert_eq!(told(respond(Rows, sheet, &asked, &mut out)), checked);
        assert_eq!(out, [FILL; 64]);
    }
    for rt in [0, 2] {
        let (mut collected, mut starts) = ([FILL; 9], [0xA5A5; 9]);
        let mut response = [FILL; 64];
        assert_eq!(
            told(bench(Rows, sheet, rt, 64, Buffers::new(&mut response, &mut collected, &mut starts))),
            checked
        );
        assert_eq!((response, collected, starts), ([0; 64], [0; 9], [0; 9]));
    }
    checked
}

/// Every fault of the profiles and the entries of a sheet, one byte each, in the order in which they are looked for.
fn faults(sheet: &[u8]) -> Vec<Fault> {
    let features = usize::from(be16(sheet, 0));
    let mut faults = Vec::new();
    for place in 1..=usize::from(be16(sheet, 2)) {
        let at = 4 + 8 * features + 4 * (place - 1);
        faults.push(((PROFILE_BAD, place), at + 1, 0));
        faults.push(((PROFILE_BAD, place), at + 2, 2));
        faults.push(((PROFILE_BAD, place), at + 3, 1));
    }
    for place in 1..=features {
        let at = 4 + 8 * (place - 1);
        faults.push(((FEATURE_ORDER, place), at + 1, 0));
        faults.push(((FLAGS_RESERVED, place), at + 2, 0xFE));
        faults.push(((FLAGS_RESERVED, place), at + 2, 0x43));
        faults.push(((PERSISTENT_UNCURRENT, place), at + 2, 0x3E));
        faults.push(((PERSISTENT_UNCURRENT, place), at + 2, 0x02));
        faults.push(((BODY_LENGTH, place), at + 3, 6));
        faults.push(((BODY_OFFSET, place), at + 7, sheet[at + 7] ^ 4));
    }
    faults
}

#[test]
fn each_number_at_each_place() {
    for (features, profiles) in [(5, 3), (1, 1), (0, 63), (63, 0)] {
        let sheet = sheet_of(features, profiles);
        assert_eq!(check(Rows, &sheet), Ok(()));
        for (wanted, at, value) in faults(&sheet) {
            let mut faulty = sheet.clone();
            faulty[at] = value;
            assert_eq!(given(&faulty), wanted);
        }
    }
}

#[test]
fn of_two_faults_the_earlier_one() {
    let sheet = sheet_of(5, 3);
    let faults = faults(&sheet);
    for (index, &(wanted, at, value)) in faults.iter().enumerate() {
        for &(_, later_at, later_value) in &faults[index + 1..] {
            let mut faulty = sheet.clone();
            faulty[later_at] = later_value;
            faulty[at] = value;
            assert_eq!(given(&faulty), wanted);
            // An end that is wrong comes behind them all.
            faulty.push(0);
            assert_eq!(given(&faulty), wanted);
        }
    }
}

#[test]
fn of_two_equal_profiles_the_later_one() {
    let sheet = sheet_of(2, 63);
    let list = 4 + 8 * 2;
    for later in 1..63 {
        for earlier in 0..later {
            let mut twice = sheet.clone();
            twice.copy_within(list + 4 * earlier..list + 4 * earlier + 2, list + 4 * later);
            assert_eq!(told(check(Rows, &twice)), (PROFILE_BAD, later + 1));
        }
    }
    // With all of them equal the second one is the first that was listed before.
    let mut equal = sheet;
    for profile in equal[list..list + 4 * 63].chunks_exact_mut(4) {
        profile[..2].copy_from_slice(&[0x12, 0x34]);
    }
    assert_eq!(given(&equal), (PROFILE_BAD, 2));
}

#[test]
fn a_feature_that_is_not_above_the_one_before() {
    for place in 2..=5 {
        for below in 0..=2 {
            let mut sheet = sheet_of(5, 3);
            sheet[4 + 8 * (place - 1) + 1] -= 2 + below;
            assert_eq!(given(&sheet), (FEATURE_ORDER, place));
        }
    }
}

#[test]
fn a_body_that_is_too_long_shows_behind_it() {
    for place in 1..=5 {
        let mut sheet = sheet_of(5, 3);
        sheet[4 + 8 * (place - 1) + 3] = 8;
        let behind = if place == 5 { (SHEET_END, 0) } else { (BODY_OFFSET, place + 1) };
        assert_eq!(given(&sheet), behind);
    }
}

#[test]
fn what_is_no_line_of_the_sheet_has_no_place() {
    let sheet = sheet_of(5, 3);
    assert_eq!(given(&sheet[..3]), (SHEET_SHORT, 0));
    let mut many = sheet.clone();
    many[3] = 64;
    assert_eq!(given(&many), (SHEET_SHORT, 0));
    many.resize(600, 0);
    assert_eq!(given(&many), (PROFILE_COUNT, 0));
    assert_eq!(given(&sheet[..sheet.len() - 1]), (SHEET_END, 0));
}

#[test]
fn the_last_entry_there_can_be() {
    let descriptors: Vec<Descriptor> =
        (1..=65_535).map(|number| Descriptor { feature: Feature(number), flags: 3, body: &[] }).collect();
    let sheet = build(&[], &descriptors).unwrap();
    let last = 4 + 8 * 65_534;
    let changes = [
        (FEATURE_ORDER, 1, 0xFE),
        (FLAGS_RESERVED, 2, 0xFE),
        (PERSISTENT_UNCURRENT, 2, 0x3E),
        (PERSISTENT_UNCURRENT, 2, 0x02),
        (BODY_LENGTH, 3, 0x03),
        (BODY_OFFSET, 7, 0x01),
    ];
    for (number, byte, value) in changes {
        let mut faulty = sheet.clone();
        faulty[last + byte] = value;
        assert_eq!(given(&faulty), (number, 65_535));
    }
}

/// A capture of 5 features behind feature 0, which lists 3 profiles, none of them current.
fn capture() -> Vec<u8> {
    let mut bytes = vec![0, 0, 3, 12, 0, 2, 0, 0, 0, 4, 0, 0, 0, 6, 0, 0];
    for index in 1..=5 {
        bytes.extend_from_slice(&[0, 2 * index, 3, 4, 1, 2, 3, 4]);
    }
    response(0, &bytes)
}

/// The faults of that capture that a sheet has too, in the order in which they are looked for.
fn capture_faults() -> Vec<Fault> {
    let mut faults = Vec::new();
    for place in 1..=3 {
        let at = 12 + 4 * (place - 1);
        faults.push(((PROFILE_BAD, place), at + 1, 0));
        faults.push(((PROFILE_BAD, place), at + 2, 2));
        faults.push(((PROFILE_BAD, place), at + 3, 1));
    }
    for place in 1..=5 {
        let at = 24 + 8 * (place - 1);
        faults.push(((FLAGS_RESERVED, place), at + 2, 0xFE));
        faults.push(((FLAGS_RESERVED, place), at + 2, 0x43));
        faults.push(((PERSISTENT_UNCURRENT, place), at + 2, 0x3E));
        faults.push(((PERSISTENT_UNCURRENT, place), at + 2, 0x02));
    }
    faults
}

/// What import gives, whatever the room; sees that it writes nothing.
fn imported(capture: &[u8]) -> (u8, usize) {
    let mut sheet = [FILL; 200];
    let (none, some) = (told(import(capture, &mut [])), told(import(capture, &mut sheet)));
    assert_eq!(none, some);
    assert_eq!(sheet, [FILL; 200]);
    some
}

#[test]
fn captures() {
    let good = capture();
    let faults = capture_faults();
    assert_eq!(import(&good, &mut [0; 200]), Ok(4 + 8 * 5 + 4 * 3 + 4 * 5));
    for (index, &(wanted, at, value)) in faults.iter().enumerate() {
        let mut alone = good.clone();
        alone[at] = value;
        assert_eq!(imported(&alone), wanted);
        for &(_, later_at, later_value) in &faults[index + 1..] {
            let mut both = good.clone();
            both[later_at] = later_value;
            both[at] = value;
            assert_eq!(imported(&both), wanted);
        }
    }
    // Of two equal profiles the later one.
    for (one, two) in [(1, 2), (1, 3), (2, 3)] {
        let mut twice = good.clone();
        twice[12 + 4 * (two - 1) + 1] = 2 * one;
        assert_eq!(imported(&twice), (PROFILE_BAD, two));
    }
}

#[test]
fn a_capture_has_the_places_of_its_sheet() {
    // The sheet that the capture would give, with the same fault in it.
    let mut sheet = vec![0; 200];
    let length = import(&capture(), &mut sheet).unwrap();
    sheet.truncate(length);
    for (wanted, at, value) in capture_faults() {
        let in_sheet = if at < 24 { 4 + 8 * 5 + (at - 12) } else { 4 + (at - 24) };
        let mut faulty = sheet.clone();
        faulty[in_sheet] = value;
        assert_eq!(given(&faulty), wanted);
    }
}

#[test]
fn what_a_capture_has_beside_its_sheet_has_no_place() {
    let good = capture();
    assert_eq!(imported(&good[..7]), (RECEIVED_LENGTH, 0));
    assert_eq!(imported(&good[..40]), (CHECK_CUT, 0));
    for (number, at, value) in [(DATA_LENGTH, 3, 1), (ADDITIONAL_LENGTH, 27, 3), (RESPONSE_ORDER, 33, 2)] {
        let mut bytes = good.clone();
        bytes[at] = value;
        assert_eq!(imported(&bytes), (number, 0));
    }
    let mut flags = good.clone();
    flags[10] = 2;
    assert_eq!(imported(&flags), (CAPTURE_BAD, 0));
    let short = import(&good, &mut [FILL; 75]);
    assert_eq!(told(short), (SHEET_BUFFER_SHORT, 0));
}

#[test]
fn the_last_descriptor_of_the_longest_capture() {
    let mut bytes = vec![0, 0, 3, 0];
    for number in 1..=16_380_u16 {
        bytes.extend_from_slice(&number.to_be_bytes());
        bytes.extend_from_slice(&[1, 0]);
    }
    let mut longest = response(0, &bytes);
    assert_eq!(longest.len(), 65_532);
    for (flags, number) in
        [(0x81, FLAGS_RESERVED), (0x06, PERSISTENT_UNCURRENT), (0x02, PERSISTENT_UNCURRENT)]
    {
        longest[65_530] = flags;
        assert_eq!(imported(&longest), (number, 16_380));
    }
}
