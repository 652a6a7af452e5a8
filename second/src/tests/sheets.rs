//! Damaged copies of sheet E, and sheets from their meaning.

use super::{changed, told, E};
use crate::numbers::*;
use crate::sheet::Layout::Rows;
use crate::sheet::{build, check, ListedProfile, Sheet};
use crate::wire::{Descriptor, Feature, Profile};

/// The number and the place that the check gives.
fn given(sheet: &[u8]) -> (u8, usize) {
    told(check(Rows, sheet))
}

/// The number and the place for a copy of E with one byte changed.
fn with(at: usize, value: u8) -> (u8, usize) {
    given(&changed(&E, &[(at, value)]))
}

/// Sees that a copy of E gets a number for each of these: the place that it tells, and the byte that is changed, to what.
fn all_refused(number: u8, changes: &[(usize, usize, u8)]) {
    for &(place, at, value) in changes {
        assert_eq!(with(at, value), (number, place));
    }
}

#[test]
fn short_sheets() {
    assert_eq!(given(&[]), (SHEET_SHORT, 0));
    assert_eq!(given(&E[..3]), (SHEET_SHORT, 0));
    assert_eq!(given(&E[..43]), (SHEET_SHORT, 0));
    assert_eq!(with(0, 0x01), (SHEET_SHORT, 0));
    // Too many profiles, but they are not there either.
    assert_eq!(with(3, 64), (SHEET_SHORT, 0));
    assert_eq!(given(&E[..44]), (SHEET_END, 0));
}

#[test]
fn too_many_profiles() {
    let mut sheet = vec![0, 0, 0, 64];
    sheet.resize(4 + 4 * 64, 0);
    assert_eq!(given(&sheet), (PROFILE_COUNT, 0));
    // With 63 the profiles are looked at, and number 0 is refused.
    sheet[3] = 63;
    assert_eq!(given(&sheet), (PROFILE_BAD, 1));
}

#[test]
fn bad_profiles() {
    all_refused(PROFILE_BAD, &[(1, 37, 0x00), (2, 41, 0x12), (1, 38, 0x02), (2, 43, 0x01)]);
    // The profiles come before the entries.
    assert_eq!(given(&changed(&E, &[(5, 0), (43, 1)])), (PROFILE_BAD, 2));
}

#[test]
fn bad_entries() {
    all_refused(FEATURE_ORDER, &[(1, 5, 0x00), (2, 13, 0x01)]);
    all_refused(FLAGS_RESERVED, &[(1, 6, 0x43)]);
    all_refused(PERSISTENT_UNCURRENT, &[(1, 6, 0x02)]);
    all_refused(BODY_LENGTH, &[(1, 7, 0x05)]);
    // In the last a longer first body moves the place where the second should start.
    all_refused(BODY_OFFSET, &[(1, 11, 0x2D), (2, 19, 0x2C), (4, 35, 0x30), (1, 8, 0x01), (2, 7, 0x08)]);
    // Every Version is accepted, and hides nothing.
    for version in 0..16 {
        assert_eq!(with(6, 0x03 | version << 2), (ACCEPTED, 0));
        assert_eq!(with(6, 0x02 | version << 2), (PERSISTENT_UNCURRENT, 1));
        assert_eq!(with(6, 0x43 | version << 2), (FLAGS_RESERVED, 1));
    }
}

#[test]
fn bad_end() {
    let mut longer = E.to_vec();
    longer.push(0);
    assert_eq!(given(&longer), (SHEET_END, 0));
    assert_eq!(given(&E[..51]), (SHEET_END, 0));
    assert_eq!(with(31, 0x04), (SHEET_END, 0));
    assert_eq!(check(Rows, &[0, 0, 0, 0]), Ok(()));
    assert_eq!(given(&[0, 0, 0, 0, 0]), (SHEET_END, 0));
}

#[test]
fn meaning_of_e() {
    let meaning = Sheet::accept(Rows, &E).unwrap().meaning();
    let profiles = [
        ListedProfile { number: Profile(0x0012), current: true },
        ListedProfile { number: Profile(0x0010), current: false },
    ];
    let descriptors = [
        Descriptor { feature: Feature(0x0001), flags: 3, body: &[0, 0, 0, 2] },
        Descriptor { feature: Feature(0x0003), flags: 3, body: &[0x29, 0, 0, 0] },
        Descriptor { feature: Feature(0x001F), flags: 1, body: &[] },
        Descriptor { feature: Feature(0x0105), flags: 3, body: &[] },
    ];
    assert_eq!(meaning.profiles, profiles);
    assert_eq!(meaning.descriptors, descriptors);
    assert_eq!(build(&profiles, &descriptors).unwrap(), E);
}

#[test]
fn the_longest_sheet() {
    let body = [0xFF; 252];
    let descriptors: Vec<Descriptor> =
        (1..=65_535).map(|number| Descriptor { feature: Feature(number), flags: 3, body: &body }).collect();
    let profiles: Vec<ListedProfile> =
        (1..=63).map(|number| ListedProfile { number: Profile(number), current: false }).collect();
    let sheet = build(&profiles, &descriptors).unwrap();
    assert_eq!(sheet.len(), 17_039_356);
    assert_eq!(check(Rows, &sheet), Ok(()));
    let (number, bytes) = super::ask(&sheet, 0, 0, 65_535);
    assert_eq!((number, bytes.len()), (ACCEPTED, 65_534));
    assert_eq!(crate::wire::be32(&bytes, 0), 4 + 256 + 65_535 * 256);
}

#[test]
fn the_first_current_profile_counts() {
    let list = |current: [bool; 3]| {
        let numbers = [0x0008, 0x0012, 0x0010];
        let profiles: Vec<ListedProfile> =
            (0..3).map(|i| ListedProfile { number: Profile(numbers[i]), current: current[i] }).collect();
        let sheet = build(&profiles, &[]).unwrap();
        Sheet::accept(Rows, &sheet).unwrap().current_profile()
    };
    assert_eq!(list([true, true, true]), Profile(0x0008));
    assert_eq!(list([false, false, true]), Profile(0x0010));
    assert_eq!(list([false, false, false]), Profile(0));
}

#[test]
fn what_does_not_fit_is_not_built() {
    let long = Descriptor { feature: Feature(1), flags: 0, body: &[0; 256] };
    assert_eq!(build(&[], &[long]), None);
    let many = vec![Descriptor { feature: Feature(1), flags: 0, body: &[] }; 65_536];
    assert_eq!(build(&[], &many), None);
}

#[test]
fn a_sheet_that_was_not_checked_does_no_harm() {
    let mut out = [0; 512];
    for length in 0..E.len() {
        for at in 0..length {
            let mut sheet = E[..length].to_vec();
            sheet[at] = 0xFF;
            for rt in 0..3 {
                let sheet = Sheet::assume_checked(Rows, &sheet);
                let sent = crate::command::respond_checked(sheet, &super::command(rt, 0, 512), &mut out);
                assert!(sent.unwrap_or(0) <= 512);
            }
        }
    }
}
