//! Captured responses that become sheets, and the ones that are refused.

use super::cross::make_sheet;
use super::{ask, changed, response, Change, Numbers, E, E_FULL, FILL, UNREADABLE};
use crate::import::import;
use crate::numbers::*;
use crate::refusal::Refusal;
use crate::sheet::Layout::Rows;
use crate::sheet::{build, check, ListedProfile, Meaning};
use crate::wire::{Descriptor, Feature, Profile};

/// The sheet that a capture gives, with just enough room and with more; sees that the rest of the room is unchanged.
fn imported(capture: &[u8]) -> Vec<u8> {
    let mut sheet = vec![FILL; 2 * capture.len() + 16];
    let length = import(capture, &mut sheet).unwrap();
    assert!(sheet[length..].iter().all(|&byte| byte == FILL));
    sheet.truncate(length);
    let mut exact = vec![FILL; length];
    assert_eq!(import(capture, &mut exact), Ok(length));
    assert_eq!(exact, sheet);
    assert_eq!(refused(capture, length - 1), (SHEET_BUFFER_SHORT, 0));
    sheet
}

/// The number and the place with which a capture is refused; sees that the buffer is unchanged.
fn refused(capture: &[u8], room: usize) -> (u8, usize) {
    let mut sheet = vec![FILL; room];
    let refusal = import(capture, &mut sheet).unwrap_err();
    assert!(sheet.iter().all(|&byte| byte == FILL));
    (refusal.number, refusal.place)
}

/// The number and the place with which E's response is refused after some bytes are changed.
fn with(changes: &[Change]) -> (u8, usize) {
    refused(&changed(&E_FULL, changes), 52)
}

#[test]
fn e_both_ways() {
    assert_eq!(imported(&E_FULL), E);
    assert_eq!(ask(&E, 0, 0, 44), (ACCEPTED, E_FULL.to_vec()));
}

#[test]
fn the_smallest_capture() {
    let capture = response(0, &[0, 0, 3, 0]);
    assert_eq!(imported(&capture), [0, 0, 0, 0]);
    assert_eq!(ask(&[0, 0, 0, 0], 0, 0, 65_535).1, capture);
}

#[test]
fn readings() {
    assert_eq!(refused(&[], 52), (RECEIVED_LENGTH, 0));
    assert_eq!(refused(&E_FULL[..7], 52), (RECEIVED_LENGTH, 0));
    let mut long = E_FULL.to_vec();
    long.resize(65_535, 0);
    assert_eq!(refused(&long, 52), (RECEIVED_LENGTH, 0));
    for (number, change) in UNREADABLE {
        assert_eq!(with(&[change]), (number, 0));
    }
    for cut in 8..44 {
        assert_eq!(refused(&E_FULL[..cut], 52), (CHECK_CUT, 0));
    }
}

#[test]
fn what_no_sheet_sends() {
    assert_eq!(refused(&response(0, &[]), 52), (CAPTURE_BAD, 0));
    assert_eq!(refused(&response(0, &[0, 1, 3, 0]), 52), (CAPTURE_BAD, 0));
    for bit in 0..8 {
        assert_eq!(with(&[(10, 3 ^ (1 << bit))]), (CAPTURE_BAD, 0));
        assert_eq!(with(&[(4, 1 << bit)]), (CAPTURE_BAD, 0));
        assert_eq!(with(&[(5, 1 << bit)]), (CAPTURE_BAD, 0));
        assert_eq!(with(&[(6, 1 << bit)]), (CAPTURE_BAD, 0));
        assert_eq!(with(&[(7, 0x12 ^ (1 << bit))]), (CAPTURE_BAD, 0));
    }
    // The first current profile counts: not the second, not 0, and none where none is current.
    assert_eq!(with(&[(7, 0x10), (18, 1)]), (CAPTURE_BAD, 0));
    assert_eq!(with(&[(7, 0)]), (CAPTURE_BAD, 0));
    assert_eq!(with(&[(14, 0)]), (CAPTURE_BAD, 0));
    for changes in [&[(7, 0x10), (14, 0), (18, 1)][..], &[(7, 0), (14, 0)]] {
        assert_eq!(check(Rows, &imported(&changed(&E_FULL, changes))), Ok(()));
    }
    // CurrentP is one bit of its byte; the others are the sheet's trouble.
    assert_eq!(with(&[(14, 2)]), (CAPTURE_BAD, 0));
    assert_eq!(with(&[(14, 2), (7, 0)]), (PROFILE_BAD, 1));
    assert_eq!(with(&[(14, 3)]), (PROFILE_BAD, 1));
    assert_eq!(with(&[(18, 3)]), (PROFILE_BAD, 2));
}

#[test]
fn profiles_and_flags_of_the_sheet() {
    // A current profile of number 0 is what a Current Profile of 0 says, too.
    assert_eq!(with(&[(7, 0), (13, 0)]), (PROFILE_BAD, 1));
    assert_eq!(with(&[(17, 0)]), (PROFILE_BAD, 2));
    assert_eq!(with(&[(17, 0x12)]), (PROFILE_BAD, 2));
    assert_eq!(with(&[(15, 1)]), (PROFILE_BAD, 1));
    assert_eq!(with(&[(19, 0x80)]), (PROFILE_BAD, 2));
    // Feature 0 is not counted.
    for (index, at) in [22, 30, 38, 42].into_iter().enumerate() {
        assert_eq!(with(&[(at, 2)]), (PERSISTENT_UNCURRENT, index + 1));
        for version in 1..16 {
            assert_eq!(with(&[(at, 2 | version << 2)]), (PERSISTENT_UNCURRENT, index + 1));
        }
        for bit in 6..8 {
            assert_eq!(with(&[(at, 6 | 1 << bit)]), (FLAGS_RESERVED, index + 1));
        }
        // The first descriptor at fault decides, whatever the numbers.
        assert_eq!(with(&[(at, 2), (42, 0x80)]).1, index + 1);
    }
}

#[test]
fn the_earlier_fault_decides() {
    let faults: [((u8, usize), &[Change]); 15] = [
        ((DATA_LENGTH, 0), &[(0, 1), (3, 1)]),
        ((RECEIVED_TOO_MUCH, 0), &[(0, 0), (3, 4)]),
        ((ADDITIONAL_LENGTH, 0), &[(23, 5)]),
        ((RESPONSE_ORDER, 0), &[(28, 0), (29, 1)]),
        ((BEYOND_DATA, 0), &[(31, 252)]),
        ((CHECK_CUT, 0), &[(3, 0x2C)]),
        ((CAPTURE_BAD, 0), &[(10, 1)]),
        ((CAPTURE_BAD, 0), &[(5, 1)]),
        ((CAPTURE_BAD, 0), &[(7, 0x10)]),
        ((PROFILE_BAD, 1), &[(15, 1)]),
        ((PROFILE_BAD, 2), &[(19, 1)]),
        ((FLAGS_RESERVED, 1), &[(22, 0x42)]),
        ((PERSISTENT_UNCURRENT, 2), &[(30, 6)]),
        ((PERSISTENT_UNCURRENT, 3), &[(38, 2)]),
        ((FLAGS_RESERVED, 4), &[(42, 0x83)]),
    ];
    for (at, (wanted, earlier)) in faults.iter().enumerate() {
        for (_, later) in &faults[at..] {
            let capture = changed(&changed(&E_FULL, later), earlier);
            assert_eq!(refused(&capture, 52), *wanted);
            assert_eq!(refused(&capture, 51), *wanted);
            assert_eq!(refused(&capture, 0), *wanted);
            assert_eq!(refused(&capture[..7], 52), (RECEIVED_LENGTH, 0));
        }
    }
    for room in 0..52 {
        assert_eq!(refused(&E_FULL, room), (SHEET_BUFFER_SHORT, 0));
    }
}

#[test]
fn versions_are_kept() {
    // Where the flags of E's features stand in its full response and in the sheet.
    for (at, in_sheet) in [(22, 6), (30, 14), (38, 22), (42, 30)] {
        for version in 0..16 {
            for flags in [0, 1, 3] {
                let (mut capture, mut sheet) = (E_FULL, E);
                capture[at] = flags | version << 2;
                sheet[in_sheet] = flags | version << 2;
                assert_eq!(imported(&capture), sheet);
                assert_eq!(ask(&sheet, 0, 0, 44), (ACCEPTED, capture.to_vec()));
            }
        }
    }
}

/// Sees two sheets, with what they say, whose responses are as long as one that is whole can be: 60 profiles and 255 features of 252 bytes, and 16,380 features
/// without a body.
pub(super) fn each_longest(mut see: impl FnMut(Meaning, &[u8], &[u8])) {
    let profile = |number| ListedProfile { number: Profile(number), current: number > 58 };
    let descriptor = |number: u16, step: u16, body| {
        let flags = [3, 1, 0, 0, 1][usize::from(number) % 5];
        Descriptor { feature: Feature(number * step), flags, body }
    };
    let long = (1..=255).map(|number| descriptor(number, 256, &[0x5A; 252][..]));
    let empty = (1..=16_380).map(|number| descriptor(number, 4, &[]));
    for meaning in [
        Meaning { profiles: (1..=60).map(profile).collect(), descriptors: long.collect() },
        Meaning { profiles: Vec::new(), descriptors: empty.collect() },
    ] {
        let sheet = build(&meaning.profiles, &meaning.descriptors).unwrap();
        let response = ask(&sheet, 0, 0, 65_535).1;
        assert_eq!(response.len(), 65_532);
        see(meaning, &sheet, &response);
    }
}

#[test]
fn the_longest_captures() {
    each_longest(|meaning, sheet, capture| {
        assert_eq!(imported(capture), sheet);
        assert_eq!(refused(&capture[..65_531], sheet.len()), (CHECK_CUT, 0));
        // With one feature more the response is cut at 65,534 bytes.
        let Meaning { profiles, descriptors: mut more } = meaning;
        more.push(Descriptor { feature: Feature(65_535), flags: 0, body: &[] });
        let cut = ask(&build(&profiles, &more).unwrap(), 0, 0, 65_535).1;
        assert_eq!((cut.len(), refused(&cut, 200_000)), (65_534, (CHECK_CUT, 0)));
    });
}

#[test]
fn made_up_sheets_come_back() {
    let mut numbers = Numbers(0x0123_4567_89AB_CDEF);
    for _ in 0..2_000 {
        let sheet = make_sheet(&mut numbers, 24);
        assert_eq!(imported(&ask(&sheet, 0, 0, 7_000).1), sheet);
    }
}

/// Sees so many responses of made-up sheets with up to three bytes changed, each with what import gives and leaves in its buffer.
pub(super) fn each_damaged(
    seed: u64,
    count: usize,
    mut see: impl FnMut(&mut Numbers, &[u8], Result<usize, Refusal>, &[u8]),
) {
    let mut numbers = Numbers(seed);
    let mut accepted = 0;
    for _ in 0..count {
        let mut capture = ask(&make_sheet(&mut numbers, 4), 0, 0, 2_000).1;
        for _ in 0..1 + numbers.below(3) {
            let at = numbers.below(capture.len() as u64) as usize;
            capture[at] = [0, 1, numbers.next() as u8][numbers.below(3) as usize];
        }
        let mut sheet = vec![FILL; 4 * capture.len()];
        let made = import(&capture, &mut sheet);
        accepted += usize::from(made.is_ok());
        see(&mut numbers, &capture, made, &sheet);
    }
    assert!(accepted > 1_000);
}

#[test]
fn damaged_captures_are_refused_or_come_back() {
    each_damaged(0xFEDC_BA98_0000_0003, 30_000, |_, capture, made, sheet| match made {
        Err(refusal) => {
            let of_sheet = [3, 5, 44].contains(&refusal.number);
            assert!(of_sheet || [15, 16, 17, 18, 20, 29, 41].contains(&refusal.number));
            assert_eq!(of_sheet, refusal.place > 0);
            assert!(sheet.iter().all(|&byte| byte == FILL));
        }
        Ok(length) => {
            assert_eq!(check(Rows, &sheet[..length]), Ok(()));
            assert_eq!(ask(&sheet[..length], 0, 0, 2_000), (ACCEPTED, capture.to_vec()));
        }
    });
}
