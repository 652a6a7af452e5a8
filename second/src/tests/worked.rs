//! Every worked line of the paper.

use super::{ask, command, E, E_FULL};
use crate::bench::{bench, Buffers, Outcome};
use crate::checks::{check_profile, ProfileAnswer, Wrong};
use crate::command::respond;
use crate::lister::list;
use crate::numbers::*;
use crate::reading::{read, Reading};
use crate::refusal::Refusal;
use crate::sheet::Layout::Rows;
use crate::sheet::{build, check};
use crate::wire::{be32, Descriptor, Feature, Profile};

#[test]
fn the_sheet_is_accepted() {
    assert_eq!(check(Rows, &E), Ok(()));
}

#[test]
fn all_features() {
    assert_eq!(ask(&E, 0, 0, 44), (ACCEPTED, E_FULL.to_vec()));
}

#[test]
fn small_allocations() {
    assert_eq!(ask(&E, 0, 0, 0), (ACCEPTED, vec![]));
    assert_eq!(ask(&E, 0, 0, 4), (ACCEPTED, vec![0x00, 0x00, 0x00, 0x28]));
    // A = 0 needs no buffer at all.
    assert_eq!(respond(Rows, &E, &command(0, 0, 0), &mut []), Ok(0));
}

#[test]
fn higher_starts() {
    let from_0105 = vec![0, 0, 0, 8, 0, 0, 0, 0x12, 0x01, 0x05, 0x03, 0x00];
    assert_eq!(ask(&E, 0, 0x0105, 65_535), (ACCEPTED, from_0105));
    let header = vec![0, 0, 0, 4, 0, 0, 0, 0x12];
    assert_eq!(ask(&E, 0, 0x0106, 65_535), (ACCEPTED, header));
}

#[test]
fn one_feature() {
    let header = vec![0, 0, 0, 4, 0, 0, 0, 0x12];
    assert_eq!(ask(&E, 2, 2, 65_535), (ACCEPTED, header));
    // The profile list can be asked for alone.
    let (number, bytes) = ask(&E, 2, 0, 65_535);
    assert_eq!((number, bytes.len(), be32(&bytes, 0)), (ACCEPTED, 20, 16));
    assert_eq!(bytes[8..], E_FULL[8..20]);
}

#[test]
fn current_features() {
    let mut sheet = E;
    sheet[4 + 2 * 8 + 2] = 0x00;
    let (number, bytes) = ask(&sheet, 1, 0, 65_535);
    assert_eq!((number, bytes.len(), be32(&bytes, 0)), (ACCEPTED, 40, 36));
}

#[test]
fn reserved_rt() {
    assert_eq!(ask(&E, 3, 0, 65_535), (COMMAND_RT, vec![]));
}

/// Sweeps E with RT 0; gives the outcome and the starts.
fn sweep_e(allocation: u16) -> (Result<Outcome, Refusal>, Vec<u16>, Vec<u8>) {
    let mut response = [0xA5; 64];
    let mut collected = [0xA5; 64];
    let mut starts = [0xA5A5; 8];
    let outcome = bench(Rows, &E, 0, allocation, Buffers::new(&mut response, &mut collected, &mut starts));
    (outcome, starts.to_vec(), collected.to_vec())
}

#[test]
fn sweeps() {
    let (outcome, starts, collected) = sweep_e(20);
    assert_eq!(outcome, Ok(Outcome { commands: 4, collected: 36 }));
    assert_eq!(starts, [0, 1, 2, 0x0020, 0xA5A5, 0xA5A5, 0xA5A5, 0xA5A5]);
    assert_eq!(collected[..36], E_FULL[8..]);
    assert!(collected[36..].iter().all(|&byte| byte == 0xA5));

    let (outcome, starts, collected) = sweep_e(43);
    assert_eq!(outcome, Ok(Outcome { commands: 2, collected: 36 }));
    assert_eq!(starts[..3], [0, 0x0020, 0xA5A5]);
    assert_eq!(collected[..36], E_FULL[8..]);

    let (outcome, starts, collected) = sweep_e(19);
    assert_eq!(outcome, Err(Refusal { number: NOTHING_WHOLE, place: 0 }));
    assert_eq!(starts, [0; 8]);
    assert_eq!(collected, [0; 64]);
}

#[test]
fn profile_0012_lacks_0002() {
    let answer = check_profile(Profile(0x0012), &E_FULL);
    assert_eq!(answer, ProfileAnswer::Broken(Feature(0x0002), Wrong::Absent));
    assert_eq!(check_profile(Profile(0xFFFF), &E_FULL), ProfileAnswer::Conforms);
}

#[test]
fn reading_of_the_full_response() {
    let expected = Reading {
        number: ACCEPTED,
        profile: Profile(0x0012),
        data_length: 40,
        count: 5,
        end: 44,
        complete: true,
    };
    assert_eq!(read(0, Feature(0), &E_FULL, None), expected);
}

/// A sheet whose full response has 8 + 4 + 255 * 256 + 4 + the last body's bytes.
fn long_sheet(last_body: usize) -> Vec<u8> {
    let body = [0x5A; 252];
    let numbers = 1..=256_u16;
    let descriptors: Vec<Descriptor> = numbers
        .map(|number| {
            let length = if number == 256 { last_body } else { 252 };
            Descriptor { feature: Feature(number), flags: 0x01, body: &body[..length] }
        })
        .collect();
    build(&[], &descriptors).unwrap()
}

#[test]
fn the_return_limit() {
    let (number, bytes) = ask(&long_sheet(236), 0, 0, 65_535);
    assert_eq!((number, bytes.len(), be32(&bytes, 0)), (ACCEPTED, 65_532, 65_528));
    assert!(read(0, Feature(0), &bytes, None).complete);

    let (number, bytes) = ask(&long_sheet(240), 0, 0, 65_535);
    assert_eq!((number, bytes.len(), be32(&bytes, 0)), (ACCEPTED, 65_534, 65_532));
    let reading = read(0, Feature(0), &bytes, None);
    assert_eq!((reading.number, reading.count, reading.complete), (ACCEPTED, 256, false));
}

#[test]
fn lister_output() {
    let expected = "0012 44 5\n0000 PC 0 8\n0001 PC 0 4\n0003 PC 0 4\n001F -C 0 0\n0105 PC 0 0\n";
    assert_eq!(list(&E_FULL), expected.as_bytes());
    // At 35 bytes the body of 0003h has not arrived whole.
    assert_eq!(list(&E_FULL[..35]), b"0012 35 2\n0000 PC 0 8\n0001 PC 0 4\ncut\n");
    assert_eq!(list(&E_FULL[..7]), b"refused 14\n");
    let mut odd = super::response(0xABCD, &[0x00, 0x01, 0xFE, 0x00, 0xFF, 0xFF, 0x04, 0x00]);
    assert_eq!(list(&odd), b"ABCD 16 2\n0001 P- 15 0\nFFFF -- 1 0\n");
    odd.resize(65_535, 0);
    assert_eq!(list(&odd), b"refused 14\n");
}
