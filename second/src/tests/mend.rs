//! A response mended: the worked example, the order of the rules, and what is not touched.

use super::{E_FULL as R, FILL};
use crate::checks::check_descriptors;
use crate::fast;
use crate::mend::{changes, mend, undo, Change};
use crate::numbers::*;
use crate::wire::Feature;

/// What mending gives: the number, the copy and the changes. The fast one has to give the same.
fn mended(response: &[u8], room: usize, lines: usize) -> (Result<(usize, usize), u8>, Vec<u8>, Vec<u32>) {
    let (mut copy, mut other) = (vec![FILL; room], vec![FILL; room]);
    let (mut list, mut second) = (vec![0xA5A5_A5A5; lines], vec![0xA5A5_A5A5; lines]);
    let made = mend(response, &mut copy, &mut list);
    assert_eq!(made, fast::mend::mend(response, &mut other, &mut second));
    assert!(copy == other && list == second);
    (made, copy, list)
}

/// The response mended, of which as many bytes change.
fn fixed(response: &[u8]) -> Vec<u8> {
    let (made, copy, list) = mended(response, response.len(), response.len());
    let (length, count) = made.unwrap();
    assert_eq!(length, response.len());
    let listed: Vec<Change> = list[..count].iter().map(|&line| Change::of(line)).collect();
    assert_eq!(listed, changes(response, &copy));
    assert_eq!(undo(&listed, &copy), response);
    assert_eq!(mended(&copy, length, 0), (Ok((length, 0)), copy.clone(), vec![]));
    assert!([0, 30, 31, 39].contains(&check_descriptors(&copy).0));
    copy
}

/// The worked example's response with some bytes changed.
fn with(bytes: &[(usize, u8)]) -> Vec<u8> {
    let mut response = R.to_vec();
    bytes.iter().for_each(|&(at, byte)| response[at] = byte);
    response
}

#[test]
fn the_worked_example() {
    assert_eq!(fixed(&R), R);
    // A reserved flag, a reserved byte of the profile list, a stray bit of 0003h.
    assert_eq!(fixed(&with(&[(10, 0x43), (15, 0x80), (32, 0x3B)])), R);
    // The flags of 0000h to 0003h.
    assert_eq!(fixed(&with(&[(10, 0), (22, 2), (30, 0xC1)])), R);
    // 001Fh may not be Persistent where 0003h is reported; 0105h may.
    assert_eq!(fixed(&with(&[(38, 3)])), R);
    assert_eq!(fixed(&with(&[(42, 2)])), with(&[(42, 0)]));
}

#[test]
fn what_is_not_touched() {
    // The header; a Version and the body that has it; a feature without a rule, but for its flags; a body of wrong length.
    for bytes in
        [&[(4, 1), (5, 1)][..], &[(10, 0x07), (15, 0x80)], &[(30, 0x0B), (32, 0x3B)], &[(27, 8), (3, 0x2C)]]
    {
        let response = with(bytes);
        if mended(&response, 44, 44).0.is_ok() {
            assert_eq!(fixed(&response), response);
        }
    }
    let mut long = with(&[(3, 0x2C), (31, 8)]);
    long.splice(36..36, [0xFF; 4]);
    assert_eq!(fixed(&long), long);
    assert_eq!(check_descriptors(&long), (FINDING_LENGTH, Feature(3)));
}

#[test]
fn the_refusals() {
    let stray = with(&[(10, 0x43), (15, 0x80)]);
    let unchanged =
        |number: u8, room: usize, lines: usize| (Err(number), vec![FILL; room], vec![0xA5A5_A5A5; lines]);
    assert_eq!(mended(&stray[..43], 44, 2), unchanged(CHECK_CUT, 44, 2));
    assert_eq!(mended(&stray, 43, 0), unchanged(COPY_SHORT, 43, 0));
    assert_eq!(mended(&stray, 44, 1), unchanged(CHANGES_SHORT, 44, 1));
    assert_eq!(mended(&stray, 44, 2).0, Ok((44, 2)));
    assert_eq!(check_descriptors(&fixed(&stray)), (ACCEPTED, Feature(0)));
}
