//! The box that holds an image: what it sends is what the box of the imported sheet sends.

use super::cross::make_sheet;
use super::import::{each_damaged, each_longest};
use super::{ask, asked, changed, command, response, Change, Numbers, E, E_FULL, FILL, UNREADABLE};
use crate::command::{most_bytes, respond};
use crate::import::import;
use crate::numbers::*;
use crate::rom;
use crate::sheet::Layout::Rows;
use crate::wire::be32;

/// Asks an image for a response; gives the number and the bytes sent, and sees that no other byte changed.
fn ask_image(image: &[u8], rt: u8, sfn: u16, allocation: u16) -> (u8, Vec<u8>) {
    asked(usize::from(allocation) + 16, |out| rom::respond(image, &command(rt, sfn, allocation), out))
}

/// Sees that image and imported sheet give the same number and the same bytes, also with no room to spare and with a
/// byte too little.
fn same(image: &[u8], sheet: &[u8], rt: u8, sfn: u16, allocation: u16) {
    let wanted = ask(sheet, rt, sfn, allocation);
    assert_eq!(ask_image(image, rt, sfn, allocation), wanted);
    let (command, count) = (command(rt, sfn, allocation), wanted.1.len());
    let mut exact = vec![FILL; count];
    assert_eq!(rom::respond_checked(image, &command, &mut exact), Ok(count));
    assert_eq!(exact, wanted.1);
    if count > 0 {
        let mut short = vec![FILL; count - 1];
        assert_eq!(rom::respond_checked(image, &command, &mut short), Err(BUFFER_SHORT));
        assert_eq!(respond(Rows, sheet, &command, &mut vec![FILL; count - 1]), Err(BUFFER_SHORT.into()));
        assert!(short.iter().all(|&byte| byte == FILL));
    }
}

/// The sheet that an image gives.
fn imported(image: &[u8]) -> Vec<u8> {
    let mut sheet = vec![FILL; 2 * image.len() + 16];
    let length = import(image, &mut sheet).unwrap();
    sheet.truncate(length);
    sheet
}

/// Each of these starts and its neighbours, and the ends.
fn starts(numbers: &[u16]) -> Vec<u16> {
    let mut starts = vec![0, 1, 0xFFFF];
    for &number in numbers {
        starts.extend_from_slice(&[number.wrapping_sub(1), number, number.wrapping_add(1)]);
    }
    starts
}

/// The feature numbers of a sheet.
fn numbers_of(sheet: &[u8]) -> Vec<u16> {
    let count = usize::from(u16::from_be_bytes([sheet[0], sheet[1]]));
    (0..count).map(|index| u16::from_be_bytes([sheet[4 + 8 * index], sheet[5 + 8 * index]])).collect()
}

#[test]
fn the_worked_lines() {
    assert_eq!(ask_image(&E_FULL, 0, 0, 44), (ACCEPTED, E_FULL.to_vec()));
    assert_eq!(ask_image(&E_FULL, 0, 0, 0), (ACCEPTED, vec![]));
    assert_eq!(ask_image(&E_FULL, 0, 0, 4), (ACCEPTED, vec![0x00, 0x00, 0x00, 0x28]));
    let from_0105 = vec![0, 0, 0, 8, 0, 0, 0, 0x12, 0x01, 0x05, 0x03, 0x00];
    assert_eq!(ask_image(&E_FULL, 0, 0x0105, 65_535), (ACCEPTED, from_0105));
    let header = vec![0, 0, 0, 4, 0, 0, 0, 0x12];
    assert_eq!(ask_image(&E_FULL, 0, 0x0106, 65_535), (ACCEPTED, header.clone()));
    assert_eq!(ask_image(&E_FULL, 2, 2, 65_535), (ACCEPTED, header));
    let (number, bytes) = ask_image(&E_FULL, 2, 0, 65_535);
    assert_eq!((number, bytes.len(), be32(&bytes, 0)), (ACCEPTED, 20, 16));
    assert_eq!(bytes[8..], E_FULL[8..20]);
    let mut not_current = E_FULL;
    not_current[38] = 0x00;
    let (number, bytes) = ask_image(&not_current, 1, 0, 65_535);
    assert_eq!((number, bytes.len(), be32(&bytes, 0)), (ACCEPTED, 40, 36));
    assert_eq!((&bytes[8..36], &bytes[36..]), (&E_FULL[8..36], &E_FULL[40..]));
    assert_eq!(ask_image(&E_FULL, 3, 0, 65_535), (COMMAND_RT, vec![]));
    // Nothing to send needs no buffer at all.
    assert_eq!(rom::respond(&E_FULL, &command(0, 0, 0), &mut []), Ok(0));
}

#[test]
fn every_start_of_e() {
    let mut not_current = E_FULL;
    (not_current[22], not_current[38]) = (0, 0);
    for image in [E_FULL, not_current] {
        let sheet = imported(&image);
        for rt in 0..3 {
            for sfn in 0..0x0200 {
                same(&image, &sheet, rt, sfn, 300);
            }
            for sfn in starts(&[0x0003, 0x001F, 0x0105]) {
                for allocation in 0..=50 {
                    same(&image, &sheet, rt, sfn, allocation);
                }
            }
        }
    }
    assert_eq!(imported(&E_FULL), E);
}

#[test]
fn made_up_sheets() {
    let mut numbers = Numbers(0xA0B0_C0D0_0000_0001);
    for _ in 0..200 {
        let sheet = make_sheet(&mut numbers, 24);
        let image = ask(&sheet, 0, 0, 65_535).1;
        assert_eq!(rom::check(&image), Ok(()));
        for sfn in starts(&numbers_of(&sheet)) {
            for rt in 0..3 {
                let near = numbers.below(image.len() as u64 + 4) as u16;
                same(&image, &sheet, rt, sfn, [near, 7_000][numbers.below(2) as usize]);
            }
        }
    }
}

#[test]
fn the_longest_images() {
    each_longest(|_, sheet, image| {
        for rt in 0..3 {
            for sfn in [0, 1, 4, 0x0100, 0x8000, 0xFEFF, 0xFF00, 0xFFF0, 0xFFFF] {
                for allocation in [0, 9, 300, 65_531, 65_532, 65_533, 65_534, 65_535] {
                    same(image, sheet, rt, sfn, allocation);
                }
            }
        }
    });
}

/// The number and the place with which an image is refused, whatever the command; sees that the buffer is unchanged.
fn refused(image: &[u8]) -> (u8, usize) {
    let refusal = rom::check(image).unwrap_err();
    for command in [&command(0, 0, 44)[..], &command(3, 0, 44), &[0x46; 9], &[0; 10]] {
        for room in [0, 44, 100] {
            let mut out = vec![FILL; room];
            assert_eq!(rom::respond(image, command, &mut out), Err(refusal));
            assert!(out.iter().all(|&byte| byte == FILL));
        }
    }
    (refusal.number, refusal.place)
}

/// The number and the place with which E's response is refused after a byte is changed.
fn with(change: Change) -> (u8, usize) {
    refused(&changed(&E_FULL, &[change]))
}

#[test]
fn refusals() {
    assert_eq!(refused(&[]), (RECEIVED_LENGTH, 0));
    assert_eq!(refused(&E_FULL[..7]), (RECEIVED_LENGTH, 0));
    let mut long = E_FULL.to_vec();
    long.resize(65_535, 0);
    assert_eq!(refused(&long), (RECEIVED_LENGTH, 0));
    for (number, change) in UNREADABLE {
        assert_eq!(with(change), (number, 0));
    }
    for cut in 8..44 {
        assert_eq!(refused(&E_FULL[..cut]), (CHECK_CUT, 0));
    }
    for (wanted, change) in [
        ((CAPTURE_BAD, 0), (10, 1)),
        ((CAPTURE_BAD, 0), (5, 1)),
        ((CAPTURE_BAD, 0), (7, 0x10)),
        ((PROFILE_BAD, 2), (19, 0x80)),
        ((FLAGS_RESERVED, 2), (30, 0x83)),
        ((PERSISTENT_UNCURRENT, 4), (42, 2)),
    ] {
        assert_eq!(with(change), wanted);
    }
    assert_eq!(refused(&response(0, &[])), (CAPTURE_BAD, 0));
}

#[test]
fn refused_as_import_refuses() {
    each_damaged(0xA0B0_C0D0_0000_0002, 20_000, |numbers, image, made, sheet| match made {
        Err(refusal) => assert_eq!(refused(image), (refusal.number, refusal.place)),
        Ok(length) => {
            for rt in 0..3 {
                for sfn in [0, numbers.below(70) as u16] {
                    let allocation = [1_000, numbers.below(90) as u16][numbers.below(2) as usize];
                    same(image, &sheet[..length], rt, sfn, allocation);
                }
            }
        }
    });
}

#[test]
fn commands_of_an_accepted_image() {
    let answer = |command: &[u8], room: usize| rom::respond_checked(&E_FULL, command, &mut vec![FILL; room]);
    assert_eq!(answer(&[], 44), Err(COMMAND_LENGTH));
    assert_eq!(answer(&[0x46; 11], 44), Err(COMMAND_LENGTH));
    assert_eq!(answer(&[0x47, 3, 0, 0, 0, 0, 0, 0, 44, 0], 0), Err(COMMAND_OPCODE));
    assert_eq!(answer(&[0x46, 0xFF, 0, 0, 0, 0, 0, 0, 44, 0], 0), Err(COMMAND_RT));
    assert_eq!(answer(&[0x46, 0xFC, 0, 0, 0xFF, 0xFF, 0xFF, 0, 44, 0xFF], 44), Ok(44));
    for room in 0..44 {
        assert_eq!(answer(&command(0, 0, 65_535), room), Err(BUFFER_SHORT));
    }
}

/// What an image gives that was not checked, with room enough.
fn unchecked(image: &[u8], rt: u8, sfn: u16, allocation: u16) -> Vec<u8> {
    let command = command(rt, sfn, allocation);
    asked(most_bytes(allocation), |out| Ok(rom::respond_checked(image, &command, out).unwrap())).1
}

#[test]
fn any_bytes() {
    // Four bytes of Data Length always, then what is there.
    assert_eq!(unchecked(&[], 0, 0, 100), [0, 0, 0, 0]);
    assert_eq!(unchecked(&[1, 2], 1, 0, 100), [1, 2, 0, 0]);
    assert_eq!(unchecked(&[1, 2, 3, 4, 5, 6], 2, 0, 100), [1, 2, 3, 4, 5, 6]);
    // A descriptor cut in its header: what isn't there counts as 0 and isn't sent.
    let cut = [0, 0, 0, 9, 0, 0, 0, 0x12, 0x01];
    assert_eq!(unchecked(&cut, 0, 0x0100, 100), cut);
    assert_eq!(unchecked(&cut, 2, 0x0100, 100), cut);
    assert_eq!(unchecked(&cut, 2, 0x0101, 100), [0, 0, 0, 8, 0, 0, 0, 0x12]);
    assert_eq!(unchecked(&cut, 1, 0x0100, 100), [0, 0, 0, 8, 0, 0, 0, 0x12]);
    // What is passed over goes off Data Length, down to 0.
    let lying = [0, 0, 0, 3, 0, 0, 0, 0, 0, 1, 1, 0, 0, 2, 1, 0];
    assert_eq!(unchecked(&lying, 0, 2, 100), [0, 0, 0, 0, 0, 0, 0, 0, 0, 2, 1, 0]);
    // From the first that is high enough on, in whatever order the rest stands; a body cut short is sent as far as it goes.
    let mixed = [0, 0, 1, 0, 9, 9, 9, 9, 0, 1, 1, 0, 0, 9, 0, 0, 0, 2, 1, 8, 7];
    assert_eq!(unchecked(&mixed, 0, 5, 100), [0, 0, 0, 252, 9, 9, 9, 9, 0, 9, 0, 0, 0, 2, 1, 8, 7]);
    assert_eq!(unchecked(&mixed, 1, 5, 100), [0, 0, 0, 248, 9, 9, 9, 9, 0, 2, 1, 8, 7]);
    assert_eq!(unchecked(&mixed, 1, 0, 11), [0, 0, 0, 252, 9, 9, 9, 9, 0, 1, 1]);
    let mut numbers = Numbers(0xA0B0_C0D0_0000_0003);
    for _ in 0..20_000 {
        let length = numbers.below(60) as usize;
        let image: Vec<u8> =
            (0..length).map(|_| [0, 1, 4, numbers.next() as u8][numbers.below(4) as usize]).collect();
        for rt in 0..3 {
            let sfn = numbers.below(300) as u16;
            let whole = unchecked(&image, rt, sfn, 100);
            assert!(whole.len() <= 4.max(length));
            let cut = numbers.below(70) as u16;
            assert_eq!(unchecked(&image, rt, sfn, cut), whole[..whole.len().min(usize::from(cut))]);
        }
    }
}
