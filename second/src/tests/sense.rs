//! Sense data: the four strings, the numbers that have one, and what is read.

use super::{command, E, E_FULL, FILL};
use crate::command::respond;
use crate::numbers::*;
use crate::rom;
use crate::sense::{make, read, Kind};
use crate::sheet::Layout::Rows;

const NOTHING: [u8; 18] = [0x70, 0, 0, 0, 0, 0, 0, 0x0A, 0, 0, 0, 0, 0, 0, 0, 0, 0, 0];
const OPERATION: [u8; 18] = [0x70, 0, 5, 0, 0, 0, 0, 0x0A, 0, 0, 0, 0, 0x20, 0, 0, 0, 0, 0];
const FIELD: [u8; 18] = [0x70, 0, 5, 0, 0, 0, 0, 0x0A, 0, 0, 0, 0, 0x24, 0, 0, 0xC9, 0, 1];
const TROUBLE: [u8; 18] = [0x70, 0, 4, 0, 0, 0, 0, 0x0A, 0, 0, 0, 0, 0x44, 0, 0, 0, 0, 0];

/// The numbers of each kind, with its bytes.
const KINDS: [(Kind, [u8; 18], &[u8]); 4] = [
    (Kind::Nothing, NOTHING, &[0]),
    (Kind::Operation, OPERATION, &[9, 10]),
    (Kind::Field, FIELD, &[11]),
    (Kind::Trouble, TROUBLE, &[1, 2, 3, 4, 5, 6, 7, 8, 12, 14, 15, 16, 17, 18, 20, 29, 41, 44]),
];

/// The number with which making is refused; sees that the buffer is unchanged.
fn unmade(number: u8, room: usize) -> u8 {
    let mut out = vec![FILL; room];
    let refusal = make(number, &mut out).unwrap_err();
    assert!(out.iter().all(|&byte| byte == FILL));
    refusal
}

#[test]
fn each_number_comes_back_as_its_kind() {
    for (kind, bytes, numbers) in KINDS {
        for &number in numbers {
            let mut out = [FILL; 20];
            assert_eq!(make(number, &mut out), Ok(18));
            assert_eq!(out[..18], bytes);
            assert_eq!(out[18..], [FILL; 2]);
            assert_eq!(read(&out[..18]), Ok(kind));
            for room in 0..18 {
                assert_eq!(unmade(number, room), SENSE_BUFFER_SHORT);
            }
        }
    }
}

#[test]
fn no_other_number_is_taken() {
    for number in 0..=255 {
        if KINDS.iter().all(|(_, _, numbers)| !numbers.contains(&number)) {
            for room in [0, 17, 18, 19] {
                assert_eq!(unmade(number, room), NOT_A_COMMANDS);
            }
        }
    }
}

#[test]
fn a_refused_command_has_sense() {
    let number = |sheet: &[u8], command: &[u8], room: usize| match respond(
        Rows,
        sheet,
        command,
        &mut vec![FILL; room],
    ) {
        Ok(_) => ACCEPTED,
        Err(refusal) => refusal.number,
    };
    let good = command(0, 0, 64);
    let mut other = good;
    other[0] = 0x12;
    assert_eq!(Kind::of(number(&E, &good, 64)), Some(Kind::Nothing));
    assert_eq!(Kind::of(number(&E, &good[..9], 64)), Some(Kind::Operation));
    assert_eq!(Kind::of(number(&E, &other, 64)), Some(Kind::Operation));
    assert_eq!(Kind::of(number(&E, &command(3, 0, 64), 64)), Some(Kind::Field));
    assert_eq!(Kind::of(number(&E, &good, 43)), Some(Kind::Trouble));
    assert_eq!(Kind::of(number(&E[..51], &good, 64)), Some(Kind::Trouble));
}

#[test]
fn a_refused_image_has_sense() {
    let number =
        |image: &[u8], command: &[u8], room: usize| match rom::respond(image, command, &mut vec![FILL; room])
        {
            Ok(_) => ACCEPTED,
            Err(refusal) => refusal.number,
        };
    let good = command(0, 0, 64);
    assert_eq!(Kind::of(number(&E_FULL, &good, 64)), Some(Kind::Nothing));
    assert_eq!(Kind::of(number(&E_FULL, &good[..9], 64)), Some(Kind::Operation));
    assert_eq!(Kind::of(number(&E_FULL, &command(3, 0, 64), 64)), Some(Kind::Field));
    assert_eq!(Kind::of(number(&E_FULL, &good, 43)), Some(Kind::Trouble));
    for cut in 0..44 {
        assert_eq!(Kind::of(number(&E_FULL[..cut], &good, 64)), Some(Kind::Trouble));
    }
    for at in 0..44 {
        for value in 0..=255 {
            let mut image = E_FULL;
            image[at] = value;
            let kind = if number(&image, &good, 64) == ACCEPTED { Kind::Nothing } else { Kind::Trouble };
            assert_eq!(Kind::of(number(&image, &good, 64)), Some(kind));
        }
    }
}

#[test]
fn readings_in_order() {
    for (_, bytes, _) in KINDS {
        let mut long = bytes.to_vec();
        for more in 1..3 {
            long.push(0);
            assert_eq!(read(&long), Err(SENSE_LENGTH), "{more} more");
        }
        for length in 0..18 {
            assert_eq!(read(&bytes[..length]), Err(SENSE_LENGTH));
        }
        // Deferred errors and descriptor format, alone and with other faults; bit 7 is no part of the code.
        for code in 0..=255 {
            let mut changed = bytes;
            changed[0] = code;
            let wanted = match code {
                0x70 => continue,
                0xF0 => SENSE_OTHER,
                _ => SENSE_RESPONSE_CODE,
            };
            assert_eq!(read(&changed), Err(wanted));
            changed[17] ^= 4;
            assert_eq!(read(&changed), Err(wanted));
        }
    }
}

#[test]
fn no_byte_may_differ() {
    for (_, bytes, _) in KINDS {
        for at in 1..18 {
            for value in 0..=255 {
                let mut changed = bytes;
                changed[at] = value;
                let known = KINDS.iter().find(|(_, bytes, _)| *bytes == changed);
                assert_eq!(read(&changed), known.map(|known| known.0).ok_or(SENSE_OTHER));
            }
        }
    }
}
