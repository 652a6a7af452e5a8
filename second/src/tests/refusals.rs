//! Each refusal and finding from 9 on, at least once, and what it leaves unchanged.

use super::{command, response, told, E, E_FULL, FILL};
use crate::bench::{bench, Buffers, Outcome};
use crate::checks::{check_descriptors, check_profile, ProfileAnswer, Wrong};
use crate::command::{respond, Request};
use crate::find::find;
use crate::numbers::*;
use crate::reading::{read, Reading};
use crate::sheet::Layout::Rows;
use crate::sweep::Record;
use crate::wire::{Feature, Profile};

/// The number for a command that has no place, and that nothing else happened.
fn refused_command(sheet: &[u8], command: &[u8], room: usize) -> u8 {
    let mut out = vec![FILL; room];
    let (number, place) = told(respond(Rows, sheet, command, &mut out));
    assert_ne!(number, ACCEPTED);
    assert_eq!(place, 0);
    assert!(out.iter().all(|&byte| byte == FILL));
    number
}

#[test]
fn commands() {
    let good = command(0, 0, 44);
    for length in (0..=16).filter(|length| ![10, 12].contains(length)) {
        assert_eq!(refused_command(&E, &vec![0x46; length], 44), COMMAND_LENGTH);
    }
    let mut opcode = good;
    opcode[0] = 0x47;
    opcode[1] = 3;
    assert_eq!(refused_command(&E, &opcode, 44), COMMAND_OPCODE);
    assert_eq!(refused_command(&E, &command(3, 0, 0), 0), COMMAND_RT);
    assert_eq!(refused_command(&E, &good, 43), BUFFER_SHORT);
    // The sheet is looked at before the command.
    assert_eq!(refused_command(&E[..51], &[], 44), SHEET_END);
}

#[test]
fn reserved_bits_of_a_command_are_ignored() {
    let mut noisy = command(2, 1, 100);
    noisy[1] |= 0xFC;
    noisy[4..7].fill(0xFF);
    noisy[9] = 0xFF;
    let mut out = [FILL; 32];
    assert_eq!(respond(Rows, &E, &noisy, &mut out), Ok(16));
    assert_eq!(out[8..16], E_FULL[20..28]);
    assert_eq!(out[16..], [FILL; 16]);
    // So are the pads of a packet.
    let packet = [&noisy[..], &[0xFF, 0x46]].concat();
    let mut again = [FILL; 32];
    assert_eq!(respond(Rows, &E, &packet, &mut again), Ok(16));
    assert_eq!(again, out);
}

#[test]
fn built_commands() {
    let request = |rt, sfn, allocation| Request { rt, sfn: Feature(sfn), allocation };
    for length in 0..=16 {
        for room in 0..=16 {
            for rt in [0, 2, 3, 255] {
                let mut out = [FILL; 16];
                let built = request(rt, 0x0105, 300).build(length, &mut out[..room]);
                let wanted = match (length, rt) {
                    (10 | 12, 0..=2) if room >= length => Ok(length),
                    (10 | 12, 0..=2) => Err(BUFFER_SHORT),
                    (10 | 12, _) => Err(COMMAND_RT),
                    _ => Err(COMMAND_LENGTH),
                };
                assert_eq!(built, wanted);
                let bytes = [0x46, rt, 1, 5, 0, 0, 0, 1, 44, 0, 0, 0];
                let count = built.unwrap_or(0);
                assert_eq!(out[..count], bytes[..count]);
                assert!(out[count..].iter().all(|&byte| byte == FILL));
                if built.is_ok() {
                    assert_eq!(Request::parse(&out[..count]), Ok(request(rt, 0x0105, 300)));
                }
            }
        }
    }
}

/// The number of a reading that must be refused.
fn refused_reading(rt: u8, sfn: u16, received: &[u8], limit: Option<usize>) -> u8 {
    let reading = read(rt, Feature(sfn), received, limit);
    assert_ne!(reading.number, ACCEPTED);
    assert_eq!(reading, Reading::refused(reading.number));
    reading.number
}

#[test]
fn readings() {
    assert_eq!(refused_reading(3, 0, &E_FULL, None), READING_RT);
    assert_eq!(refused_reading(255, 0, &[], None), READING_RT);
    assert_eq!(refused_reading(0, 0, &E_FULL[..7], None), RECEIVED_LENGTH);
    assert_eq!(refused_reading(0, 0, &vec![0; 65_535], None), RECEIVED_LENGTH);
    assert_eq!(refused_reading(0, 0, &[0, 0, 0, 0, 0, 0, 0, 0], None), DATA_LENGTH);
    assert_eq!(refused_reading(0, 0, &[0, 0, 0, 6, 0, 0, 0, 0], None), DATA_LENGTH);
    assert_eq!(refused_reading(0, 0, &[0, 0, 0, 4, 0, 0, 0, 0, 0], None), RECEIVED_TOO_MUCH);
    assert_eq!(refused_reading(0, 0, &E_FULL, Some(43)), RECEIVED_TOO_MUCH);
    assert_eq!(read(0, Feature(0), &E_FULL, Some(44)).number, ACCEPTED);
    // Any Data Length the field can hold is fine for a cut response.
    assert_eq!(read(0, Feature(0), &[255, 255, 255, 252, 9, 9, 0, 0], None).number, ACCEPTED);
}

#[test]
fn descriptors_of_a_reading() {
    let length = response(0, &[0, 1, 0, 5, 0, 0, 0, 0, 0, 0, 0, 0]);
    assert_eq!(refused_reading(0, 2, &length, None), ADDITIONAL_LENGTH);
    let below = response(0, &[0, 1, 0, 0]);
    assert_eq!(refused_reading(1, 2, &below, None), RESPONSE_ORDER);
    let twice = response(0, &[0, 1, 1, 0, 0, 1, 1, 0]);
    assert_eq!(refused_reading(0, 0, &twice, None), RESPONSE_ORDER);
    assert_eq!(refused_reading(2, 1, &twice, None), RESPONSE_ORDER);
    assert_eq!(refused_reading(2, 0, &below, None), RESPONSE_ORDER);
    assert_eq!(refused_reading(1, 0, &below, None), NOT_CURRENT);
    assert_eq!(read(0, Feature(0), &below, None).number, ACCEPTED);
    assert_eq!(read(2, Feature(1), &below, None).number, ACCEPTED);
    let beyond = response(0, &[0, 1, 0, 4]);
    assert_eq!(refused_reading(0, 0, &beyond, None), BEYOND_DATA);
    // The header of a cut descriptor is checked too.
    let mut cut = response(0, &[0, 1, 0, 8, 0, 0, 0, 0]);
    assert_eq!(refused_reading(0, 0, &cut[..12], None), BEYOND_DATA);
    cut[11] = 3;
    assert_eq!(refused_reading(0, 0, &cut[..12], None), ADDITIONAL_LENGTH);
    assert_eq!(read(0, Feature(0), &cut[..11], None).number, ACCEPTED);
}

#[test]
fn a_header_without_its_body_does_not_count() {
    let reading = read(0, Feature(0), &E_FULL[..27], None);
    assert_eq!((reading.count, reading.end, reading.complete), (1, 20, false));
    let reading = read(0, Feature(0), &E_FULL[..8], None);
    assert_eq!((reading.count, reading.end, reading.complete), (0, 8, false));
}

/// A record with RT 0 that has begun.
fn record(allocation: u16) -> Record {
    Record { allocation, ended: false, ..Record::refused() }
}

/// Takes a response that must be refused with the record unchanged but for its mark; gives the number.
fn refused_take(record: Record, response: &[u8], room: usize) -> u8 {
    let mut buffer = vec![FILL; room];
    let (number, after) = record.take(response, &mut buffer);
    assert_ne!(number, ACCEPTED);
    assert!(buffer.iter().all(|&byte| byte == FILL));
    let ended = record.ended || [NOTHING_WHOLE, PROFILE_CHANGED].contains(&number);
    assert_eq!(after, Record { ended, ..record });
    number
}

#[test]
fn starts_of_a_sweep() {
    assert_eq!(Record::start(2, 7), (SWEEP_RT, Record::refused()));
    assert_eq!(Record::start(1, 7), (SWEEP_ALLOCATION, Record::refused()));
    assert_eq!(Record::start(0, 8), (ACCEPTED, record(8)));
    assert!(Record::refused().ended);
}

#[test]
fn takes_of_any_record() {
    let good = record(44);
    assert_eq!(refused_take(Record { rt: 2, allocation: 0, ended: true, ..good }, &[], 0), SWEEP_RT);
    assert_eq!(refused_take(Record { allocation: 7, ended: true, ..good }, &[], 0), SWEEP_ALLOCATION);
    assert_eq!(refused_take(Record { ended: true, ..good }, &E_FULL, 99), SWEEP_ENDED);
    assert_eq!(refused_take(Record { commands: 65_536, ..good }, &E_FULL, 99), SWEEP_ENDED);
    assert_eq!(refused_take(Record { commands: u32::MAX, ..good }, &E_FULL, 99), SWEEP_ENDED);
    assert_eq!(refused_take(good, &E_FULL[..7], 99), RECEIVED_LENGTH);
    assert_eq!(refused_take(record(43), &E_FULL, 99), RECEIVED_TOO_MUCH);
    assert_eq!(refused_take(Record { next: Feature(1), ..good }, &E_FULL, 99), RESPONSE_ORDER);
    assert_eq!(refused_take(record(44), &E_FULL[..43], 99), CUT_SHORT);
    // 28 comes before 23.
    assert_eq!(refused_take(record(44), &E_FULL[..8], 99), CUT_SHORT);
    assert_eq!(refused_take(record(19), &E_FULL[..19], 99), NOTHING_WHOLE);
    assert_eq!(refused_take(Record { collected: 9, ..record(8) }, &E_FULL[..8], 0), NOTHING_WHOLE);
    assert_eq!(refused_take(good, &E_FULL, 35), COLLECTED_FULL);
    assert_eq!(refused_take(Record { collected: usize::MAX, ..good }, &E_FULL, 99), COLLECTED_FULL);
    assert_eq!(refused_take(Record { collected: 1, ..good }, &response(0, &[]), 0), COLLECTED_FULL);
}

#[test]
fn a_cut_after_the_last_number() {
    let bytes = response(0, &[0xFF, 0xFF, 1, 0, 0, 0, 0, 0]);
    assert_eq!(refused_take(record(12), &bytes[..12], 0), CUT_AFTER_LAST);
    // Complete, the same number is the end of the sweep.
    let complete = response(0, &[0xFF, 0xFF, 1, 0]);
    let (number, after) = record(12).take(&complete, &mut [0; 4]);
    assert_eq!(number, ACCEPTED);
    assert_eq!(
        after,
        Record { commands: 1, collected: 4, ended: true, profile: after.profile, ..record(12) }
    );
}

#[test]
fn a_profile_that_changes() {
    // Sheet E has profile 0012h. The first response gives it, and the next must have the same.
    let begun = Record { commands: 1, profile: Profile(0x0012), ..record(44) };
    let other = Record { profile: Profile(0x0010), ..begun };
    assert_eq!(begun.take(&E_FULL, &mut [0; 36]).0, ACCEPTED);
    assert_eq!(refused_take(other, &E_FULL, 99), PROFILE_CHANGED);
    assert_eq!(refused_take(Record { profile: Profile(0), ..begun }, &E_FULL, 99), PROFILE_CHANGED);
    // With no command so far any profile is taken, whatever the record holds.
    let (number, after) = Record { commands: 0, ..other }.take(&E_FULL, &mut [0; 36]);
    assert_eq!((number, after.profile), (ACCEPTED, Profile(0x0012)));
    let (number, after) = record(20).take(&E_FULL[..20], &mut [0; 12]);
    assert_eq!((number, after.profile), (ACCEPTED, Profile(0x0012)));
    // After the reading's numbers and 28, before 23, 27 and 24.
    assert_eq!(refused_take(Record { next: Feature(1), ..other }, &E_FULL, 99), RESPONSE_ORDER);
    assert_eq!(refused_take(other, &E_FULL[..43], 99), CUT_SHORT);
    assert_eq!(refused_take(Record { allocation: 19, ..other }, &E_FULL[..19], 99), PROFILE_CHANGED);
    let last = response(0, &[0xFF, 0xFF, 1, 0, 0, 0, 0, 0]);
    assert_eq!(refused_take(Record { allocation: 12, ..other }, &last[..12], 99), PROFILE_CHANGED);
    assert_eq!(refused_take(other, &E_FULL, 0), PROFILE_CHANGED);
}

#[test]
fn accepted_takes() {
    let mut buffer = [FILL; 40];
    let before = Record { collected: 2, commands: 65_535, profile: Profile(0x0012), ..record(20) };
    let (number, after) = before.take(&E_FULL[..20], &mut buffer);
    assert_eq!(number, ACCEPTED);
    assert_eq!(after, Record { next: Feature(1), commands: 65_536, collected: 14, ..before });
    assert_eq!(buffer[..2], [FILL; 2]);
    assert_eq!(buffer[2..14], E_FULL[8..20]);
    assert_eq!(buffer[14..], [FILL; 26]);
    // Nothing to add needs no room.
    let full = Record { collected: 40, ..record(20) };
    let (number, after) = full.take(&response(0, &[]), &mut buffer);
    assert_eq!((number, after), (ACCEPTED, Record { commands: 1, ended: true, ..full }));
}

/// The number of a bench sweep that must be refused, with no place.
fn refused_bench(sheet: &[u8], rt: u8, allocation: u16, rooms: (usize, usize, usize)) -> u8 {
    let mut response = vec![FILL; rooms.0];
    let mut collected = vec![FILL; rooms.1];
    let mut starts = vec![0xA5A5; rooms.2];
    let (number, place) =
        told(bench(Rows, sheet, rt, allocation, Buffers::new(&mut response, &mut collected, &mut starts)));
    assert_ne!(number, ACCEPTED);
    assert_eq!(place, 0);
    assert!(response.iter().chain(&collected).all(|&byte| byte == 0));
    assert!(starts.iter().all(|&start| start == 0));
    number
}

#[test]
fn bench_sweeps() {
    assert_eq!(refused_bench(&E[..51], 2, 0, (0, 0, 0)), SHEET_END);
    assert_eq!(refused_bench(&E, 2, 0, (0, 9, 9)), SWEEP_RT);
    assert_eq!(refused_bench(&E, 0, 7, (0, 9, 9)), SWEEP_ALLOCATION);
    assert_eq!(refused_bench(&E, 0, 20, (19, 99, 9)), BUFFER_SHORT);
    // C is wanted even where the responses are shorter.
    assert_eq!(refused_bench(&E, 0, 65_535, (65_533, 99, 9)), BUFFER_SHORT);
    assert_eq!(refused_bench(&E, 0, 20, (20, 99, 3)), STARTS_FULL);
    assert_eq!(refused_bench(&E, 0, 20, (20, 99, 0)), STARTS_FULL);
    assert_eq!(refused_bench(&E, 0, 20, (20, 35, 4)), COLLECTED_FULL);
    assert_eq!(refused_bench(&E, 0, 19, (20, 99, 9)), NOTHING_WHOLE);
}

#[test]
fn a_bench_sweep_leaves_the_last_response() {
    let mut response = [FILL; 30];
    let mut collected = [FILL; 36];
    let mut starts = [0; 4];
    let outcome = bench(Rows, &E, 0, 20, Buffers::new(&mut response, &mut collected, &mut starts));
    assert_eq!(outcome, Ok(Outcome { commands: 4, collected: 36 }));
    assert_eq!(response[..12], [0, 0, 0, 8, 0, 0, 0, 0x12, 1, 5, 3, 0]);
    assert_eq!(response[12..], [0; 18]);
    // At A 65,535 a buffer of 65,534 is enough.
    let mut response = vec![FILL; 65_534];
    let outcome = bench(Rows, &E, 1, 65_535, Buffers::new(&mut response, &mut collected, &mut starts));
    assert_eq!(outcome, Ok(Outcome { commands: 1, collected: 36 }));
    assert_eq!(response[..44], E_FULL);
    assert!(response[44..].iter().all(|&byte| byte == 0));
}

/// Feature 0 with profile 0012h, and feature 1.
const GOOD: [u8; 16] = [0, 0, 3, 4, 0, 0x12, 1, 0, 0, 1, 3, 4, 0, 0, 0, 2];

/// The finding for the good descriptors with others behind.
fn finding(more: &[u8]) -> (u8, Feature) {
    let mut descriptors = GOOD.to_vec();
    descriptors.extend_from_slice(more);
    check_descriptors(&response(0, &descriptors))
}

/// The finding for the good descriptors with one byte changed.
fn finding_with(at: usize, value: u8) -> (u8, Feature) {
    let mut descriptors = GOOD;
    descriptors[at] = value;
    check_descriptors(&response(0, &descriptors))
}

#[test]
fn checks_of_a_refused_or_cut_response() {
    assert_eq!(check_descriptors(&E_FULL[..7]), (RECEIVED_LENGTH, Feature(0)));
    assert_eq!(check_descriptors(&E_FULL[..43]), (CHECK_CUT, Feature(0)));
    let nothing = ProfileAnswer::Refused(RECEIVED_LENGTH);
    assert_eq!(check_profile(Profile(0x0009), &E_FULL[..7]), nothing);
    let cut = ProfileAnswer::Refused(CHECK_CUT);
    assert_eq!(check_profile(Profile(0x0009), &E_FULL[..43]), cut);
    assert_eq!(check_profile(Profile(0x0000), &E_FULL[..43]), cut);
}

#[test]
fn missing_features() {
    assert_eq!(check_descriptors(&response(0, &[])), (FINDING_MISSING, Feature(0)));
    assert_eq!(check_descriptors(&response(0, &GOOD[8..])), (FINDING_MISSING, Feature(0)));
    assert_eq!(check_descriptors(&response(0, &GOOD[..8])), (FINDING_MISSING, Feature(1)));
    // Missing features come before what is wrong with the others.
    assert_eq!(check_descriptors(&response(0, &[0, 0, 0xFF, 0])), (FINDING_MISSING, Feature(1)));
}

#[test]
fn findings_in_flags() {
    assert_eq!(finding(&[]), (ACCEPTED, Feature(0)));
    assert_eq!(check_descriptors(&E_FULL), (ACCEPTED, Feature(0)));
    assert_eq!(finding_with(2, 0x43), (FINDING_FLAGS, Feature(0)));
    assert_eq!(finding_with(10, 0x07), (ACCEPTED, Feature(0)));
    assert_eq!(finding_with(10, 0x3E), (FINDING_PERSISTENT, Feature(1)));
    assert_eq!(finding_with(10, 0x02), (FINDING_PERSISTENT, Feature(1)));
    assert_eq!(finding_with(10, 0x01), (FINDING_NOT_BOTH, Feature(1)));
    assert_eq!(finding_with(2, 0x00), (FINDING_NOT_BOTH, Feature(0)));
    assert_eq!(finding(&[0, 2, 1, 4, 0, 0, 0, 0]), (FINDING_NOT_BOTH, Feature(2)));
    assert_eq!(finding(&[0, 3, 1, 4, 0, 0, 0, 0]), (FINDING_NOT_BOTH, Feature(3)));
    // Length comes before the flags that must be 1, and these before the reserved bits.
    assert_eq!(finding(&[0, 3, 1, 0]), (FINDING_LENGTH, Feature(3)));
    assert_eq!(finding(&[0, 3, 1, 4, 0x10, 0, 0, 0]), (FINDING_NOT_BOTH, Feature(3)));
    assert_eq!(finding(&[0, 4, 1, 0]), (ACCEPTED, Feature(0)));
    // Other features have only the first two rules.
    assert_eq!(finding(&[0x12, 0x34, 0x82, 4, 1, 2, 3, 4]), (FINDING_FLAGS, Feature(0x1234)));
    assert_eq!(finding(&[0x12, 0x34, 0x02, 4, 1, 2, 3, 4]), (FINDING_PERSISTENT, Feature(0x1234)));
    assert_eq!(finding(&[0x12, 0x34, 0x03, 4, 1, 2, 3, 4]), (ACCEPTED, Feature(0)));
}

#[test]
fn findings_in_lengths() {
    let wrong = |feature: u8| (FINDING_LENGTH, Feature(u16::from(feature)));
    assert_eq!(finding(&[0, 2, 0, 0]), wrong(0x02));
    assert_eq!(finding(&[0, 3, 3, 0]), wrong(0x03));
    assert_eq!(finding(&[0, 0x1F, 1, 4, 0, 0, 0, 0]), wrong(0x1F));
    for feature in [0x21, 0x26, 0x2D, 0x2E, 0x2F] {
        assert_eq!(finding(&[0, feature, 1, 0]), wrong(feature));
        assert_eq!(finding(&[0, feature, 1, 8, 0, 0, 0, 0, 0, 0, 0, 0]), wrong(feature));
        assert_eq!(finding(&[0, feature, 1, 4, 0, 0, 0, 0]), (ACCEPTED, Feature(0)));
    }
    for length in [0, 4, 8, 16, 252] {
        let mut bytes = vec![0, 0x20, 1, length];
        bytes.resize(4 + usize::from(length), 0);
        assert_eq!(finding(&bytes), wrong(0x20));
    }
    let random = [0, 0x20, 1, 12, 0, 1, 2, 3, 0, 0, 8, 0, 0, 16, 1, 0];
    assert_eq!(finding(&random), (ACCEPTED, Feature(0)));
    // An empty profile list is legal.
    assert_eq!(check_descriptors(&response(0, &[0, 0, 3, 0, 0, 1, 3, 4, 9, 9, 9, 9])).0, ACCEPTED);
}

#[test]
fn findings_in_link_sizes() {
    let with_links = |n: u8, body: usize, at: usize| {
        let mut bytes = vec![0, 0x21, 1, body as u8, 0, 0, 0, n];
        bytes.resize(4 + body, 0);
        bytes[at] |= 1;
        finding(&bytes).0
    };
    for n in 0..=255 {
        let wanted = 4 + (usize::from(n) + 3) / 4 * 4;
        for body in (4..=252).step_by(4) {
            let expected = if body == wanted { ACCEPTED } else { FINDING_LENGTH };
            assert_eq!(with_links(n, body, 1), expected);
        }
    }
    assert_eq!(with_links(5, 12, 8), ACCEPTED);
    assert_eq!(with_links(5, 12, 12), ACCEPTED);
    assert_eq!(with_links(5, 12, 13), FINDING_RESERVED);
    assert_eq!(with_links(5, 12, 15), FINDING_RESERVED);
    for at in 4..7 {
        assert_eq!(with_links(5, 12, at), FINDING_RESERVED);
    }
}

#[test]
fn findings_with_a_removable_medium() {
    let removable = [0, 3, 3, 4, 0x29, 0, 0, 0];
    for feature in [0x1F, 0x20, 0x21, 0x26, 0x2D, 0x2E, 0x2F] {
        let length = match feature {
            0x1F => 0,
            0x20 => 12,
            _ => 4,
        };
        let mut bytes = vec![0, feature, 3, length];
        bytes.resize(4 + usize::from(length), 0);
        assert_eq!(finding(&bytes), (ACCEPTED, Feature(0)));
        let both = [&removable[..], &bytes[..]].concat();
        assert_eq!(finding(&both), (FINDING_REMOVABLE, Feature(u16::from(feature))));
    }
    let other = [&removable[..], &[0, 0x23, 3, 0][..]].concat();
    assert_eq!(finding(&other), (ACCEPTED, Feature(0)));
}

#[test]
fn findings_in_reserved_bits() {
    // Which bits of each body may be 1, from the paper's table.
    let masks: [(u8, u8, u8, u32); 7] = [
        (0x01, 3, 0xFF, 0x00FF_FFFF),
        (0x02, 3, 0x01, 0),
        (0x03, 3, 0b1110_1101, 0),
        (0x26, 1, 0xFF, 0x00FF_FFFF),
        (0x2D, 1, 0b0000_0111, 0),
        (0x2E, 1, 0b0011_1111, 0x00FF_FFFF),
        (0x2F, 1, 0b0000_0100, 0),
    ];
    for (feature, flags, first, rest) in masks {
        let mask = u32::from(first) << 24 | rest;
        for bit in 0..32 {
            // SAO stays set where it may be, so that rule 37 is silent.
            let sao = if feature == 0x2E { 0x2000_0000 } else { 0 };
            let body = (1_u32 << bit) | sao;
            let mut bytes = vec![0, feature, flags, 4];
            bytes.extend_from_slice(&body.to_be_bytes());
            let descriptors =
                if feature == 1 { [&GOOD[..8], &bytes].concat() } else { [&GOOD[..], &bytes].concat() };
            let expected = if body & !mask == 0 {
                (ACCEPTED, Feature(0))
            } else {
                (FINDING_RESERVED, Feature(u16::from(feature)))
            };
            assert_eq!(check_descriptors(&response(0, &descriptors)), expected);
        }
    }
    // 0020h: any bit up to byte 13, then one bit, then none.
    for bit in 0..96 {
        let mut bytes = vec![0, 0x20, 1, 12];
        bytes.resize(16, 0);
        bytes[4 + bit / 8] = 1 << (bit % 8);
        let expected = if bit <= 80 { (ACCEPTED, Feature(0)) } else { (FINDING_RESERVED, Feature(0x20)) };
        assert_eq!(finding(&bytes), expected);
    }
    assert_eq!(finding_with(6, 0x02), (FINDING_RESERVED, Feature(0)));
    assert_eq!(finding_with(6, 0x80), (FINDING_RESERVED, Feature(0)));
    assert_eq!(finding_with(7, 0x01), (FINDING_RESERVED, Feature(0)));
}

#[test]
fn findings_with_a_version() {
    // Each feature of the table and its least length; 0021h counts 5 link sizes, 3 pad bytes with them.
    let rows: [(u8, u8); 11] = [
        (0x00, 0),
        (0x01, 4),
        (0x02, 4),
        (0x03, 4),
        (0x1F, 0),
        (0x20, 12),
        (0x21, 12),
        (0x26, 4),
        (0x2D, 4),
        (0x2E, 4),
        (0x2F, 4),
    ];
    for (feature, least) in rows {
        for version in 0..16 {
            for length in (0..=least + 8).step_by(4) {
                // All ones breaks 36 nearly everywhere; byte 7 is 5.
                let mut bytes = vec![0, feature, 3 | version << 2, length];
                bytes.resize(4 + usize::from(length), 0xFF);
                if length >= 4 {
                    bytes[7] = 5;
                }
                let list = if feature == 0 { &[] } else { &GOOD[..8] };
                let core = if feature == 1 { &[] } else { &GOOD[8..] };
                let all = if feature == 0 { [&bytes, core].concat() } else { [list, core, &bytes].concat() };
                let (number, named) = check_descriptors(&response(0, &all));
                let expected = if length < least || version == 0 && length > least && feature != 0 {
                    FINDING_LENGTH
                } else if version > 0 || [0x01, 0x26, 0x1F].contains(&feature) || length == 0 {
                    ACCEPTED
                } else {
                    FINDING_RESERVED
                };
                assert_eq!(number, expected, "{:02X} {} {}", feature, version, length);
                assert_eq!(named, Feature(if number == ACCEPTED { 0 } else { u16::from(feature) }));
            }
        }
    }
    // Neither 37 nor 39 with a Version, and still 33, 34, 32 and 35.
    assert_eq!(finding(&[0, 0x2E, 5, 4, 0x1F, 0, 0, 1]), (ACCEPTED, Feature(0)));
    assert_eq!(finding(&[0, 0x2E, 0x45, 4, 0x1F, 0, 0, 1]), (FINDING_FLAGS, Feature(0x2E)));
    assert_eq!(finding(&[0, 0x2E, 6, 4, 0x1F, 0, 0, 1]), (FINDING_PERSISTENT, Feature(0x2E)));
    assert_eq!(finding(&[0, 2, 5, 4, 0, 0, 0, 0]), (FINDING_NOT_BOTH, Feature(2)));
    assert_eq!(finding(&[0, 3, 7, 4, 0, 0, 0, 0, 0, 0x1F, 7, 0]), (FINDING_REMOVABLE, Feature(0x1F)));
    let list = [0, 0, 7, 4, 0, 0, 0, 0, 0, 1, 3, 4, 0, 0, 0, 2];
    assert_eq!(check_descriptors(&response(0, &list)), (ACCEPTED, Feature(0)));
    // 0021h without byte 7 is too short, whatever its Version, and N counts.
    assert_eq!(finding(&[0, 0x21, 5, 0]), (FINDING_LENGTH, Feature(0x21)));
    assert_eq!(finding(&[0, 0x21, 5, 4, 0, 0, 0, 1]), (FINDING_LENGTH, Feature(0x21)));
    assert_eq!(finding(&[0, 0x21, 5, 8, 0, 0, 0, 1, 1, 1, 1, 1]), (ACCEPTED, Feature(0)));
    // Other features have only the first two rules, with a Version too.
    assert_eq!(finding(&[0x12, 0x34, 0x3D, 4, 1, 2, 3, 4]), (ACCEPTED, Feature(0)));
}

#[test]
fn findings_in_cue_sheets_and_profiles() {
    assert_eq!(finding(&[0, 0x2E, 1, 4, 0x1F, 0, 0, 1]), (FINDING_CUE_SHEET, Feature(0x2E)));
    assert_eq!(finding(&[0, 0x2E, 1, 4, 0x1F, 1, 0, 0]), (FINDING_CUE_SHEET, Feature(0x2E)));
    assert_eq!(finding(&[0, 0x2E, 1, 4, 0x20, 1, 2, 3]), (ACCEPTED, Feature(0)));
    assert_eq!(finding_with(5, 0x00), (FINDING_PROFILE, Feature(0)));
    // A reserved bit in a later profile comes before number 0 in an earlier one.
    let list = [0, 0, 3, 8, 0, 0, 1, 0, 0, 1, 2, 0, 0, 1, 3, 4, 0, 0, 0, 2];
    assert_eq!(check_descriptors(&response(0, &list)), (FINDING_RESERVED, Feature(0)));
}

/// What each profile needs, as the tables' feature numbers; 0000h asks for the archive subset.
const NEEDED: [(u16, &[u16]); 6] = [
    (0xFFFF, &[0x0000, 0x0001]),
    (0x0002, &[0x0000, 0x0001, 0x0002, 0x0003, 0x0010, 0x0020, 0x0023, 0x0024, 0x0100, 0x0101, 0x0105]),
    (0x0008, &[0x0000, 0x0001, 0x0002, 0x0003, 0x0010, 0x001E, 0x0100, 0x0105]),
    (0x0010, &[0x0000, 0x0001, 0x0002, 0x0003, 0x0010, 0x001F, 0x0100, 0x0105, 0x0107]),
    (0x0012, &DVD_RAM),
    (0x0000, &DVD_RAM),
];

const DVD_RAM: [u16; 13] =
    [0x0000, 0x0001, 0x0002, 0x0003, 0x0010, 0x001F, 0x0020, 0x0023, 0x0024, 0x0100, 0x0101, 0x0105, 0x0107];

/// A descriptor of these features: number, flags, body.
type Part = (u16, u8, Vec<u8>);

/// Descriptors of these features that have what any profile asks.
fn parts(needed: &[u16]) -> Vec<Part> {
    let body = |feature| match feature {
        0x0003 => vec![1, 0, 0, 0],
        0x0010 => vec![0, 0, 8, 0, 0, 16, 1, 0],
        _ => vec![],
    };
    needed.iter().map(|&feature| (feature, 1, body(feature))).collect()
}

/// What is said of a profile and these descriptors.
fn judged(profile: u16, parts: &[Part]) -> ProfileAnswer {
    let mut bytes = Vec::new();
    for (feature, flags, body) in parts {
        bytes.extend_from_slice(&feature.to_be_bytes());
        bytes.extend_from_slice(&[*flags, body.len() as u8]);
        bytes.extend_from_slice(body);
    }
    check_profile(Profile(profile), &response(0, &bytes))
}

/// The same with another descriptor of a feature, or with one more.
fn judged_with(profile: u16, needed: &[u16], part: Part) -> ProfileAnswer {
    let mut parts = parts(needed);
    parts.retain(|other| other.0 != part.0);
    parts.push(part);
    parts.sort();
    judged(profile, &parts)
}

#[test]
fn profiles_without_a_table() {
    for profile in (0..=0xFFFF).filter(|profile| NEEDED.iter().all(|needed| needed.0 != *profile)) {
        assert_eq!(check_profile(Profile(profile), &E_FULL), ProfileAnswer::NoTable);
    }
    assert_eq!(check_profile(Profile(0x0009), &E_FULL).fields(), (40, 0, Feature(0)));
}

#[test]
fn profiles_need_their_features() {
    for (profile, needed) in NEEDED {
        assert_eq!(judged(profile, &parts(needed)), ProfileAnswer::Conforms);
        for &feature in needed {
            let left: Vec<_> = parts(needed).into_iter().filter(|part| part.0 != feature).collect();
            assert_eq!(judged(profile, &left), ProfileAnswer::Broken(Feature(feature), Wrong::Absent));
        }
        if needed.contains(&0x0010) {
            let readable = |wrong| ProfileAnswer::Broken(Feature(0x0010), wrong);
            let with = |body: &[u8]| judged_with(profile, needed, (0x0010, 0, body.to_vec()));
            assert_eq!(with(&[0, 0, 8, 0, 0, 16, 0xFE, 0]), readable(Wrong::BitClear));
            assert_eq!(with(&[0xFF; 4]), readable(Wrong::TooShort));
            assert_eq!(with(&[0xFF; 12]), ProfileAnswer::Conforms);
        }
    }
}

#[test]
fn the_archive_subset() {
    let broken = |feature, wrong| ProfileAnswer::Broken(Feature(feature), wrong);
    let with =
        |part: Part| (judged_with(0x0000, &DVD_RAM, part.clone()), judged_with(0x0012, &DVD_RAM, part));
    let right = ProfileAnswer::Conforms;
    assert_eq!(with((0x0003, 3, vec![0xFE, 0xFF, 0xFF, 0xFF])), (broken(0x0003, Wrong::BitClear), right));
    assert_eq!(with((0x0003, 3, vec![])), (broken(0x0003, Wrong::TooShort), right));
    assert_eq!(with((0x0020, 2, vec![])), (broken(0x0020, Wrong::NotCurrent), right));
    assert_eq!(with((0x0024, 0, vec![])), (broken(0x0024, Wrong::NotCurrent), right));
    assert_eq!(with((0x0024, 0, vec![0; 36])), (broken(0x0024, Wrong::NotCurrent), right));
    assert_eq!(with((0x0023, 0, vec![])), (right, right));
    assert_eq!(with((0x0100, 3, vec![0; 32])), (right, right));
    assert_eq!(with((0x0100, 3, vec![0; 36])), (broken(0x0100, Wrong::TooLong), right));
    assert_eq!(with((0x0055, 3, vec![0; 32])), (right, right));
    assert_eq!(with((0x0055, 3, vec![0; 36])), (broken(0x0055, Wrong::TooLong), right));
    assert_eq!(with((0x0000, 3, vec![0; 36])), (broken(0x0000, Wrong::TooLong), right));
}

#[test]
fn finding_a_descriptor() {
    let fresh = E_FULL;
    let mut kept = E_FULL;
    kept[31] = 0;
    let same = |part: &[u8], whole: &[u8]| std::ptr::eq(part, whole);
    assert!(same(find(Feature(3), &fresh, &kept), &fresh[28..36]));
    assert!(same(find(Feature(0), &fresh, &kept), &fresh[8..20]));
    assert!(same(find(Feature(0x0105), &fresh[..36], &fresh), &fresh[40..44]));
    // A cut fresh response still gives what is whole in it.
    assert!(same(find(Feature(3), &fresh[..36], &kept), &fresh[28..36]));
    let kept = E_FULL;
    assert!(same(find(Feature(3), &fresh[..35], &kept), &kept[28..36]));
    assert!(same(find(Feature(0x001F), &fresh[..7], &kept), &kept[36..40]));
    assert!(find(Feature(2), &fresh, &kept).is_empty());
    assert!(find(Feature(3), &fresh[..7], &kept[..7]).is_empty());
    // A response refused at its end holds none, not even the good ones before.
    let mut bad = E_FULL;
    bad[40] = 0;
    assert!(find(Feature(3), &bad, &bad).is_empty());
}
