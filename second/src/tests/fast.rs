//! The fast functions against the plain ones: the same answers and bytes, for good inputs and for damaged ones.

use std::collections::BTreeSet;

use super::cross::make_sheet;
use super::{ask, command, response, told, Numbers, E, E_FULL, FILL};
use crate::bench::{bench, Buffers, Outcome};
use crate::convert::rearranged;
use crate::refusal::Refusal;
use crate::sheet::Layout::{Columns, Rows};
use crate::sheet::{build, ListedProfile, Sheet};
use crate::sweep::Record;
use crate::wire::{Descriptor, Feature, Profile};
use crate::{checks, command as plain_command, convert, fast, find, import, lister, reading, rom, sheet};

/// The numbers that a function answered with; a test sees that none is left out.
#[derive(Default)]
struct Seen(BTreeSet<u8>);

impl Seen {
    /// Sees that both sides are the same, and notes the number.
    fn same<T: PartialEq + std::fmt::Debug>(&mut self, number: u8, plain: T, fast: T) {
        assert_eq!(plain, fast);
        self.0.insert(number);
    }

    /// Sees that all of these numbers came up, and no others.
    fn are(&self, numbers: impl IntoIterator<Item = u8>) {
        assert_eq!(self.0, numbers.into_iter().collect());
    }
}

/// Both checks of a sheet.
fn same_check(seen: &mut Seen, bytes: &[u8]) {
    let answer = sheet::check(Rows, bytes);
    seen.same(told(answer).0, answer, fast::sheet::check(bytes));
    // Both layouts of one sheet get the same.
    let columns = rearranged(Columns, Rows, bytes);
    assert_eq!(sheet::check(Columns, &columns), answer);
    assert_eq!(fast::columns::check(&columns), answer);
}

/// Both answers to a command, with the sheet's check and, where it is accepted, without.
fn same_answer(seen: &mut Seen, bytes: &[u8], command: &[u8], room: usize) {
    let (mut plain, mut fast) = (vec![FILL; room], vec![FILL; room]);
    let answer = plain_command::respond(Rows, bytes, command, &mut plain);
    seen.same(told(answer).0, answer, fast::command::respond(bytes, command, &mut fast));
    assert!(plain == fast);
    if let Ok(sheet) = Sheet::accept(Rows, bytes) {
        let answer = plain_command::respond_checked(sheet, command, &mut plain);
        let mut fast = vec![FILL; room];
        assert_eq!(answer, fast::command::respond_checked(bytes, command, &mut fast));
        assert!(plain == fast);
    }
    let columns = rearranged(Columns, Rows, bytes);
    let (mut other, mut fast) = (vec![FILL; room], vec![FILL; room]);
    assert_eq!(plain_command::respond(Columns, &columns, command, &mut other), answer);
    assert_eq!(fast::columns::respond(&columns, command, &mut fast), answer);
    assert!(plain == other && plain == fast);
    if let Ok(sheet) = Sheet::accept(Columns, &columns) {
        let (mut other, mut fast) = (vec![FILL; room], vec![FILL; room]);
        let answer = plain_command::respond_checked(sheet, command, &mut other);
        assert_eq!(answer, fast::columns::respond_checked(&columns, command, &mut fast));
        assert!(plain == other && plain == fast);
    }
}

/// The rooms of a bench sweep's buffers.
type Rooms = [usize; 3];

/// Both bench sweeps.
fn same_sweep(seen: &mut Seen, bytes: &[u8], rt: u8, allocation: u16, rooms: Rooms) {
    let [response, collected, starts] = rooms;
    // What a sweep gives, and what it leaves in its buffers.
    let left = |sweep: &dyn Fn(Buffers) -> Result<Outcome, Refusal>| {
        let mut lent = (vec![FILL; response], vec![FILL; collected], vec![0xA5A5; starts]);
        (sweep(Buffers::new(&mut lent.0, &mut lent.1, &mut lent.2)), lent)
    };
    let columns = rearranged(Columns, Rows, bytes);
    let plain = left(&|buffers| bench(Rows, bytes, rt, allocation, buffers));
    let fast = left(&|buffers| fast::bench::bench(bytes, rt, allocation, buffers));
    seen.same(told(plain.0).0, plain.0, fast.0);
    assert!(plain == fast);
    assert!(plain == left(&|buffers| bench(Columns, &columns, rt, allocation, buffers)));
    assert!(plain == left(&|buffers| fast::columns::bench(&columns, rt, allocation, buffers)));
}

/// Both readings.
fn same_reading(seen: &mut Seen, rt: u8, sfn: u16, received: &[u8], limit: Option<usize>) {
    let reading = reading::read(rt, Feature(sfn), received, limit);
    seen.same(reading.number, reading, fast::reading::read(rt, Feature(sfn), received, limit));
}

/// Both checks of a response's descriptors.
fn same_descriptors(seen: &mut Seen, received: &[u8]) {
    let answer = checks::check_descriptors(received);
    seen.same(answer.0, answer, fast::checks::check_descriptors(received));
}

/// Both checks of a response for every profile that has a table, and for one that has none.
fn same_profiles(seen: &mut Seen, received: &[u8]) {
    for profile in [0x0000, 0x0002, 0x0008, 0x0009, 0x0010, 0x0012, 0xFFFF].map(Profile) {
        let answer = checks::check_profile(profile, received);
        seen.same(answer.fields().0, answer, fast::checks::check_profile(profile, received));
    }
}

/// Both imports.
fn same_import(seen: &mut Seen, capture: &[u8], room: usize) {
    let (mut plain, mut fast) = (vec![FILL; room], vec![FILL; room]);
    let answer = import::import(capture, &mut plain);
    seen.same(told(answer).0, answer, fast::import::import(capture, &mut fast));
    assert!(plain == fast);
}

/// Both checks of an image and both answers from it and, where it is accepted, those without the check.
fn same_image(seen: &mut Seen, image: &[u8], command: &[u8], room: usize) {
    let checked = rom::check(image);
    assert_eq!(checked, fast::rom::check(image));
    let (mut plain, mut fast) = (vec![FILL; room], vec![FILL; room]);
    let answer = rom::respond(image, command, &mut plain);
    seen.same(told(answer).0, answer, fast::rom::respond(image, command, &mut fast));
    assert!(plain == fast);
    if checked.is_ok() {
        let mut fast = vec![FILL; room];
        assert_eq!(answer, fast::rom::respond_checked(image, command, &mut fast).map_err(Into::into));
        assert!(plain == fast);
    }
}

/// Both conversions, there and back.
fn same_conversion(seen: &mut Seen, rows: &[u8], room: usize) {
    let columns = rearranged(Columns, Rows, rows);
    let (mut plain, mut fast) = (vec![FILL; room], vec![FILL; room]);
    let answer = convert::convert(Columns, Rows, rows, &mut plain);
    seen.same(told(answer).0, answer, fast::convert::to_columns(rows, &mut fast));
    assert!(plain == fast);
    let answer = convert::convert(Rows, Columns, &columns, &mut plain);
    seen.same(told(answer).0, answer, fast::convert::to_rows(&columns, &mut fast));
    assert!(plain == fast);
}

/// Both searches for a descriptor in two responses; what is noted is whether one was found.
fn same_find(seen: &mut Seen, feature: u16, fresh: &[u8], kept: &[u8]) {
    let found = find::find(Feature(feature), fresh, kept);
    let other = fast::find::find(Feature(feature), fresh, kept);
    seen.same(u8::from(!found.is_empty()), found, other);
    assert!(found.is_empty() || found.as_ptr() == other.as_ptr());
}

/// Both listings, in a room; what is noted is whether it has room for all.
fn same_list(seen: &mut Seen, received: &[u8], room: usize) {
    let mut whole = lister::list(received);
    let mut text = vec![FILL; room];
    let count = fast::lister::list(received, &mut text);
    whole.truncate(room);
    seen.same(u8::from(whole.len() < room), &whole[..], &text[..count]);
    assert!(text[count..].iter().all(|&byte| byte == FILL));
}

/// Both takings of a response.
fn same_take(seen: &mut Seen, record: Record, received: &[u8], room: usize) {
    let (mut plain, mut fast) = (vec![FILL; room], vec![FILL; room]);
    let answer = record.take(received, &mut plain);
    seen.same(answer.0, answer, fast::sweep::take(record, received, &mut fast));
    assert!(plain == fast);
}

/// Changes up to three bytes, and sometimes the length.
fn damage(numbers: &mut Numbers, bytes: &mut Vec<u8>) {
    for _ in 0..numbers.below(4) {
        if !bytes.is_empty() {
            let at = numbers.below(bytes.len() as u64) as usize;
            bytes[at] = [0, 1, 2, 3, 4, numbers.next() as u8][numbers.below(6) as usize];
        }
    }
    match numbers.below(8) {
        0 => bytes.truncate(numbers.below(bytes.len() as u64 + 1) as usize),
        1 => bytes.resize(bytes.len() + numbers.below(9) as usize, 0),
        _ => {}
    }
}

/// Features in a row with bodies of one length.
fn in_a_row(count: u16, length: usize) -> Vec<u8> {
    let body: Vec<u8> = (0..length).map(|at| at as u8).collect();
    let features = (1..=count).map(|number| (Feature(number), [3, 1, 0][usize::from(number) % 3]));
    let descriptors: Vec<Descriptor> =
        features.map(|(feature, flags)| Descriptor { feature, flags, body: &body }).collect();
    build(&[ListedProfile { number: Profile(0x0012), current: true }], &descriptors).unwrap()
}

/// A response with every feature that the checks have a rule for, which they find nothing in.
fn ruled() -> Vec<u8> {
    let parts: [(u16, u8, &[u8]); 19] = [
        (0x0000, 3, &[0, 0x12, 1, 0, 0, 0x10, 0, 0]),
        (0x0001, 3, &[0, 0, 0, 2]),
        (0x0002, 3, &[1, 0, 0, 0]),
        (0x0003, 3, &[0x29, 0, 0, 0]),
        (0x0010, 1, &[0, 0, 8, 0, 0, 16, 1, 0]),
        (0x001F, 1, &[]),
        (0x0020, 1, &[1, 2, 3, 4, 0, 0, 8, 0, 0, 16, 1, 0]),
        (0x0021, 1, &[0, 0, 0, 5, 9, 8, 7, 6, 5, 0, 0, 0]),
        (0x0023, 1, &[]),
        (0x0024, 1, &[]),
        (0x0026, 1, &[0xFF, 0, 0, 1]),
        (0x002D, 1, &[7, 0, 0, 0]),
        (0x002E, 1, &[0x3F, 1, 2, 3]),
        (0x002F, 1, &[4, 0, 0, 0]),
        (0x0100, 1, &[]),
        (0x0101, 1, &[]),
        (0x0105, 3, &[]),
        (0x0107, 1, &[5, 6, 7, 8]),
        (0xFFFF, 1, &[1, 2, 3, 4]),
    ];
    let mut bytes = Vec::new();
    for (feature, flags, body) in parts {
        bytes.extend_from_slice(&feature.to_be_bytes());
        bytes.extend_from_slice(&[flags, body.len() as u8]);
        bytes.extend_from_slice(body);
    }
    response(0x0012, &bytes)
}

/// Each feature of the ruled response with each Version, body length and two fills of it, and two other flags.
fn each_version(see: &mut dyn FnMut(&[u8])) {
    let whole = ruled();
    let mut at = 8;
    while at < whole.len() {
        let next = at + 4 + usize::from(whole[at + 3]);
        for version in 0..16 {
            for flags in [whole[at + 2], 1, 3] {
                for length in (0..=24).step_by(4) {
                    for fill in [0, 0xFF] {
                        let mut bytes = whole[8..at + 2].to_vec();
                        bytes.extend_from_slice(&[flags | version << 2, length]);
                        bytes.extend(vec![fill; usize::from(length)]);
                        bytes.extend_from_slice(&whole[next..]);
                        see(&response(0x0012, &bytes));
                    }
                }
            }
        }
        at = next;
    }
}

/// The ruled response with up to two features left out and each bit flipped.
fn each_ruled(see: &mut dyn FnMut(&[u8])) {
    let whole = ruled();
    let mut responses = vec![whole.clone()];
    for left_out in [8..20, 20..28, 28..36, 36..44, 44..56, 56..60, 20..44] {
        let mut rest = whole.clone();
        rest.drain(left_out);
        let data_length = rest.len() as u32 - 4;
        rest[..4].copy_from_slice(&data_length.to_be_bytes());
        responses.push(rest);
    }
    for mut bytes in responses {
        for bit in 0..8 * bytes.len() {
            bytes[bit / 8] ^= 1 << (bit % 8);
            see(&bytes);
            bytes[bit / 8] ^= 1 << (bit % 8);
        }
        see(&bytes);
    }
}

/// A made-up command, some of them in a packet, with any pads, and some damaged; and the room for its response.
fn made_up_command(numbers: &mut Numbers) -> (Vec<u8>, usize) {
    let (rt, sfn) = (numbers.below(3) as u8, numbers.below(70) as u16);
    let allocation = [numbers.below(300) as u16, 65_535][numbers.below(2) as usize];
    let mut command = command(rt, [0, sfn][numbers.below(2) as usize], allocation).to_vec();
    if numbers.below(2) == 0 {
        command.extend([numbers.below(256) as u8, numbers.below(256) as u8]);
    }
    if numbers.below(4) == 0 {
        damage(numbers, &mut command);
    }
    (command, [numbers.below(300) as usize, 8_000][numbers.below(2) as usize])
}

#[test]
fn sheets_and_commands() {
    let mut numbers = Numbers(0x5EED_0000_0000_0001);
    let (mut checked, mut answered, mut converted) = (Seen::default(), Seen::default(), Seen::default());
    for _ in 0..8_000 {
        let most = [4, 24][numbers.below(2) as usize];
        let mut bytes = make_sheet(&mut numbers, most);
        if numbers.below(2) == 0 {
            damage(&mut numbers, &mut bytes);
        }
        same_check(&mut checked, &bytes);
        let room = (bytes.len() + numbers.below(9) as usize).saturating_sub(numbers.below(3) as usize);
        same_conversion(&mut converted, &bytes, room);
        for _ in 0..4 {
            let (command, room) = made_up_command(&mut numbers);
            same_answer(&mut answered, &bytes, &command, room);
        }
    }
    for bit in 0..8 * E.len() {
        let mut bytes = E;
        bytes[bit / 8] ^= 1 << (bit % 8);
        same_check(&mut checked, &bytes);
    }
    // Profiles in no order, and with one number twice.
    for (first, twice) in [(1, false), (5, false), (17, false), (40, true), (62, true)] {
        let number = |index: u16| Profile(1 + (index * first) % 61 + 61 * (index / 61));
        let mut listed: Vec<_> =
            (0..63).map(|index| ListedProfile { number: number(index), current: false }).collect();
        if twice {
            listed[first as usize].number = number(first / 2);
        }
        same_check(&mut checked, &build(&listed, &[]).unwrap());
    }
    // One profile too many, with all else as it should be.
    let listed = |number| ListedProfile { number: Profile(number), current: number == 64 };
    for most in [63, 64] {
        same_check(&mut checked, &build(&(1..=most).map(listed).collect::<Vec<_>>(), &[]).unwrap());
    }
    checked.are((0..=8).chain([44]));
    converted.are((0..=1).chain(3..=8).chain([42, 44]));
    answered.are((0..=1).chain(3..=12).chain([44]));
}

#[test]
fn images() {
    let mut numbers = Numbers(0x5EED_0000_0000_0004);
    let mut seen = Seen::default();
    for _ in 0..12_000 {
        let most = [4, 24][numbers.below(2) as usize];
        let mut image = ask(&make_sheet(&mut numbers, most), 0, 0, 65_535).1;
        if numbers.below(2) == 0 {
            damage(&mut numbers, &mut image);
        }
        for _ in 0..4 {
            let (command, room) = made_up_command(&mut numbers);
            same_image(&mut seen, &image, &command, room);
        }
    }
    seen.are((14..=18).chain([0, 3, 5, 20, 29, 41, 44]).chain(9..=12));
}

#[test]
fn flags() {
    // Where the flags of E's features stand in the sheet and in its full response.
    let in_sheet = [6, 14, 22, 30];
    let in_response = [22, 30, 38, 42];
    let (mut in_sheets, mut in_captures) = (Seen::default(), Seen::default());
    for flags in 0..=255 {
        for feature in 0..4 {
            // Alone, and with other flags that are not legal behind them.
            for last in [3, 2, 4, 0x40] {
                let mut bytes = E;
                bytes[in_sheet[3]] = last;
                bytes[in_sheet[feature]] = flags;
                same_check(&mut in_sheets, &bytes);
                same_answer(&mut in_sheets, &bytes, &command(0, 0, 44), 44);
                same_sweep(&mut in_sheets, &bytes, 0, 44, [44, 36, 1]);
                let mut capture = E_FULL;
                capture[in_response[3]] = last;
                capture[in_response[feature]] = flags;
                same_import(&mut in_captures, &capture, 52);
            }
        }
    }
    in_sheets.are([0, 5, 44]);
    in_captures.are([0, 5, 44]);
}

#[test]
fn readings_checks_and_imports() {
    let mut numbers = Numbers(0x5EED_0000_0000_0002);
    let (mut read, mut found) = (Seen::default(), Seen::default());
    let (mut conforming, mut imported) = (Seen::default(), Seen::default());
    for _ in 0..12_000 {
        let rt = [0, 0, 1, 2, 3][numbers.below(5) as usize];
        let sfn = [0, 0, 1, 9][numbers.below(4) as usize];
        let mut received = ask(&make_sheet(&mut numbers, 8), rt % 3, sfn, 4_000).1;
        if numbers.below(4) > 0 {
            damage(&mut numbers, &mut received);
        }
        let limit = [None, Some(numbers.below(200) as usize)][numbers.below(2) as usize];
        same_reading(&mut read, rt, sfn, &received, limit);
        same_descriptors(&mut found, &received);
        same_profiles(&mut conforming, &received);
        let room = [numbers.below(100) as usize, 8_000][numbers.below(2) as usize];
        same_import(&mut imported, &received, room);
    }
    each_ruled(&mut |received| {
        same_reading(&mut read, 0, 0, received, None);
        same_descriptors(&mut found, received);
        same_profiles(&mut conforming, received);
        same_import(&mut imported, received, 400);
    });
    each_version(&mut |received| same_descriptors(&mut found, received));
    for cut in 0..E_FULL.len() {
        same_reading(&mut read, 0, 0, &E_FULL[..cut], None);
        same_import(&mut imported, &E_FULL[..cut], 52);
    }
    read.are((13..=20).chain([0]));
    found.are((14..=18).chain([0, 20]).chain(29..=37).chain([39]));
    conforming.are((14..=18).chain([0, 20, 29, 40]));
    imported.are((14..=18).chain([0, 3, 5, 20, 29, 41, 42, 44]));
}

#[test]
fn searches_listings_and_takings() {
    let mut numbers = Numbers(0x5EED_0000_0000_0005);
    let (mut found, mut listed, mut taken) = (Seen::default(), Seen::default(), Seen::default());
    for _ in 0..12_000 {
        let (rt, sfn) = (numbers.below(2) as u8, [0, 0, 1, 9][numbers.below(4) as usize]);
        let allocation = [numbers.below(200) as u16, 4_000][numbers.below(2) as usize];
        let sheet = make_sheet(&mut numbers, 8);
        let (mut received, kept) = (ask(&sheet, rt, sfn, allocation).1, ask(&sheet, 0, 0, 4_000).1);
        if numbers.below(3) == 0 {
            damage(&mut numbers, &mut received);
        }
        same_find(&mut found, numbers.below(70) as u16, &received, &kept);
        let room = [numbers.below(200) as usize, 4_000][numbers.below(2) as usize];
        same_list(&mut listed, &received, room);
        let commands = [0, 1, 65_535, 65_536][numbers.below(4) as usize];
        let profile = Profile(crate::wire::be16(&received, 6) ^ u16::from(numbers.below(4) == 0));
        let rt = [rt, rt, rt, 2][numbers.below(4) as usize];
        let (collected, ended) = (numbers.below(30) as usize, numbers.below(9) == 0);
        let record = Record { rt, allocation, next: Feature(sfn), commands, collected, ended, profile };
        same_take(&mut taken, record, &received, room);
    }
    // The last feature there is, and something cut behind it.
    let last = Record { allocation: 12, ended: false, ..Record::refused() };
    same_take(&mut taken, last, &[0, 0, 0, 12, 0, 0, 0, 0, 0xFF, 0xFF, 1, 0], 4);
    found.are([0, 1]);
    listed.are([0, 1]);
    taken.are((14..=24).chain([0, 26, 27, 28, 45]));
}

#[test]
fn bench_sweeps() {
    let mut numbers = Numbers(0x5EED_0000_0000_0003);
    let mut seen = Seen::default();
    for _ in 0..4_000 {
        let mut bytes = make_sheet(&mut numbers, 40);
        if numbers.below(4) == 0 {
            damage(&mut numbers, &mut bytes);
        }
        let allocation = numbers.below(400) as u16;
        let response = (usize::from(allocation) + numbers.below(9) as usize).saturating_sub(1);
        let collected = [numbers.below(3_000) as usize, 20_000][numbers.below(2) as usize];
        let starts = [numbers.below(20) as usize, 99][numbers.below(2) as usize];
        let rt = [0, 1, 0, 1, 2][numbers.below(5) as usize];
        same_sweep(&mut seen, &bytes, rt, allocation, [response, collected, starts]);
    }
    seen.are([0, 1, 3, 4, 5, 6, 7, 8, 12, 21, 22, 23, 24, 25, 44]);
}

#[test]
fn long_ones() {
    let mut seen = Seen::default();
    for (count, length) in [(250, 252), (4_000, 4), (1_000, 8), (16_380, 0), (65_535, 0)] {
        let bytes = in_a_row(count, length);
        same_check(&mut seen, &bytes);
        for rt in 0..3 {
            for sfn in [0, count / 2, 65_535] {
                for allocation in [11, 1_000, 65_535] {
                    same_answer(&mut seen, &bytes, &command(rt, sfn, allocation), 65_534);
                }
            }
        }
        for (rt, allocation) in [(0, 300), (1, 300), (0, 65_535), (1, 65_535)] {
            same_sweep(&mut seen, &bytes, rt, allocation, [65_534, 262_152, 65_536]);
        }
        let received = ask(&bytes, 0, 0, 65_535).1;
        same_reading(&mut seen, 0, 0, &received, None);
        same_descriptors(&mut seen, &received);
        same_profiles(&mut seen, &received);
        same_import(&mut seen, &received, 140_000);
        for rt in 0..3 {
            for sfn in [0, count / 2, 65_535] {
                for allocation in [11, 1_000, 65_535] {
                    same_image(&mut seen, &received, &command(rt, sfn, allocation), 65_534);
                }
            }
        }
    }
    for rt in 0..2 {
        same_sweep(&mut seen, &in_a_row(65_535, 0), rt, 20, [65_534, 262_152, 65_536]);
    }
    seen.are([0, 29, 31, 32, 40]);
}
