//! gcf_import.

use super::{columns, images, READING};
use crate::lent::{Given, Memory};
use crate::made::captures::{
    capture_of, example, full_sheets, good_import, import_faults, put_current, random_capture,
    short_captures, spoilt,
};
use crate::made::faults::{each_faulty_response, each_pair, FLAG_FAULTS};
use crate::made::responses::{each_short, length_to_send, long_responses, random_response, sent};
use crate::made::sheets::{at_edges, body, in_a_row, profiles, random_sheet, sheet_of, short_sheets};
use crate::made::{put16, Part};
use crate::random::Random;
use crate::run::{tell_made, Cases, Input, Kind, Run, Told};
use gcf::raw;
use second::command::Request;
use second::sheet::Layout;
use second::wire::Feature;

pub const KIND: Kind = Kind { name: "gcf_import", answers, cases: Cases::Of(fixed, random) };

/// The longest response that can be complete.
const LONGEST: usize = 65_532;

/// A reading's, 29, 41, of the sheet's 3, 5 and 44, and 42.
fn answers() -> Vec<u64> {
    READING.into_iter().chain([29, 41, 3, 5, 44, 42]).collect()
}

/// Compares one import.
fn compare(run: &mut Run, response: &Given, room: usize) -> Told {
    run.compare_told(
        &[Input::Bytes("response", response), Input::Number("room", room as u64)],
        Memory::none().with_buffer(room),
        |memory| {
            let sheet = memory.first.part();
            memory.told.by(|made| raw::import(response.proved(), sheet, made))
        },
        |memory| {
            let made = second::import::import(response.plain(), memory.first.part());
            tell_made(memory, made)
        },
    )
}

/// The length of the sheet that a response gives, by the plain side; none if it is refused.
fn sheet_length(response: &[u8]) -> Option<usize> {
    second::import::import(response, &mut vec![0; 2 * response.len() + 8]).ok()
}

/// Compares with room enough, for a response that may be refused.
fn compare_roomy(run: &mut Run, response: &[u8], more: usize) -> Told {
    let given = Given::new(response);
    match sheet_length(response) {
        Some(length) => compare(run, &given, length + more),
        None => compare(run, &given, response.len() % 2_048),
    }
}

/// Compares an accepted response with just enough room, with more, with too little, and with none.
fn each_room(run: &mut Run, response: &[u8]) {
    let given = Given::new(response);
    let length = sheet_length(response).unwrap_or(0);
    for more in [0, 1, 2, 3, 9, 300] {
        let told = compare(run, &given, length + more);
        run.expect_told(told, (0, 0));
    }
    for less in [1, 2, 3, 4, 5, 8, length / 2, length - 1, length] {
        let told = compare(run, &given, length - less.min(length));
        run.expect_told(told, (42, 0));
    }
}

fn fixed(run: &mut Run) {
    each_two_faults(run);
    let mut more = 0;
    let mut see = |response: &[u8]| {
        more = (more + 1) % 3;
        compare_roomy(run, response, more);
    };
    each_faulty_response(&mut see);
    each_short(&mut see);
    long_responses().iter().for_each(|response| see(response));
    for sheet in short_sheets().iter().chain(&full_sheets()) {
        round_trip(run, sheet);
    }
    for capture in short_captures() {
        each_room(run, &capture);
        each_cut(run, &capture);
        each_bit(run, &capture);
    }
    each_two_bits(run);
    each_profile_list(run);
    each_flags(run);
    around_the_limit(run);
}

/// Each fault and each two, in the order of the numbers.
fn each_two_faults(run: &mut Run) {
    let good = good_import();
    let told = compare(run, &Given::new(&good.capture), good.room);
    run.expect_told(told, (0, 0));
    come_back(run, &good.capture);
    each_pair(&good, &import_faults(), &mut |import, wanted| {
        let told = compare(run, &Given::new(&import.capture), import.room);
        run.expect_told(told, wanted);
    });
}

/// What the proved box sends to RT 0 from 0 into so much room, with the longest allocation length.
fn proved_response(sheet: &[u8], room: usize) -> Vec<u8> {
    let command = Request { rt: 0, sfn: Feature(0), allocation: 65_535 }.bytes();
    let (mut response, mut sent) = (vec![0xA5; room], raw::Made::default());
    raw::respond(columns(Layout::Rows), sheet, &command, &mut response, &mut sent);
    response.truncate(sent.bytes as usize);
    response
}

/// What the proved import makes, with room enough.
fn proved_sheet(response: &[u8]) -> Vec<u8> {
    let (mut sheet, mut made) = (vec![0xA5; 2 * response.len() + 8], raw::Made::default());
    raw::import(response, &mut sheet, &mut made);
    sheet.truncate(made.bytes as usize);
    sheet
}

/// A sheet comes back from its response, and the response from that.
fn round_trip(run: &mut Run, sheet: &[u8]) {
    let response = proved_response(sheet, length_to_send(sheet, 0, 0));
    let told = compare_roomy(run, &response, 2);
    run.expect_told(told, (0, 0));
    let back = proved_sheet(&response);
    run.holds(back == sheet, "a sheet does not come back", &[Input::Bytes("sheet", &Given::new(sheet))]);
    come_back(run, &response);
}

/// A capture that is accepted comes back from its sheet, which the proved check accepts, and as an image it answers as that
/// sheet does.
fn come_back(run: &mut Run, capture: &[u8]) {
    let sheet = proved_sheet(capture);
    let accepted = raw::check_sheet(columns(Layout::Rows), &sheet, &mut raw::Check::default()) == 0;
    let holds = accepted && proved_response(&sheet, capture.len() + 1) == capture;
    run.holds(holds, "a capture does not come back", &[Input::Bytes("capture", &Given::new(capture))]);
    images::side_by_side(run, capture, &sheet);
}

/// Compares, and sees that a capture comes back if it is accepted.
fn compare_and_back(run: &mut Run, capture: &[u8], more: usize) -> Told {
    let told = compare_roomy(run, capture, more);
    if told.0 == 0 {
        come_back(run, capture);
    }
    told
}

/// A capture cut at each byte.
fn each_cut(run: &mut Run, capture: &[u8]) {
    for cut in 0..capture.len() {
        let told = compare_roomy(run, &capture[..cut], cut % 3);
        run.expect_told(told, (if cut < 8 { 14 } else { 29 }, 0));
    }
}

/// A capture with each bit flipped.
fn each_bit(run: &mut Run, capture: &[u8]) {
    let mut bytes = capture.to_vec();
    for bit in 0..8 * bytes.len() {
        bytes[bit / 8] ^= 1 << (bit % 8);
        compare_and_back(run, &bytes, 1 + bit % 3);
        bytes[bit / 8] ^= 1 << (bit % 8);
    }
}

/// E's response with each two bits flipped.
fn each_two_bits(run: &mut Run) {
    let mut bytes = example();
    for one in 0..8 * bytes.len() {
        bytes[one / 8] ^= 1 << (one % 8);
        for two in 0..one {
            bytes[two / 8] ^= 1 << (two % 8);
            compare_roomy(run, &bytes, 2);
            bytes[two / 8] ^= 1 << (two % 8);
        }
        bytes[one / 8] ^= 1 << (one % 8);
    }
}

/// Each count of profiles with each one current, and each value of a profile's last two bytes.
fn each_profile_list(run: &mut Run) {
    let parts = in_a_row(2, 4);
    for count in 0..=63 {
        for current in 0..=count {
            // The later ones are current too; with 0 as the first, none is.
            let listed: Vec<(u16, bool)> =
                (1..=count).map(|place| (0x1200 - place, current > 0 && place >= current)).collect();
            let sheet = sheet_of(&listed, &parts);
            round_trip(run, &sheet);
            let mut wrong = sent(&sheet, 0, 0, 65_535);
            for profile in [current, 0x1200 - count, 0x11FF, 0] {
                put16(&mut wrong, 6, profile);
                compare_and_back(run, &wrong, 2);
            }
            // The last one repeats the first.
            if count > 1 {
                wrong.copy_within(12..14, 12 + 4 * usize::from(count) - 4);
                put_current(&mut wrong);
                let told = compare_roomy(run, &wrong, 2);
                run.expect_told(told, (3, usize::from(count)));
            }
        }
    }
    for byte in 0..=255 {
        for at in [2, 3, 6, 7, 10, 11] {
            let mut list = [0, 8, 0, 0, 0, 0x10, 1, 0, 0, 9, 1, 0];
            list[at] = byte;
            let mut capture = capture_of(&list, &parts);
            for profile in [0, 8, 0x10, 9] {
                put16(&mut capture, 6, profile);
                compare_and_back(run, &capture, 2);
            }
        }
    }
}

/// What flags of the entry at a place are told.
fn flags_told(flags: u8, place: usize) -> Told {
    match (flags >> 6, flags & 3) {
        (0, 2) => (44, place),
        (0, _) => (0, 0),
        _ => (5, place),
    }
}

/// Each value of the flags, of feature 0 and of the others.
fn each_flags(run: &mut Run) {
    let parts = at_edges();
    for flags in 0..=255 {
        for at in 0..parts.len() {
            let mut changed: Vec<Part> = parts.clone();
            changed[at].1 = flags;
            let told = compare_and_back(run, &capture_of(&[0, 8, 1, 0], &changed), 2);
            run.expect_told(told, flags_told(flags, at + 1));
        }
        let mut capture = capture_of(&[0, 8, 1, 0], &parts);
        capture[10] = flags;
        let told = compare_roomy(run, &capture, 2);
        run.expect_told(told, (if flags == 3 { 0 } else { 41 }, 0));
    }
}

/// Responses of 65,528 to 65,536 bytes, whole and cut, with their last flags spoilt, and with each room.
fn around_the_limit(run: &mut Run) {
    for sheet in full_sheets() {
        let capture = sent(&sheet, 0, 0, 65_535);
        let length = capture.len();
        run.holds(length == LONGEST, "a long capture has another length", &[]);
        each_room(run, &capture);
        for cut in [1, 2, 3, 4, 5, 255, 256, 257] {
            let told = compare_roomy(run, &capture[..length - cut], 2);
            run.expect_told(told, (29, 0));
        }
        let mut spoilt = capture;
        // Two bytes more are not more than the limit, but more than Data Length.
        spoilt.extend_from_slice(&[0, 0]);
        let told = compare_roomy(run, &spoilt, 2);
        run.expect_told(told, (16, 0));
        spoilt.push(0);
        let told = compare_roomy(run, &spoilt, 2);
        run.expect_told(told, (14, 0));
    }
    for last in [228, 232, 236, 240] {
        let mut parts = in_a_row(255, 252);
        parts.push((0x100, 1, body(last)));
        let sheet = sheet_of(&profiles(1, 1), &parts);
        let full = 65_296 + 4 + last;
        let response = sent(&sheet, 0, 0, 65_535);
        let told = compare_roomy(run, &response, 2);
        // A full response of more than 65,534 bytes is cut, so it is no capture.
        run.expect_told(told, (if full <= LONGEST { 0 } else { 29 }, 0));
        let mut spoilt = response;
        for (number, spoil) in FLAG_FAULTS {
            spoilt[65_296 + 2] = spoil(1);
            let told = compare_roomy(run, &spoilt, 2);
            run.expect_told(told, if full <= LONGEST { (number, 256) } else { (29, 0) });
        }
    }
}

fn random(run: &mut Run, random: &mut Random) {
    let most = if random.once_in(100) { 16_380 } else { random.one_of(&[0, 3, 12, 12, 40, 300]) };
    let sheet = random_sheet(random, most);
    if length_to_send(&sheet, 0, 0) <= LONGEST {
        round_trip(run, &sheet);
    }
    let capture = random_capture(random, most);
    let told = compare_and_back(run, &capture, random.below(4));
    run.expect_told(told, (0, 0));
    let length = sheet_length(&capture).unwrap_or(0);
    let given = Given::new(&capture);
    compare(run, &given, random.below(length + 9));
    compare(run, &given, (length + random.below(9)).saturating_sub(4));
    for _ in 0..8 {
        damaged(run, random, &capture);
    }
    compare_and_back(run, &random_response(random, 0).bytes, 2);
}

/// Compares a capture that is spoilt in some fields or damaged anywhere.
fn damaged(run: &mut Run, random: &mut Random, capture: &[u8]) {
    let bytes = spoilt(random, capture);
    let told = compare_and_back(run, &bytes, random.below(4));
    // With too little room all but an accepted one get the same number.
    let room = random.below(bytes.len() + 1);
    let short = compare(run, &Given::new(&bytes), room);
    run.holds(short == told || told.0 == 0 && short == (42, 0), "the room changes a refusal", &[]);
}
