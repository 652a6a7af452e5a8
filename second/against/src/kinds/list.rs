//! gcf_list.

use super::READING;
use crate::lent::{Given, Memory};
use crate::made::damage::damage;
use crate::made::faults::each_faulty_response;
use crate::made::responses::{each_short, long_responses, random_response, response_of, sent};
use crate::made::sheets::E;
use crate::made::Part;
use crate::random::Random;
use crate::run::{Cases, Input, Kind, Run};
use gcf::raw;
use second::wire::Feature;

/// The longest listing: a line of 15 bytes, one for each of 16,381 descriptors, and the last.
const LISTING_MOST: usize = 245_736;

/// It answers how many bytes it wrote; what is counted is the reading's number.
pub const KIND: Kind =
    Kind { name: "gcf_list", answers: || READING.to_vec(), cases: Cases::Of(fixed, random) };

/// Compares one listing.
fn compare(run: &mut Run, response: &Given, room: usize) -> u64 {
    let number = second::reading::read(0, Feature(0), response.plain(), None).number;
    run.saw(u64::from(number));
    run.uncounted(
        &[Input::Bytes("response", response), Input::Number("room", room as u64)],
        Memory::none().with_buffer(room),
        |memory| raw::list(response.proved(), memory.first.part()) as u64,
        |memory| {
            let text = second::lister::list(response.plain());
            let room = memory.first.part();
            let count = text.len().min(room.len());
            room[..count].copy_from_slice(&text[..count]);
            count as u64
        },
    )
}

fn fixed(run: &mut Run) {
    let mut see = |response: &[u8]| {
        let given = Given::new(response);
        let length = compare(run, &given, 1_600) as usize;
        compare(run, &given, length);
        compare(run, &given, length / 2);
    };
    each_faulty_response(&mut see);
    each_short(&mut see);
    let example = Given::new(&sent(&E, 0, 0, 65_535));
    let cut = Given::new(&sent(&E, 0, 0, 43));
    for room in 0..100 {
        compare(run, &example, room);
        compare(run, &cut, room);
        compare(run, &Given::new(&[0; 7]), room);
    }
    for response in long_responses() {
        let given = Given::new(&response);
        for room in [LISTING_MOST, LISTING_MOST + 9, 245_000, 1] {
            compare(run, &given, room);
        }
    }
    each_flags(run);
    longest_lines(run);
}

/// As many descriptors as fit, with flags and a Version that make the longest lines.
fn longest_lines(run: &mut Run) {
    let parts: Vec<Part> = (0..16_381).map(|number| (number, 0xFF, vec![])).collect();
    let response = response_of(0xFFFF, &parts);
    compare(run, &Given::new(&response), LISTING_MOST);
    compare(run, &Given::new(&response[..65_531]), LISTING_MOST);
}

/// Every byte of flags, and every Additional Length.
fn each_flags(run: &mut Run) {
    for byte in 0..=255 {
        for (at, length) in [(10, 0), (11, usize::from(byte))] {
            let mut response = vec![0, 0, 1, 4, 0, 0, 0xFE, 0xDC, 0xBA, 0x98, 3, 0];
            response[at] = byte;
            response.resize(12 + length, 0);
            compare(run, &Given::new(&response), 64);
        }
    }
}

fn random(run: &mut Run, random: &mut Random) {
    let made = random_response(random, 0);
    for _ in 0..6 {
        let mut bytes = made.bytes.clone();
        if !random.once_in(3) {
            damage(random, &mut bytes);
        }
        let room = if random.once_in(3) { random.below(300) } else { 1_000 };
        compare(run, &Given::new(&bytes), room);
    }
}
