//! gcf_held.

use crate::lent::{Given, Memory};
use crate::made::damage::damage;
use crate::made::faults::each_faulty_response;
use crate::made::responses::{each_short, long_responses, random_response, response_of, sent};
use crate::made::sheets::{body, E};
use crate::made::Part;
use crate::random::Random;
use crate::run::{Cases, Input, Kind, Run};
use gcf::raw;
use second::wire::Feature;

/// It answers how many bytes it wrote.
pub const KIND: Kind =
    Kind { name: "gcf_held", answers: || (0..=256).collect(), cases: Cases::Of(fixed, random) };

/// Compares one search.
fn compare(run: &mut Run, feature: u16, fresh: &Given, kept: &Given, room: usize) -> u64 {
    run.compare(
        &[
            Input::Number("feature", u64::from(feature)),
            Input::Bytes("fresh", fresh),
            Input::Bytes("kept", kept),
            Input::Number("room", room as u64),
        ],
        Memory::none().with_buffer(room),
        |memory| raw::held(gcf::Feature(feature), fresh.proved(), kept.proved(), memory.first.part()) as u64,
        |memory| {
            let found = second::find::find(Feature(feature), fresh.plain(), kept.plain());
            let room = memory.first.part();
            let count = found.len().min(room.len());
            room[..count].copy_from_slice(&found[..count]);
            count as u64
        },
    )
}

fn fixed(run: &mut Run) {
    each_cut_of_two(run);
    each_length_and_room(run);
    let kept = Given::new(&response_of(0, &[(0, 1, body(0)), (0x20, 2, body(4)), (0xFFFF, 3, body(12))]));
    let mut see = |response: &[u8]| {
        let given = Given::new(response);
        for feature in [0, 1, 0x20, 0xFFFF] {
            compare(run, feature, &given, &kept, 256);
            compare(run, feature, &kept, &given, 256);
        }
    };
    each_faulty_response(&mut see);
    each_short(&mut see);
    for response in long_responses() {
        let given = Given::new(&response);
        for feature in [0, 1, 254, 255, 256, 16_380, 16_381, 0xFFFF] {
            compare(run, feature, &given, &kept, 300);
            compare(run, feature, &kept, &given, 300);
        }
    }
}

/// Sheet E's response as both, each cut at each byte, where the kept one has other bodies.
fn each_cut_of_two(run: &mut Run) {
    let fresh = sent(&E, 0, 0, 65_535);
    let mut kept = fresh.clone();
    kept[27] = 0x77;
    kept[33] = 0x77;
    for cut in 0..=fresh.len() {
        let one = Given::new(&fresh[..cut]);
        for other in (0..=fresh.len()).step_by(4).chain([43]) {
            let two = Given::new(&kept[..other]);
            for (at, feature) in [0, 1, 2, 3, 0x1F, 0x105, 0x106].into_iter().enumerate() {
                compare(run, feature, &one, &two, (cut + other + at) % 14);
            }
        }
    }
}

/// Descriptors of each length, each with every room up to 4 bytes more.
fn each_length_and_room(run: &mut Run) {
    let parts: Vec<Part> = (0..64).map(|number| (number * 5, 1, body(4 * usize::from(number)))).collect();
    let fresh = Given::new(&response_of(0, &parts[..40]));
    let kept = Given::new(&response_of(0, &parts));
    for (feature, _, body) in &parts {
        for room in 0..=body.len() + 8 {
            compare(run, *feature, &fresh, &kept, room);
        }
    }
}

fn random(run: &mut Run, random: &mut Random) {
    let mut fresh = random_response(random, 0).bytes;
    let mut kept = random_response(random, 0).bytes;
    if random.once_in(3) {
        damage(random, &mut fresh);
    }
    if random.once_in(3) {
        damage(random, &mut kept);
    }
    let features: Vec<u16> = [8, 12, 16, 20, 24].map(|at| second::wire::be16(&fresh, at)).to_vec();
    let (fresh, kept) = (Given::new(&fresh), Given::new(&kept));
    for _ in 0..10 {
        let feature = if random.once_in(3) { random.below(40) as u16 } else { random.one_of(&features) };
        let room = if random.once_in(2) { 256 } else { random.below(270) };
        compare(run, feature, &fresh, &kept, room);
    }
}
