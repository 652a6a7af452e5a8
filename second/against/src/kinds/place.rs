//! gcf_place.

use crate::lent::{Given, Memory};
use crate::made::damage::damage;
use crate::made::faults::each_faulty_response;
use crate::made::responses::{each_short, long_responses, random_response, sent};
use crate::made::sheets::E;
use crate::random::Random;
use crate::run::{Cases, Input, Kind, Run};
use gcf::raw;
use second::wire::Feature;

/// It answers a place; of sheet E's response each of these.
pub const KIND: Kind = Kind {
    name: "gcf_place",
    answers: || [8, 20, 28, 36, 40, 44].into_iter().collect(),
    cases: Cases::Of(fixed, random),
};

/// Compares one place.
fn compare(run: &mut Run, feature: u16, response: &Given) -> u64 {
    run.compare(
        &[Input::Number("feature", u64::from(feature)), Input::Bytes("response", response)],
        Memory::none(),
        |_| raw::place(gcf::Feature(feature), response.proved()) as u64,
        |_| second::find::place(Feature(feature), response.plain()) as u64,
    )
}

fn fixed(run: &mut Run) {
    let whole = sent(&E, 0, 0, 65_535);
    for cut in 0..=whole.len() {
        let given = Given::new(&whole[..cut]);
        for feature in [0, 1, 2, 3, 0x1F, 0x20, 0x105, 0x106, 0xFFFF] {
            compare(run, feature, &given);
        }
    }
    let mut see = |response: &[u8]| {
        let given = Given::new(response);
        for feature in [0, 1, 0x20, 0xFFFF] {
            compare(run, feature, &given);
        }
    };
    each_faulty_response(&mut see);
    each_short(&mut see);
    for response in long_responses() {
        let given = Given::new(&response);
        for feature in [0, 1, 254, 255, 256, 16_380, 16_381, 0xFFFF] {
            compare(run, feature, &given);
        }
    }
}

fn random(run: &mut Run, random: &mut Random) {
    let mut response = random_response(random, 0).bytes;
    if random.once_in(3) {
        damage(random, &mut response);
    }
    let features: Vec<u16> = [8, 12, 16, 20, 24].map(|at| second::wire::be16(&response, at)).to_vec();
    let given = Given::new(&response);
    for _ in 0..10 {
        let feature = if random.once_in(3) { random.below(40) as u16 } else { random.one_of(&features) };
        compare(run, feature, &given);
    }
}
