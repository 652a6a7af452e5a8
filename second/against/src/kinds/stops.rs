//! gcf_stops.

use crate::lent::{Given, Memory};
use crate::made::faults::{each_pair, good_reading, reading_faults};
use crate::made::responses::{each_cut_of_what_is_sent, each_short, long_responses, ten_damaged};
use crate::random::Random;
use crate::run::{Cases, Input, Kind, Run};
use gcf::raw;
use second::wire::Feature;

/// It tells a place; of a short response that is one of these.
pub const KIND: Kind = Kind {
    name: "gcf_stops",
    answers: || [0, 8, 12, 16, 20].into_iter().collect(),
    cases: Cases::Of(fixed, random),
};

/// No limit of its own.
const MOST: usize = 65_534;

/// Compares one place.
fn compare(run: &mut Run, most: usize, rt: u8, sfn: u16, response: &Given) -> u64 {
    run.compare(
        &[
            Input::Number("most", most as u64),
            Input::Number("rt", u64::from(rt)),
            Input::Number("sfn", u64::from(sfn)),
            Input::Bytes("response", response),
        ],
        Memory::none(),
        |memory| {
            memory.told.by(|stop| {
                raw::stops(most, rt, gcf::Feature(sfn), response.proved(), stop);
                stop.place
            })
        },
        |memory| {
            let (place, feature) = second::reading::stops(most, rt, Feature(sfn), response.plain());
            memory.told.give(&[place as u64, u64::from(feature.0)]);
            place as u64
        },
    )
}

fn fixed(run: &mut Run) {
    for (rt, sfn) in [(0, 0), (0, 0x10), (1, 0), (1, 0x10), (2, 0), (2, 0x10)] {
        each_pair(&good_reading(rt, sfn), &reading_faults(rt, sfn), &mut |asked, _| {
            compare(run, MOST, asked.rt, asked.sfn, &Given::new(&asked.response));
        });
    }
    each_short(&mut |response| {
        let given = Given::new(response);
        for (rt, sfn) in [(0, 0), (1, 0), (2, 0), (0, 1), (3, 0)] {
            compare(run, MOST, rt, sfn, &given);
        }
        compare(run, 12, 0, 0, &given);
    });
    each_cut_of_what_is_sent(&mut |rt, sfn, full, response| {
        let given = Given::new(response);
        compare(run, MOST, rt, sfn, &given);
        compare(run, MOST, rt, sfn.wrapping_add(1), &given);
        compare(run, full / 2, rt, sfn, &given);
    });
    // the second program reads each front of these anew
    for response in long_responses() {
        compare(run, MOST, 0, 0xFFFF, &Given::new(&response));
    }
}

fn random(run: &mut Run, random: &mut Random) {
    ten_damaged(random, &mut |random, rt, sfn, bytes| {
        let most = if random.once_in(6) { random.below(bytes.len() + 2) } else { MOST };
        compare(run, most, rt, sfn, &Given::new(bytes));
    });
}
