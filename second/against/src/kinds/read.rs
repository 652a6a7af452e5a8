//! gcf_read.

use crate::lent::{Given, Memory};
use crate::made::faults::{each_pair, good_reading, reading_faults};
use crate::made::responses::{each_cut_of_what_is_sent, each_short, long_responses, ten_damaged};
use crate::random::Random;
use crate::run::{Cases, Input, Kind, Run};
use gcf::raw;
use second::wire::Feature;

pub const KIND: Kind = Kind {
    name: "gcf_read",
    answers: || [0].into_iter().chain(13..=20).collect(),
    cases: Cases::Of(fixed, random),
};

/// Compares one reading.
fn compare(run: &mut Run, rt: u8, sfn: u16, response: &Given) -> u64 {
    run.compare(
        &[
            Input::Number("rt", u64::from(rt)),
            Input::Number("sfn", u64::from(sfn)),
            Input::Bytes("response", response),
        ],
        Memory::none(),
        |memory| {
            u64::from(memory.told.by(|reading| raw::read(rt, gcf::Feature(sfn), response.proved(), reading)))
        },
        |memory| {
            let reading = second::reading::read(rt, Feature(sfn), response.plain(), None);
            memory.told.give(&[
                u64::from(reading.profile.0),
                u64::from(reading.data_length),
                reading.count as u64,
                reading.end as u64,
                u64::from(reading.complete),
            ]);
            u64::from(reading.number)
        },
    )
}

fn fixed(run: &mut Run) {
    for (rt, sfn) in [(0, 0), (0, 0x10), (1, 0), (1, 0x10), (2, 0), (2, 0x10)] {
        let answer = compare(run, rt, sfn, &Given::new(&good_reading(rt, sfn).response));
        run.expect(answer, 0);
        each_pair(&good_reading(rt, sfn), &reading_faults(rt, sfn), &mut |asked, (number, _)| {
            let answer = compare(run, asked.rt, asked.sfn, &Given::new(&asked.response));
            run.expect(answer, u64::from(number));
        });
    }
    each_short(&mut |response| {
        let given = Given::new(response);
        for (rt, sfn) in [(0, 0), (1, 0), (2, 0), (0, 1), (3, 0)] {
            compare(run, rt, sfn, &given);
        }
    });
    each_cut_of_what_is_sent(&mut |rt, sfn, _, response| {
        let given = Given::new(response);
        compare(run, rt, sfn, &given);
        compare(run, rt, sfn.wrapping_add(1), &given);
    });
    for response in long_responses() {
        let given = Given::new(&response);
        for rt in 0..4 {
            compare(run, rt, 0, &given);
        }
    }
    for rt in 0..=255 {
        compare(run, rt, 0, &Given::new(&good_reading(0, 0).response));
    }
}

fn random(run: &mut Run, random: &mut Random) {
    ten_damaged(random, &mut |_, rt, sfn, bytes| {
        compare(run, rt, sfn, &Given::new(bytes));
    });
}
