//! gcf_next.

use crate::lent::{Given, Memory};
use crate::made::faults::each_faulty_response;
use crate::made::responses::{each_cut_of_what_is_sent, each_short, long_responses, ten_damaged};
use crate::random::Random;
use crate::run::{Cases, Input, Kind, Run};
use gcf::raw;
use second::wire::{Descriptors, Feature};

/// It answers whether a descriptor stands there.
pub const KIND: Kind = Kind { name: "gcf_next", answers: || vec![0, 1], cases: Cases::Of(fixed, random) };

/// The header in front of the descriptors.
const HEADER: usize = 8;

/// Compares what stands at one place; gives the place of the next descriptor, if one stands there.
fn compare(run: &mut Run, place: usize, response: &Given) -> Option<usize> {
    let (stands, fields) = next_fields(place, response.plain());
    run.compare(
        &[Input::Number("place", place as u64), Input::Bytes("response", response)],
        Memory::none(),
        |memory| u64::from(memory.told.by(|told| raw::next(place, response.proved(), told))),
        |memory| {
            memory.told.give(&fields);
            u64::from(stands)
        },
    );
    stands.then(|| fields[7] as usize)
}

/// Whether a descriptor stands at a place, by the plain side, and what is told of it.
pub fn next_fields(place: usize, response: &[u8]) -> (bool, [u64; 8]) {
    match response.get(place..).and_then(|rest| Descriptors::new(rest).next()) {
        None => (false, [0; 8]),
        Some(descriptor) => {
            let (feature, flags) = (u64::from(descriptor.feature.0), u64::from(descriptor.flags));
            let (body, bytes) = ((place + 4) as u64, descriptor.body.len() as u64);
            (true, [feature, flags, flags >> 2 & 15, flags >> 1 & 1, flags & 1, body, bytes, body + bytes])
        }
    }
}

/// Each place of a response, and what is told of places far behind it.
fn each_place(run: &mut Run, response: &[u8]) {
    let given = Given::new(response);
    for place in 0..=response.len() + 4 {
        compare(run, place, &given);
    }
    for place in [1 << 16, 1 << 32, usize::MAX - 4, usize::MAX - 3, usize::MAX] {
        compare(run, place, &given);
    }
}

/// Walks over a response, and where a reading accepts it sees that these are its whole descriptors.
fn walk(run: &mut Run, rt: u8, sfn: u16, response: &[u8]) {
    let given = Given::new(response);
    let (mut place, mut count) = (HEADER, 0);
    while let Some(next) = compare(run, place, &given) {
        (place, count) = (next, count + 1);
    }
    let reading = second::reading::read(rt, Feature(sfn), response, None);
    let holds = reading.number != 0 || (reading.count, reading.end) == (count, place);
    run.holds(holds, "the walk ends elsewhere than the reading", &[Input::Bytes("response", &given)]);
}

fn fixed(run: &mut Run) {
    let mut see = |response: &[u8]| {
        each_place(run, response);
        walk(run, 0, 0, response);
    };
    each_faulty_response(&mut see);
    each_short(&mut see);
    for response in long_responses() {
        walk(run, 0, 0, &response);
    }
    each_cut_of_what_is_sent(&mut |rt, sfn, _, response| walk(run, rt, sfn, response));
}

fn random(run: &mut Run, random: &mut Random) {
    ten_damaged(random, &mut |random, rt, sfn, bytes| {
        walk(run, rt, sfn, bytes);
        compare(run, random.below(bytes.len() + 9), &Given::new(bytes));
    });
}
