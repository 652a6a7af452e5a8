//! gcf_sweep_take.

use super::{fields, handed, proved};
use crate::lent::{Given, Memory};
use crate::made::damage::damage;
use crate::made::faults::{each_faulty_response, each_pair, fault, Fault};
use crate::made::responses::{
    each_short, length_to_send, long_responses, places, random_response, response_of, sent,
};
use crate::made::sheets::{body, short_sheets};
use crate::made::{put16, put32, Part};
use crate::random::Random;
use crate::run::{Cases, Input, Kind, Run};
use gcf::raw;
use second::command::most_bytes;
use second::sweep::Record;
use second::wire::{Feature, Profile};

pub const KIND: Kind = Kind { name: "gcf_sweep_take", answers, cases: Cases::Of(fixed, random) };

/// All of a reading but 13, since 21 comes first; and the sweep's own.
fn answers() -> Vec<u64> {
    [0].into_iter().chain(14..=24).chain(26..=28).chain([45]).collect()
}

/// Compares the taking of one response; gives the answer and the next record.
fn compare(run: &mut Run, record: Record, response: &Given, room: usize) -> (u64, Record) {
    let [rt, allocation, next, commands, collected, ended, profile, _] = fields(record, 0);
    let mut after = record;
    let answer = run.compare(
        &[
            Input::Number("rt", rt),
            Input::Number("allocation", allocation),
            Input::Number("next", next),
            Input::Number("commands", commands),
            Input::Number("collected", collected),
            Input::Number("ended", ended),
            Input::Number("profile", profile),
            Input::Bytes("response", response),
            Input::Number("room", room as u64),
        ],
        Memory::none().with_buffer(room),
        |memory| {
            let step = raw::sweep_take(handed(record), response.proved(), memory.first.part());
            memory.told.give(&proved(step));
            u64::from(step.refusal.number)
        },
        |memory| {
            let (number, next) = record.take(response.plain(), memory.first.part());
            memory.told.give(&fields(next, 0));
            after = next;
            u64::from(number)
        },
    );
    (answer, after)
}

/// A record that has begun.
fn record(rt: u8, allocation: usize) -> Record {
    Record { rt, allocation: allocation as u16, ended: false, ..Record::refused() }
}

fn fixed(run: &mut Run) {
    for cut_in_header in [true, false] {
        for none_whole in [true, false] {
            each_two_faults(run, cut_in_header, none_whole);
        }
    }
    whole_sweeps(run);
    let mut see = |response: &[u8]| each_allocation_near(run, response);
    each_faulty_response(&mut see);
    each_short(&mut see);
    for response in long_responses() {
        each_allocation_near(run, &response);
    }
    records_at_the_edges(run);
    profile_changes(run);
}

/// Sweeps in which the profile changes with one of the responses: with the first it is taken, with any later one it is 45.
fn profile_changes(run: &mut Run) {
    for sheet in short_sheets() {
        let full = length_to_send(&sheet, 0, 0);
        for allocation in [20, 36, full] {
            let rounds = rounds_of(&sheet, record(0, allocation), full);
            for at in [0, 1, rounds.saturating_sub(1)] {
                changed_at(run, &sheet, record(0, allocation), full, at);
            }
        }
    }
}

/// How many responses a sweep of a sheet takes.
fn rounds_of(sheet: &[u8], start: Record, room: usize) -> u32 {
    let mut record = start;
    let mut collecting = vec![0; room];
    while !record.ended {
        let response = sent(sheet, record.rt, record.next.0, record.allocation);
        let (number, after) = record.take(&response, &mut collecting);
        if number != 0 {
            break;
        }
        record = after;
    }
    record.commands
}

/// One sweep of a sheet in which the response after so many commands has another profile.
fn changed_at(run: &mut Run, sheet: &[u8], start: Record, room: usize, at: u32) {
    let mut record = start;
    while !record.ended && run.failure.is_none() {
        let mut response = sent(sheet, record.rt, record.next.0, record.allocation);
        if record.commands == at {
            response[6] ^= 0x80;
        }
        let (answer, after) = compare(run, record, &Given::new(&response), room);
        if record.commands > 0 && record.commands == at {
            run.expect(answer, 45);
        }
        if answer != 0 {
            return;
        }
        record = after;
    }
}

/// A response taken with allocation lengths around its own length, with room and without.
fn each_allocation_near(run: &mut Run, response: &[u8]) {
    let given = Given::new(response);
    let length = response.len();
    for allocation in [length.saturating_sub(1), length, length + 1, 65_535] {
        let allocation = allocation.min(65_535);
        let rt = (length % 2) as u8;
        compare(run, record(rt, allocation), &given, length);
        compare(run, Record { collected: 3, ..record(0, allocation) }, &given, length / 2);
        // Later in a sweep, with the profile of most responses and with another.
        for profile in [0x0012, 0x0010] {
            let later = Record { commands: 1, profile: Profile(profile), ..record(rt, allocation) };
            compare(run, later, &given, length);
        }
    }
}

/// Sweeps of the short sheets with each allocation length up to 9 above the full length.
fn whole_sweeps(run: &mut Run) {
    for sheet in short_sheets() {
        let full = length_to_send(&sheet, 0, 0);
        let step = full / 150 + 1;
        for rt in 0..2 {
            for allocation in (8..=full + 9).step_by(step) {
                whole_sweep(run, &sheet, record(rt, allocation), full);
            }
        }
    }
}

/// One sweep of a sheet, to its end or to a refusal.
fn whole_sweep(run: &mut Run, sheet: &[u8], start: Record, room: usize) {
    let mut record = start;
    while !record.ended && run.failure.is_none() {
        let response = sent(sheet, record.rt, record.next.0, record.allocation);
        let (answer, after) = compare(run, record, &Given::new(&response), room);
        if answer != 0 {
            return;
        }
        record = after;
    }
    compare(run, record, &Given::new(&[]), room);
}

/// A record, a response and room for what is collected.
#[derive(Clone)]
struct Taken {
    record: Record,
    response: Vec<u8>,
    room: usize,
}

/// A response of 3 descriptors that is cut in the third, behind its header or before.
fn good(cut_in_header: bool) -> (Taken, Vec<usize>) {
    let parts: Vec<Part> = vec![(0x10, 1, body(8)), (0x11, 3, body(4)), (0x20, 1, body(40))];
    let mut response = response_of(0x0012, &parts);
    put32(&mut response, 0, 1_000);
    let mut at = places(&parts);
    response.truncate(at[2] + if cut_in_header { 2 } else { 10 });
    if cut_in_header {
        at.pop();
    }
    let record = Record {
        rt: 1,
        allocation: response.len() as u16,
        next: Feature(0x10),
        commands: 5,
        collected: 7,
        ended: false,
        profile: Profile(0x0012),
    };
    (Taken { record, response, room: 7 + 12 + 8 }, at)
}

/// Each two faults of record, response and room; with 23 only those of the first descriptor are still there.
fn each_two_faults(run: &mut Run, cut_in_header: bool, none_whole: bool) {
    let (good, at) = good(cut_in_header);
    let (answer, _) = compare(run, good.record, &Given::new(&good.response), good.room);
    run.expect(answer, 0);
    let mut faults = record_faults();
    response_faults(if none_whole { &at[..1] } else { &at }, &mut faults);
    faults.push(fault(28, |taken: &mut Taken| taken.record.allocation = 65_535));
    faults.push(fault(28, |taken: &mut Taken| taken.record.allocation += 1));
    faults.push(fault(45, |taken: &mut Taken| taken.record.profile = Profile(0x0010)));
    faults.push(fault(45, |taken: &mut Taken| taken.record.profile = Profile(0)));
    faults.push(fault(45, |taken: &mut Taken| taken.response[6] = 0xFF));
    if none_whole {
        faults.push(fault(23, |taken: &mut Taken| taken.response[11] = 252));
    }
    if cut_in_header {
        let last = at[1];
        faults.push(fault(27, move |taken: &mut Taken| put16(&mut taken.response, last, 0xFFFF)));
    }
    faults.push(fault(24, |taken: &mut Taken| taken.room = 26));
    faults.push(fault(24, |taken: &mut Taken| taken.room = 0));
    faults.push(fault(24, |taken: &mut Taken| taken.record.collected = taken.room + 1));
    faults.push(fault(24, |taken: &mut Taken| taken.record.collected = usize::MAX));
    each_pair(&good, &faults, &mut |taken, (number, _)| {
        let response = Given::new(&taken.response);
        let (answer, _) = compare(run, taken.record, &response, taken.room);
        run.expect(answer, u64::from(number));
    });
}

/// The faults of a record.
fn record_faults() -> Vec<Fault<Taken>> {
    vec![
        fault(21, |taken: &mut Taken| taken.record.rt = 2),
        fault(21, |taken: &mut Taken| taken.record.rt = 255),
        fault(22, |taken: &mut Taken| taken.record.allocation = 7),
        fault(22, |taken: &mut Taken| taken.record.allocation = 0),
        fault(26, |taken: &mut Taken| taken.record.ended = true),
        fault(26, |taken: &mut Taken| taken.record.commands = 65_536),
        fault(26, |taken: &mut Taken| taken.record.commands = u32::MAX),
    ]
}

/// The faults of a reading in a sweep with RT 1, for descriptors at some places.
fn response_faults(places: &[usize], faults: &mut Vec<Fault<Taken>>) {
    faults.push(fault(14, |taken: &mut Taken| taken.response.truncate(7)));
    faults.push(fault(14, |taken: &mut Taken| taken.response.resize(65_535, 0)));
    faults.push(fault(15, |taken: &mut Taken| put32(&mut taken.response, 0, 0)));
    faults.push(fault(15, |taken: &mut Taken| taken.response[3] |= 2));
    faults.push(fault(16, |taken: &mut Taken| put32(&mut taken.response, 0, 4)));
    faults.push(fault(16, |taken: &mut Taken| {
        taken.response.push(0);
        taken.record.allocation = taken.response.len() as u16 - 1;
    }));
    faults.push(fault(16, |taken: &mut Taken| taken.record.allocation = taken.response.len() as u16 - 1));
    for &at in places {
        faults.push(fault(17, move |taken: &mut Taken| taken.response[at + 3] |= 1));
        faults.push(fault(18, move |taken: &mut Taken| put16(&mut taken.response, at, 0x0F)));
        if at > 8 {
            faults.push(fault(18, move |taken: &mut Taken| taken.response.copy_within(8..10, at)));
        }
        faults.push(fault(19, move |taken: &mut Taken| taken.response[at + 2] &= 0xFE));
        faults.push(fault(20, move |taken: &mut Taken| {
            let length = taken.response.len() as u32;
            put32(&mut taken.response, 0, (length / 4 + 1) * 4);
            taken.response[at + 3] = 252;
        }));
    }
}

/// Records with the greatest counts, and complete responses that add nothing.
fn records_at_the_edges(run: &mut Run) {
    let empty = Given::new(&response_of(0, &[]));
    let cut = Given::new(&sent(&short_sheets()[0], 0, 0, 20));
    for commands in [0, 1, 65_534, 65_535, 65_536, 65_537, u32::MAX] {
        for collected in [0, 1, 27, 28, 29, 40, usize::MAX - 12, usize::MAX - 4, usize::MAX] {
            for room in [0, 1, 12, 27, 28, 39, 40, 41] {
                for response in [&empty, &cut] {
                    let before = Record { commands, collected, ..record(0, 20) };
                    compare(run, before, response, room);
                    compare(run, Record { profile: Profile(0x0012), ..before }, response, room);
                }
            }
        }
    }
}

fn random(run: &mut Run, random: &mut Random) {
    let rt = random.one_of(&[0, 0, 1, 1, 2]);
    let made = random_response(random, rt);
    for _ in 0..8 {
        let mut bytes = made.bytes.clone();
        if random.once_in(2) {
            damage(random, &mut bytes);
        }
        let mut before = random_record(random, rt, made.sfn, bytes.len());
        if random.once_in(2) && bytes.len() >= 8 {
            before.profile = Profile(u16::from_be_bytes([bytes[6], bytes[7]]));
        }
        let room = if random.once_in(3) {
            random.below(100)
        } else {
            (before.collected % 1_000 + bytes.len()).saturating_sub(random.below(12))
        };
        // Most cut responses are as long as C.
        if random.once_in(2) && most_bytes(before.allocation) < bytes.len() {
            bytes.truncate(most_bytes(before.allocation));
        }
        compare(run, before, &Given::new(&bytes), room);
    }
}

/// A made-up record for a response.
fn random_record(random: &mut Random, rt: u8, sfn: u16, length: usize) -> Record {
    let allocation = if random.once_in(3) { random.near(length) } else { length.min(65_535) as u16 };
    Record {
        rt,
        allocation,
        next: Feature(if random.once_in(8) { random.near(usize::from(sfn)) } else { sfn }),
        commands: random.one_of(&[0, 1, 2, 65_534, 65_535, 65_536, u32::MAX]),
        collected: random.one_of(&[0, 0, 1, 5, 40, 99, usize::MAX]),
        ended: random.once_in(9),
        profile: Profile(random.one_of(&[0, 0x0010, 0x0012])),
    }
}
