//! Commands to a sheet, for the two functions that answer one, and what commands to an image have in common with them.

use crate::lent::Given;
use crate::made::damage::damage;
use crate::made::faults::{
    each_last_fault, each_pair, fault, fault_at, good_sheet, some_sheet_faults, Fault,
};
use crate::made::responses::length_to_send;
use crate::made::sheets::{
    body, every_feature, longest, profiles, random_sheet, sheet_of, short_sheets, starts_for, E,
};
use crate::made::Part;
use crate::random::Random;
use crate::run::{Input, Run, Told};
use second::command::Request;
use second::sheet::Layout;
use second::wire::Feature;

/// Compares one command: sheet or image, command, room for the response.
pub type Compare<'a> = &'a dyn Fn(&mut Run, &Given, &[u8], usize) -> Told;

/// Compares one command to a sheet, which is given in rows, in a layout.
pub fn in_layout(
    layout: Layout,
    compare: fn(&mut Run, Layout, &Given, &[u8], usize) -> Told,
) -> impl Fn(&mut Run, &Given, &[u8], usize) -> Told {
    move |run, sheet, command, room| compare(run, layout, sheet, command, room)
}

/// The inputs of a command to a sheet or an image.
pub fn inputs<'a>(asked: &'static str, bytes: &'a Given, command: &'a Given, room: usize) -> [Input<'a>; 3] {
    [Input::Bytes(asked, bytes), Input::Bytes("command", command), Input::Number("room", room as u64)]
}

/// A command's bytes.
pub fn command(rt: u8, sfn: u16, allocation: u16) -> [u8; 10] {
    Request { rt, sfn: Feature(sfn), allocation }.bytes()
}

/// Every command, with all that is the same in every run.
pub fn fixed(run: &mut Run, compare: Compare) {
    each_allocation(run, compare, short_sheets(), |sheet| starts_for(sheet, 4), length_to_send);
    each_two_faults(run, compare, good_sheet(), |sheet| sheet, some_sheet_faults(), 100);
    commands_that_are_none(run, compare, &Given::new(&E));
    around_the_return_limit(run, compare);
    at_the_limit(run, compare);
}

/// Each allocation length up to 9 above the full length, with each RT and several SFNs, for short sheets or images.
pub fn each_allocation(
    run: &mut Run,
    compare: Compare,
    short: Vec<Vec<u8>>,
    starts: fn(&[u8]) -> Vec<u16>,
    full: fn(&[u8], u8, u16) -> usize,
) {
    for asked in short {
        let given = Given::new(&asked);
        for rt in 0..3 {
            for sfn in starts(&asked) {
                let full = full(&asked, rt, sfn);
                for allocation in 0..=full + 9 {
                    let command = command(rt, sfn, allocation as u16);
                    each_room(run, compare, &given, &command, allocation.min(full));
                }
            }
        }
    }
}

/// A command with more room than it needs, with just enough, and with one byte too little.
pub fn each_room(run: &mut Run, compare: Compare, asked: &Given, command: &[u8], needed: usize) {
    compare(run, asked, command, needed + 1 + needed % 9);
    compare(run, asked, command, needed);
    if needed > 0 {
        compare(run, asked, command, needed - 1);
    }
}

/// A sheet or an image, a command to it and the room for its response.
#[derive(Clone)]
struct Asked<T> {
    of: T,
    command: Vec<u8>,
    room: usize,
}

/// Each two faults of the sheet or the image, of the command and of the buffer, for a good one that sends more than so many bytes.
pub fn each_two_faults<T: Clone + 'static>(
    run: &mut Run,
    compare: Compare,
    good: T,
    bytes: fn(&T) -> &[u8],
    faults: Vec<Fault<T>>,
    sent: u16,
) {
    let mut all: Vec<Fault<Asked<T>>> = Vec::new();
    for first in faults {
        all.push(fault_at(first.told, move |asked: &mut Asked<T>| first.make(&mut asked.of)));
    }
    let room = usize::from(sent);
    all.push(fault(9, |asked: &mut Asked<T>| asked.command.truncate(0)));
    all.push(fault(9, |asked: &mut Asked<T>| asked.command.truncate(9)));
    all.push(fault(9, |asked: &mut Asked<T>| asked.command.push(0)));
    all.push(fault(9, |asked: &mut Asked<T>| asked.command.resize(13, 0)));
    all.push(fault(10, |asked: &mut Asked<T>| asked.command[0] = 0x47));
    all.push(fault(10, |asked: &mut Asked<T>| asked.command[0] = 0));
    all.push(fault(11, |asked: &mut Asked<T>| asked.command[1] |= 3));
    all.push(fault(12, |asked: &mut Asked<T>| asked.room = 0));
    all.push(fault(12, move |asked: &mut Asked<T>| asked.room = room - 1));
    let good = Asked { of: good, command: command(0, 0, sent).to_vec(), room };
    each_pair(&good, &all, &mut |asked, wanted| {
        let told = compare(run, &Given::new(bytes(&asked.of)), &asked.command, asked.room);
        run.expect_told(told, wanted);
    });
}

/// Commands of every length up to 20, every first byte, and every second byte with all reserved bits set behind, in packets too.
pub fn commands_that_are_none(run: &mut Run, compare: Compare, asked: &Given) {
    for length in (0..20).chain([10 + 0x100, 12 + 0x100, 10 + 0x1_0000, 12 + 0x1_0000]) {
        let told = compare(run, asked, &vec![0x46; length], 100);
        if ![10, 12].contains(&length) {
            run.expect_told(told, (9, 0));
        }
    }
    for byte in 0..=255 {
        let mut first = command(0, 0, 44);
        first[0] = byte;
        compare(run, asked, &first, 44);
        let mut second = [0xFF; 10];
        second[..4].copy_from_slice(&[0x46, byte, 0, 1]);
        second[7..9].copy_from_slice(&[0, 100]);
        let told = compare(run, asked, &second, 100);
        let packet = compare(run, asked, &[&second[..], &[byte, 0xFF]].concat(), 100);
        run.expect_told(packet, told);
    }
}

/// Full lengths of 65,528 to 65,540, asked for with the longest allocation lengths.
fn around_the_return_limit(run: &mut Run, compare: Compare) {
    // The header, feature 0 with one profile and 255 features of 256 bytes have 65,296 bytes.
    for last in [228, 232, 236, 240] {
        let mut parts: Vec<Part> = (1..=255).map(|number| (number, 1, body(252))).collect();
        parts.push((0x100, 1, body(last)));
        let sheet = sheet_of(&profiles(1, 1), &parts);
        let full = 65_296 + 4 + last;
        let given = Given::new(&sheet);
        for allocation in 65_525..=65_535 {
            for rt in 0..2 {
                let needed = full.min(usize::from(allocation)).min(65_534);
                each_room(run, compare, &given, &command(rt, 0, allocation), needed);
            }
        }
    }
}

/// The longest sheet and one of every feature, asked from both ends, and with the faults of the last entry.
fn at_the_limit(run: &mut Run, compare: Compare) {
    for mut sheet in [longest(), every_feature()] {
        let given = Given::new(&sheet);
        for (rt, sfn) in [(0, 0), (0, 0xFFFF), (0, 0x8000), (1, 1), (1, 0xFFFE), (2, 0x1234), (2, 0xFFFF)] {
            for allocation in [65_535, 300] {
                compare(run, &given, &command(rt, sfn, allocation), 65_540);
            }
        }
        each_last_fault(&mut sheet, &mut |sheet, wanted| {
            let told = compare(run, &Given::new(sheet), &command(0, 0, 300), 300);
            run.expect_told(told, wanted);
        });
    }
}

/// A made-up sheet and made-up commands to it.
pub fn random(run: &mut Run, random: &mut Random, compare: Compare) {
    let most = if random.once_in(150) { 9_000 } else { random.one_of(&[0, 3, 12, 12, 12, 40, 300]) };
    let mut sheet = random_sheet(random, most);
    let starts = starts_for(&sheet, 20);
    if random.once_in(4) {
        damage(random, &mut sheet);
    }
    let given = Given::new(&sheet);
    made_up_commands(run, random, compare, &given, &starts, |rt, sfn| length_to_send(&sheet, rt, sfn));
}

/// Made-up commands to a sheet or an image, most of them with about the room that they need; `full` is the length of the whole response.
pub fn made_up_commands(
    run: &mut Run,
    random: &mut Random,
    compare: Compare,
    given: &Given,
    starts: &[u16],
    full: impl Fn(u8, u16) -> usize,
) {
    for _ in 0..10 {
        let rt = random.one_of(&[0, 0, 1, 1, 2, 2, 3]);
        let sfn = random.one_of(starts);
        let full = full(rt, sfn);
        let allocation = random.near(full);
        let mut asked = command(rt, sfn, allocation).to_vec();
        reserved(random, &mut asked);
        match random.below(6) {
            0 => asked.resize(random.below(17), random.byte()),
            1..=3 => asked.extend([random.byte(), random.byte()]),
            _ => {}
        }
        if random.once_in(6) {
            damage(random, &mut asked);
        }
        let needed = full.min(usize::from(allocation));
        let room = if random.once_in(8) {
            random.below(needed + 9)
        } else {
            (needed + random.below(11)).saturating_sub(2)
        };
        compare(run, given, &asked, room);
    }
}

/// Sets what a command's reader ignores.
fn reserved(random: &mut Random, command: &mut [u8]) {
    command[1] |= random.byte() & 0xFC;
    for at in [4, 5, 6, 9] {
        command[at] = random.byte();
    }
}
