//! gcf_bench.

use super::{columns, laid_as, SHEET};
use crate::lent::{Given, Memory};
use crate::made::damage::damage;
use crate::made::faults::{
    each_last_fault, each_pair, fault, fault_at, good_sheet, some_sheet_faults, Fault,
};
use crate::made::responses::length_to_send;
use crate::made::sheets::{body, every_feature, longest, profiles, random_sheet, sheet_of, short_sheets, E};
use crate::random::Random;
use crate::run::{told, Cases, Input, Kind, Run, Told};
use gcf::raw;
use second::bench::Buffers;
use second::sheet::Layout;

pub const KIND: Kind = Kind { name: "gcf_bench", answers, cases: Cases::InEachLayout(fixed, random) };

/// The sheet's, the start's, and of a round's those that an accepted sheet's own responses can cause.
fn answers() -> Vec<u64> {
    SHEET.into_iter().chain([12, 21, 22, 23, 24, 25]).collect()
}

/// How long the lent buffers are: for the response, the bytes collected and the starts.
#[derive(Clone, Copy)]
struct Rooms {
    response: usize,
    collected: usize,
    starts: usize,
}

/// Compares one bench sweep of a sheet in rows, as it stands in a layout.
fn compare(run: &mut Run, layout: Layout, sheet: &Given, rt: u8, allocation: u16, rooms: Rooms) -> Told {
    compare_count(run, layout, sheet, rt, allocation, rooms, |commands| commands)
}

/// Compares one bench sweep, where the second program's command count is found by `count`, given that of its own sweep.
fn compare_count(
    run: &mut Run,
    layout: Layout,
    sheet: &Given,
    rt: u8,
    allocation: u16,
    rooms: Rooms,
    count: impl Fn(usize) -> usize,
) -> Told {
    let sheet = &*laid_as(layout, sheet);
    run.compare_told(
        &[
            Input::Bytes("sheet", sheet),
            Input::Number("rt", u64::from(rt)),
            Input::Number("allocation", u64::from(allocation)),
            Input::Number("room for the response", rooms.response as u64),
            Input::Number("room for the bytes collected", rooms.collected as u64),
            Input::Number("room for starts", rooms.starts as u64),
        ],
        Memory::none().with_buffer(rooms.response).with_second(rooms.collected).with_starts(rooms.starts),
        |memory| {
            let Memory { first, second, starts, told, .. } = memory;
            let (response, collected, starts) = (first.part(), second.part(), starts.part());
            let (columns, sheet) = (columns(layout), sheet.proved());
            told.by(|swept| raw::bench(columns, sheet, rt, allocation, response, collected, starts, swept))
        },
        |memory| {
            let Memory { first, second, starts, .. } = memory;
            let buffers = Buffers::new(first.part(), second.part(), starts.part());
            let outcome = second::bench::bench(layout, sheet.plain(), rt, allocation, buffers);
            let told = told(&outcome);
            let (commands, collected) = outcome.map_or((0, 0), |done| (done.commands, done.collected));
            memory.told.give(&[count(commands) as u64, collected as u64, told.1 as u64]);
            told
        },
    )
}

fn fixed(run: &mut Run, layout: Layout) {
    each_allocation(run, layout);
    each_list(run, layout);
    each_room(run, layout);
    each_two_faults(run, layout);
    at_the_limit(run, layout);
}

/// The short sheets with each allocation length up to 9 above the full length, and with the longest ones.
fn each_allocation(run: &mut Run, layout: Layout) {
    for sheet in short_sheets() {
        let given = Given::new(&sheet);
        let full = length_to_send(&sheet, 0, 0);
        for rt in 0..2 {
            for allocation in (0..=full + 9).chain([65_533, 65_534, 65_535]) {
                let rooms = Rooms { response: allocation + allocation % 5, collected: full, starts: 160 };
                compare(run, layout, &given, rt, allocation as u16, rooms);
            }
        }
    }
}

/// Small sheets with gaps in their numbering: the command count is the length of the shortest of all lists of starts.
fn each_list(run: &mut Run, layout: Layout) {
    let starts = [0, 1, 2, 3, 4, 5, 6, 7, 65_535];
    for sizes in 0..81 {
        let part = |number, flags, at| (number, flags, body(4 * (sizes / 3_usize.pow(at) % 3)));
        let parts = [part(1, 3, 0), part(2, 0, 1), part(4, 1, 2), part(6, 1, 3)];
        let sheet = sheet_of(&profiles(sizes as u16 % 3, 1), &parts);
        let given = Given::new(&sheet);
        for room in [3, 4, 8, 11, 12, 16, 24] {
            let rooms = Rooms { response: 8 + room, collected: 64, starts: 6 };
            for rt in 0..2 {
                let allocation = 8 + room as u16;
                compare_count(run, layout, &given, rt, allocation, rooms, |_| {
                    second::fewest::fewest(&sheet, rt, allocation, &starts).unwrap_or(0)
                });
            }
        }
    }
}

/// Sheet E with allocation length 20 and each room from none to more than enough.
fn each_room(run: &mut Run, layout: Layout) {
    let given = Given::new(&E);
    for starts in 0..6 {
        for collected in 0..40 {
            for response in [0, 19, 20, 21, 30] {
                for allocation in [20, 19, 43] {
                    compare(run, layout, &given, 0, allocation, Rooms { response, collected, starts });
                }
            }
        }
    }
}

/// A bench sweep's inputs.
#[derive(Clone)]
struct Asked {
    sheet: Vec<u8>,
    rt: u8,
    allocation: u16,
    rooms: Rooms,
}

/// Each two faults of sheet, request and buffers. The first descriptor of the sheet has 16 bytes, the second 256.
fn each_two_faults(run: &mut Run, layout: Layout) {
    let mut faults: Vec<Fault<Asked>> = Vec::new();
    for of_sheet in some_sheet_faults() {
        faults.push(fault_at(of_sheet.told, move |asked: &mut Asked| of_sheet.make(&mut asked.sheet)));
    }
    faults.push(fault(21, |asked: &mut Asked| asked.rt = 2));
    faults.push(fault(21, |asked: &mut Asked| asked.rt = 255));
    faults.push(fault(22, |asked: &mut Asked| asked.allocation = 7));
    faults.push(fault(22, |asked: &mut Asked| asked.allocation = 0));
    faults.push(fault(12, |asked: &mut Asked| asked.rooms.response = usize::from(asked.allocation) - 1));
    // In the first round.
    faults.push(fault(25, |asked: &mut Asked| asked.rooms.starts = 0));
    faults.push(fault(23, |asked: &mut Asked| asked.allocation = 23));
    faults.push(fault(24, |asked: &mut Asked| asked.rooms.collected = 15));
    // In the second.
    faults.push(fault(25, |asked: &mut Asked| asked.rooms.starts = 1));
    faults.push(fault(23, |asked: &mut Asked| asked.allocation = 263));
    faults.push(fault(24, |asked: &mut Asked| asked.rooms.collected = 271));
    let rooms = Rooms { response: 264, collected: 320, starts: 9 };
    let good = Asked { sheet: good_sheet(), rt: 0, allocation: 264, rooms };
    let told = compare(run, layout, &Given::new(&good.sheet), good.rt, good.allocation, good.rooms);
    run.expect_told(told, (0, 0));
    each_pair(&good, &faults, &mut |asked, wanted| {
        let sheet = Given::new(&asked.sheet);
        let told = compare(run, layout, &sheet, asked.rt, asked.allocation, asked.rooms);
        run.expect_told(told, wanted);
    });
}

/// Sweeps of every feature, with the shortest responses and with longer ones, of the longest sheet, and of both with the
/// faults of the last entry.
fn at_the_limit(run: &mut Run, layout: Layout) {
    let (mut every_sheet, mut long_sheet) = (every_feature(), longest());
    let every = Given::new(&every_sheet);
    let rooms = Rooms { response: 3_000, collected: 262_160, starts: 65_540 };
    for (rt, allocation) in [(0, 20), (0, 1_000), (1, 3_000)] {
        let told = compare(run, layout, &every, rt, allocation, rooms);
        run.expect_told(told, (0, 0));
    }
    let told = compare(run, layout, &every, 0, 20, Rooms { starts: 20_000, ..rooms });
    run.expect_told(told, (25, 0));
    let long = Given::new(&long_sheet);
    let rooms = Rooms { response: 65_534, collected: 17_000_000, starts: 300 };
    for rt in 0..2 {
        let told = compare(run, layout, &long, rt, 65_535, rooms);
        run.expect_told(told, (0, 0));
    }
    let rooms = Rooms { response: 300, collected: 300, starts: 300 };
    for sheet in [&mut every_sheet, &mut long_sheet] {
        each_last_fault(sheet, &mut |sheet, wanted| {
            let told = compare(run, layout, &Given::new(sheet), 0, 300, rooms);
            run.expect_told(told, wanted);
        });
    }
}

fn random(run: &mut Run, layout: Layout, random: &mut Random) {
    let most = random.one_of(&[3, 12, 12, 60]);
    let mut sheet = random_sheet(random, most);
    if random.once_in(6) {
        damage(random, &mut sheet);
    }
    let given = Given::new(&sheet);
    let full = length_to_send(&sheet, 0, 0);
    for _ in 0..3 {
        let rt = random.one_of(&[0, 0, 0, 1, 1, 1, 2]);
        let allocation = match random.below(5) {
            0 => random.near(full),
            1 => random.near(8),
            _ => (8 + random.below(full + 300)) as u16,
        };
        let rooms = Rooms {
            response: (usize::from(allocation) + random.below(40)).saturating_sub(1),
            collected: if random.once_in(4) { random.below(full) } else { full },
            starts: if random.once_in(4) { random.below(6) } else { 70 },
        };
        compare(run, layout, &given, rt, allocation, rooms);
    }
}
