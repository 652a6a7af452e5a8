//! gcf_convert.

use super::{columns, laid, SHEET};
use crate::lent::{Given, Memory};
use crate::made::damage::damage;
use crate::made::faults::{each_last_fault, each_pair, fault, fault_at, good_sheet, sheet_faults, Fault};
use crate::made::sheets::{every_feature, longest, random_sheet, short_sheets};
use crate::random::Random;
use crate::run::{tell_made, Cases, Input, Kind, Run, Told};
use gcf::raw;
use second::sheet::Layout;

pub const KIND: Kind = Kind { name: "gcf_convert", answers, cases: Cases::InEachLayout(fixed, random) };

/// The sheet's, and 42.
fn answers() -> Vec<u64> {
    SHEET.into_iter().chain([42]).collect()
}

/// The other layout.
fn other(layout: Layout) -> Layout {
    match layout {
        Layout::Rows => Layout::Columns,
        Layout::Columns => Layout::Rows,
    }
}

/// Compares the conversions of a sheet in rows, as it stands in a layout, to the same layout and to the other.
fn compare(run: &mut Run, layout: Layout, rows: &[u8], room: usize) -> Told {
    compare_to(run, layout, layout, rows, room);
    compare_to(run, layout, other(layout), rows, room)
}

fn compare_to(run: &mut Run, layout: Layout, to: Layout, rows: &[u8], room: usize) -> Told {
    let sheet = Given::new(&laid(layout, rows));
    run.compare_told(
        &[Input::Bytes("sheet", &sheet), Input::Number("room", room as u64)],
        Memory::none().with_buffer(room),
        |memory| {
            let (from, to, out) = (columns(layout), columns(to), memory.first.part());
            memory.told.by(|made| raw::convert(from, sheet.proved(), to, out, made))
        },
        |memory| {
            let made = second::convert::convert(to, layout, sheet.plain(), memory.first.part());
            tell_made(memory, made)
        },
    )
}

/// Sees that the proved side's two conversions undo each other on an accepted sheet.
fn come_back(run: &mut Run, layout: Layout, rows: &[u8]) {
    let sheet = Given::new(&laid(layout, rows));
    let (mut there, mut back, mut made) =
        (vec![0xA5; rows.len()], vec![0xA5; rows.len()], raw::Made::default());
    let (from, to) = (columns(layout), columns(other(layout)));
    let first = raw::convert(from, sheet.proved(), to, &mut there, &mut made);
    let second = raw::convert(to, &there, from, &mut back, &mut made);
    let holds = first == 0 && second == 0 && back == sheet.proved();
    run.holds(holds, "the conversions do not undo each other", &[Input::Bytes("sheet", &sheet)]);
}

/// A sheet and the room for it in the other layout.
#[derive(Clone)]
struct Asked {
    sheet: Vec<u8>,
    room: usize,
}

fn fixed(run: &mut Run, layout: Layout) {
    each_two_faults(run, layout);
    for sheet in short_sheets() {
        each_room(run, layout, &sheet);
        come_back(run, layout, &sheet);
        for cut in 0..sheet.len() {
            compare(run, layout, &sheet[..cut], sheet.len());
        }
    }
    for mut sheet in [longest(), every_feature()] {
        for less in 0..2 {
            let told = compare(run, layout, &sheet, sheet.len() - less);
            run.expect_told(told, if less == 0 { (0, 0) } else { (42, 0) });
        }
        come_back(run, layout, &sheet);
        let room = sheet.len();
        each_last_fault(&mut sheet, &mut |sheet, wanted| {
            let told = compare(run, layout, sheet, room);
            run.expect_told(told, wanted);
        });
    }
}

/// Each two faults of the sheet and of the buffer.
fn each_two_faults(run: &mut Run, layout: Layout) {
    let mut faults: Vec<Fault<Asked>> = Vec::new();
    for of_sheet in sheet_faults() {
        faults.push(fault_at(of_sheet.told, move |asked: &mut Asked| of_sheet.make(&mut asked.sheet)));
    }
    faults.push(fault(42, |asked: &mut Asked| asked.room = 0));
    faults.push(fault(42, |asked: &mut Asked| asked.room = asked.sheet.len().saturating_sub(1)));
    let good = Asked { room: good_sheet().len(), sheet: good_sheet() };
    each_pair(&good, &faults, &mut |asked, wanted| {
        let told = compare(run, layout, &asked.sheet, asked.room);
        run.expect_told(told, wanted);
    });
}

/// A sheet with each room from none to more than enough.
fn each_room(run: &mut Run, layout: Layout, sheet: &[u8]) {
    for room in 0..=sheet.len() + 9 {
        let told = compare(run, layout, sheet, room);
        run.expect_told(told, if room < sheet.len() { (42, 0) } else { (0, 0) });
    }
}

fn random(run: &mut Run, layout: Layout, random: &mut Random) {
    let most = if random.once_in(150) { 9_000 } else { random.one_of(&[0, 3, 12, 12, 40, 400]) };
    let sheet = random_sheet(random, most);
    come_back(run, layout, &sheet);
    for _ in 0..4 {
        let mut damaged = sheet.clone();
        if !random.once_in(4) {
            damage(random, &mut damaged);
        }
        let room = (damaged.len() + random.below(9)).saturating_sub(2);
        compare(run, layout, &damaged, room);
    }
}
