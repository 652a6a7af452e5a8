//! gcf_check_sheet.

use super::{columns, laid, SHEET};
use crate::lent::{Given, Memory};
use crate::made::damage::damage;
use crate::made::faults::{each_last_fault, each_pair, good_sheet, sheet_faults, FLAG_FAULTS};
use crate::made::put16;
use crate::made::sheets::{longest, profiles, random_sheet, sheet_of, short_sheets, E, LONGEST};
use crate::random::Random;
use crate::run::{told, Cases, Input, Kind, Run, Told};
use gcf::raw;
use second::sheet::Layout;
use second::wire::be16;

pub const KIND: Kind =
    Kind { name: "gcf_check_sheet", answers: || SHEET.to_vec(), cases: Cases::InEachLayout(fixed, random) };

/// Compares one check of a sheet in rows, as it stands in a layout.
fn compare(run: &mut Run, layout: Layout, sheet: &[u8]) -> Told {
    let sheet = Given::new(&laid(layout, sheet));
    run.compare_told(
        &[Input::Bytes("sheet", &sheet)],
        Memory::none(),
        |memory| memory.told.by(|check| raw::check_sheet(columns(layout), sheet.proved(), check)),
        |memory| {
            let told = told(&second::sheet::check(layout, sheet.plain()));
            memory.told.give(&[told.1 as u64]);
            told
        },
    )
}

fn fixed(run: &mut Run, layout: Layout) {
    let good = good_sheet();
    let told = compare(run, layout, &good);
    run.expect_told(told, (0, 0));
    each_pair(&good, &sheet_faults(), &mut |sheet, wanted| {
        let told = compare(run, layout, sheet);
        run.expect_told(told, wanted);
    });
    for sheet in short_sheets() {
        each_cut_and_bit(run, layout, &sheet);
    }
    counts(run, layout);
    at_the_limit(run, layout);
}

/// A sheet cut at each byte and with bytes added, and with each bit of its contents flipped.
fn each_cut_and_bit(run: &mut Run, layout: Layout, sheet: &[u8]) {
    for cut in 0..=sheet.len() {
        compare(run, layout, &sheet[..cut]);
    }
    let mut longer = sheet.to_vec();
    for _ in 0..9 {
        longer.push(0);
        compare(run, layout, &longer);
    }
    let mut flipped = sheet.to_vec();
    for at in 0..sheet.len().min(400) {
        for bit in 0..8 {
            flipped[at] ^= 1 << bit;
            compare(run, layout, &flipped);
            flipped[at] ^= 1 << bit;
        }
    }
}

/// Every profile count with no features, with all profiles there and with the last one cut.
fn counts(run: &mut Run, layout: Layout) {
    for count in 0..=70 {
        let mut sheet = sheet_of(&profiles(count, 1), &[]);
        compare(run, layout, &sheet);
        compare(run, layout, &sheet[..sheet.len() - 1]);
        // The last profile repeats the first.
        if count > 1 {
            let last = sheet.len() - 4;
            put16(&mut sheet, last, 1);
            let told = compare(run, layout, &sheet);
            run.expect_told(told, if count > 63 { (2, 0) } else { (3, usize::from(count)) });
        }
    }
}

/// The longest sheet, good and with a fault at its end.
fn at_the_limit(run: &mut Run, layout: Layout) {
    let mut sheet = longest();
    run.expect(sheet.len() as u64, LONGEST as u64);
    let told = compare(run, layout, &sheet);
    run.expect_told(told, (0, 0));
    each_last_fault(&mut sheet, &mut |sheet, wanted| {
        let told = compare(run, layout, sheet);
        run.expect_told(told, wanted);
    });
    sheet.push(0);
    let told = compare(run, layout, &sheet);
    run.expect_told(told, (8, 0));
    sheet.truncate(LONGEST - 1);
    let told = compare(run, layout, &sheet);
    run.expect_told(told, (8, 0));
    // Lengths that would be right in fewer bits.
    for more in [0x100, 0x1_0000, 0x100_0000] {
        let mut longer = E.to_vec();
        longer.resize(E.len() + more, 0);
        let told = compare(run, layout, &longer);
        run.expect_told(told, (8, 0));
    }
}

fn random(run: &mut Run, layout: Layout, random: &mut Random) {
    let most = if random.once_in(150) { 9_000 } else { random.one_of(&[3, 12, 12, 40, 400]) };
    let sheet = random_sheet(random, most);
    compare(run, layout, &sheet);
    for _ in 0..8 {
        let mut damaged = sheet.clone();
        damage(random, &mut damaged);
        compare(run, layout, &damaged);
    }
    spoilt(run, layout, random, sheet);
    // Bytes that are no sheet, but with counts that they could have.
    let length = random.below(80);
    let mut noise = random.bytes(length);
    for (at, most) in [(0, 1), (1, 4), (2, 1), (3, 4)] {
        if at < length && !random.once_in(4) {
            noise[at] = random.below(most) as u8;
        }
    }
    compare(run, layout, &noise);
}

/// Compares a sheet whose flags are spoilt somewhere, and then somewhere else as well.
fn spoilt(run: &mut Run, layout: Layout, random: &mut Random, mut sheet: Vec<u8>) {
    let count = usize::from(be16(&sheet, 0));
    if count == 0 {
        return;
    }
    for _ in 0..2 {
        let flags = 4 + 8 * random.below(count) + 2;
        let (_, spoil) = random.one_of(&FLAG_FAULTS);
        sheet[flags] = spoil(sheet[flags]);
        compare(run, layout, &sheet);
    }
}
