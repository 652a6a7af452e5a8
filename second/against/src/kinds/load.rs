//! gcf_load.

use super::{columns, laid, SHEET};
use crate::lent::{Given, Memory};
use crate::made::damage::damage;
use crate::made::faults::{each_last_fault, each_pair, fault, fault_at, good_sheet, sheet_faults, Fault};
use crate::made::sheets::{
    every_feature, in_a_row, longest, numbers_in, profiles, random_sheet, sheet_of, short_sheets,
};
use crate::random::Random;
use crate::run::{tell_made, Cases, Input, Kind, Run, Told};
use gcf::raw;
use second::sheet::{Layout, Sheet};
use second::wire::{Feature, Profile};

pub const KIND: Kind = Kind { name: "gcf_load", answers, cases: Cases::InEachLayout(fixed, random) };

/// The sheet's, and 51 to 53.
fn answers() -> Vec<u64> {
    SHEET.into_iter().chain(51..=53).collect()
}

/// What a medium makes current.
#[derive(Clone, Default)]
struct Medium {
    features: Vec<u16>,
    profiles: Vec<u16>,
}

impl Medium {
    fn new(features: &[u16], profiles: &[u16]) -> Medium {
        Medium { features: features.to_vec(), profiles: profiles.to_vec() }
    }

    /// All that a sheet has.
    fn of_all(sheet: &[u8]) -> Medium {
        let mut profiles = profiles_in(sheet);
        profiles.sort_unstable();
        Medium { features: numbers_in(sheet), profiles }
    }

    /// A list as the bytes of its numbers, for what a failure prints.
    fn shown(list: &[u16]) -> Given {
        Given::new(&list.iter().flat_map(|number| number.to_be_bytes()).collect::<Vec<u8>>())
    }
}

/// The profile numbers of a sheet in rows.
fn profiles_in(sheet: &[u8]) -> Vec<u16> {
    Sheet::assume_checked(Layout::Rows, sheet).listed().map(|profile| profile.number.0).collect()
}

/// Loads a medium by the proved side.
fn proved(layout: Layout, sheet: &[u8], medium: &Medium, out: &mut [u8], made: &mut raw::Made) -> u8 {
    let features: Vec<_> = medium.features.iter().map(|&number| gcf::Feature(number)).collect();
    let profiles: Vec<_> = medium.profiles.iter().map(|&number| gcf::Profile(number)).collect();
    raw::load(columns(layout), sheet, &features, &profiles, out, made)
}

/// Compares one loading of a medium into a sheet in rows, as it stands in a layout.
fn compare(run: &mut Run, layout: Layout, rows: &[u8], medium: &Medium, room: usize) -> Told {
    let sheet = Given::new(&laid(layout, rows));
    let features: Vec<_> = medium.features.iter().map(|&number| Feature(number)).collect();
    let profiles: Vec<_> = medium.profiles.iter().map(|&number| Profile(number)).collect();
    let (of_features, of_profiles) = (Medium::shown(&medium.features), Medium::shown(&medium.profiles));
    run.compare_told(
        &[
            Input::Bytes("sheet", &sheet),
            Input::Bytes("features", &of_features),
            Input::Bytes("profiles", &of_profiles),
            Input::Number("room", room as u64),
        ],
        Memory::none().with_buffer(room),
        |memory| {
            let out = memory.first.part();
            memory.told.by(|made| proved(layout, sheet.proved(), medium, out, made))
        },
        |memory| {
            let medium = second::load::Medium { features: &features, profiles: &profiles };
            let made = second::load::load(layout, sheet.plain(), medium, memory.first.part());
            tell_made(memory, made)
        },
    )
}

/// Sees that loading a second medium behind a first gives what it gives alone, by the proved side only.
fn last_counts(run: &mut Run, layout: Layout, rows: &[u8], first: &Medium, second: &Medium) {
    let sheet = Given::new(&laid(layout, rows));
    let (mut one, mut behind, mut alone) =
        (vec![0xA5; rows.len()], vec![0xA5; rows.len()], vec![0xA5; rows.len()]);
    let made = &mut raw::Made::default();
    let accepted = proved(layout, sheet.proved(), first, &mut one, made);
    let numbers = (
        proved(layout, &one, second, &mut behind, made),
        proved(layout, sheet.proved(), second, &mut alone, made),
    );
    let holds = accepted == 0 && numbers == (0, 0) && behind == alone;
    run.holds(holds, "the medium before makes a difference", &[Input::Bytes("sheet", &sheet)]);
}

/// A sheet, a medium, and the room.
#[derive(Clone)]
struct Asked {
    sheet: Vec<u8>,
    medium: Medium,
    room: usize,
}

fn fixed(run: &mut Run, layout: Layout) {
    each_two_faults(run, layout);
    each_list(run, layout);
    for sheet in short_sheets() {
        each_room(run, layout, &sheet);
        for cut in 0..sheet.len() {
            compare(run, layout, &sheet[..cut], &Medium::of_all(&sheet), sheet.len());
        }
        let (all, none) = (Medium::of_all(&sheet), Medium::default());
        last_counts(run, layout, &sheet, &all, &none);
        last_counts(run, layout, &sheet, &none, &all);
    }
    long_lists(run, layout);
}

/// Each two faults of the sheet, of the lists and of the buffer, in their order.
fn each_two_faults(run: &mut Run, layout: Layout) {
    let mut faults: Vec<Fault<Asked>> = Vec::new();
    for of_sheet in sheet_faults() {
        faults.push(fault_at(of_sheet.told, move |asked: &mut Asked| of_sheet.make(&mut asked.sheet)));
    }
    // A list out of order and a list with a repeat, the features' and the profiles', before a number that is lacking.
    faults.push(fault(51, |asked: &mut Asked| asked.medium.features.extend([0x10, 0x10])));
    faults.push(fault(51, |asked: &mut Asked| asked.medium.features.extend([0x100, 2])));
    faults.push(fault(51, |asked: &mut Asked| asked.medium.profiles.extend([3, 3])));
    faults.push(fault(51, |asked: &mut Asked| asked.medium.profiles.extend([2, 1])));
    faults.push(fault(52, |asked: &mut Asked| asked.medium.features.insert(0, 0)));
    faults.push(fault(52, |asked: &mut Asked| asked.medium.features.push(0xFFFE)));
    faults.push(fault(52, |asked: &mut Asked| asked.medium.profiles.push(4)));
    faults.push(fault(52, |asked: &mut Asked| asked.medium.profiles.insert(0, 0)));
    faults.push(fault(53, |asked: &mut Asked| asked.room = 0));
    faults.push(fault(53, |asked: &mut Asked| asked.room = asked.sheet.len().saturating_sub(1)));
    let good = Asked { room: good_sheet().len(), sheet: good_sheet(), medium: Medium::new(&[2], &[1]) };
    each_pair(&good, &faults, &mut |asked, wanted| {
        let told = compare(run, layout, &asked.sheet, &asked.medium, asked.room);
        run.expect_told(told, wanted);
    });
}

/// Every list of up to three numbers, of those that a small sheet has and of neighbours of these, for the features and for the profiles.
fn each_list(run: &mut Run, layout: Layout) {
    let sheet = good_sheet();
    let numbers = [0, 1, 2, 3, 0x10, 0x100, 0xFFFF];
    let mut lists = vec![Vec::new()];
    for from in 0..lists_of(numbers.len()) {
        let longer: Vec<u16> = (0..3)
            .map(|place| from / (numbers.len() + 1).pow(place) % (numbers.len() + 1))
            .filter(|&at| at < numbers.len())
            .map(|at| numbers[at])
            .collect();
        lists.push(longer);
    }
    for list in &lists {
        for medium in [Medium::new(list, &[]), Medium::new(&[], list), Medium::new(list, list)] {
            let told = compare(run, layout, &sheet, &medium, sheet.len());
            if told == (0, 0) {
                last_counts(run, layout, &sheet, &medium, &Medium::new(&[1, 0x10], &[2]));
            }
        }
    }
}

/// How many ways there are to choose three times one of so many numbers, or none.
fn lists_of(count: usize) -> usize {
    (count + 1).pow(3)
}

/// A sheet with each room from none to more than enough.
fn each_room(run: &mut Run, layout: Layout, sheet: &[u8]) {
    for room in 0..=sheet.len() + 9 {
        let told = compare(run, layout, sheet, &Medium::of_all(sheet), room);
        run.expect_told(told, if room < sheet.len() { (53, 0) } else { (0, 0) });
    }
}

/// 63 profiles and 65,535 features: all listed, each second one, none, one more than there are, and one out of order at either end.
fn long_lists(run: &mut Run, layout: Layout) {
    let many = sheet_of(&profiles(63, 7), &in_a_row(2, 4));
    let profiles: Vec<u16> = (1..=63).collect();
    for (list, wanted) in with_faults(&profiles, 64) {
        let told = compare(run, layout, &many, &Medium::new(&[], &list), many.len());
        run.expect_told(told, (wanted, 0));
    }
    let almost = sheet_of(&[], &in_a_row(65_534, 0));
    let numbers = numbers_in(&almost);
    for (list, wanted) in with_faults(&numbers, 65_535) {
        let told = compare(run, layout, &almost, &Medium::new(&list, &[]), almost.len());
        run.expect_told(told, (wanted, 0));
    }
    for mut sheet in [longest(), every_feature()] {
        let all = Medium::of_all(&sheet);
        let second = Medium::new(&all.features.iter().copied().step_by(2).collect::<Vec<u16>>(), &[2]);
        for medium in [&all, &second, &Medium::default()] {
            for less in 0..2 {
                let told = compare(run, layout, &sheet, medium, sheet.len() - less);
                run.expect_told(told, if less == 0 { (0, 0) } else { (53, 0) });
            }
        }
        last_counts(run, layout, &sheet, &all, &second);
        let room = sheet.len();
        each_last_fault(&mut sheet, &mut |sheet, wanted| {
            let told = compare(run, layout, sheet, &second, room);
            run.expect_told(told, wanted);
        });
    }
}

/// A list that is fine, and the same with a number that is lacking or a repeat at either end, with what each gets.
fn with_faults(list: &[u16], lacking: u16) -> Vec<(Vec<u16>, u8)> {
    let behind = |number: u16| [list, &[number]].concat();
    let before = |number: u16| [&[number], list].concat();
    let last = list.len() - 1;
    vec![
        (list.to_vec(), 0),
        (list[1..].to_vec(), 0),
        (list[..last].to_vec(), 0),
        (before(0), 52),
        (behind(lacking), 52),
        (before(list[0]), 51),
        (behind(list[last]), 51),
        (list.iter().rev().copied().collect(), 51),
    ]
}

/// Some of the numbers that a sheet has, seldom with one that it lacks, a repeat, or two that change places.
fn some_of(random: &mut Random, own: &[u16]) -> Vec<u16> {
    let most = random.one_of(&[1, 2, 5]);
    let mut list: Vec<u16> = own.iter().copied().filter(|_| random.once_in(most)).collect();
    if random.once_in(4) {
        let at = random.below(list.len() + 1);
        let near = list.get(at).copied().unwrap_or(9);
        let number = random.near(usize::from(near));
        list.insert(at, number);
    }
    if random.once_in(6) && list.len() > 1 {
        let at = random.below(list.len() - 1);
        list.swap(at, at + 1);
    }
    list
}

fn random(run: &mut Run, layout: Layout, random: &mut Random) {
    let most = if random.once_in(150) { 9_000 } else { random.one_of(&[0, 3, 12, 12, 40, 400]) };
    let sheet = random_sheet(random, most);
    let all = Medium::of_all(&sheet);
    let some = |random: &mut Random| Medium {
        features: some_of(random, &all.features),
        profiles: some_of(random, &all.profiles),
    };
    let (mut before, mut accepted) = (Medium::default(), true);
    for _ in 0..4 {
        let medium = some(random);
        let room = (sheet.len() + random.below(9)).saturating_sub(2);
        compare(run, layout, &sheet, &medium, room);
        let told = compare(run, layout, &sheet, &medium, sheet.len());
        if told == (0, 0) && accepted {
            last_counts(run, layout, &sheet, &before, &medium);
        }
        accepted = told == (0, 0);
        before = medium;
    }
    let mut damaged = sheet.clone();
    damage(random, &mut damaged);
    compare(run, layout, &damaged, &some(random), damaged.len());
}
