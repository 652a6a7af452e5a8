//! A medium loaded: the worked example, the refusals in their order, and what a medium before makes no difference to.

use super::cross::each_sheet;
use super::{ask, told, Numbers, E, E_COLUMNS, FILL};
use crate::convert::rearranged;
use crate::fast;
use crate::load::{load, Medium};
use crate::numbers::*;
use crate::sheet::Layout::{Columns, Rows};
use crate::sheet::{check, Layout, Sheet};
use crate::wire::{Feature, Profile};

/// The lists of a medium: its features and its profiles.
type Lists = (Vec<Feature>, Vec<Profile>);

fn medium(features: &[u16], profiles: &[u16]) -> Lists {
    let features = features.iter().map(|&number| Feature(number)).collect();
    (features, profiles.iter().map(|&number| Profile(number)).collect())
}

/// What loading gives: the number and the place, and the buffer. The fast one has to give the same.
fn loaded(layout: Layout, sheet: &[u8], medium: &Lists, room: usize) -> ((u8, usize), Vec<u8>) {
    let (mut out, mut other) = (vec![FILL; room], vec![FILL; room]);
    let medium = Medium { features: &medium.0, profiles: &medium.1 };
    let made = load(layout, sheet, medium, &mut out);
    let fast = match layout {
        Rows => fast::load::load(sheet, medium, &mut other),
        Columns => fast::load::load_columns(sheet, medium, &mut other),
    };
    assert_eq!(made, fast);
    assert!(out == other);
    (told(made), out)
}

#[test]
fn the_worked_example() {
    // An empty tray: 001Fh is not current, nor is a profile; 0001h, 0003h and 0105h are Persistent.
    let mut empty = E;
    empty[22] = 0;
    empty[38] = 0;
    assert_eq!(loaded(Rows, &E, &medium(&[], &[]), 52), ((0, 0), empty.to_vec()));
    assert_eq!(ask(&empty, 1, 0, 100).1[..8], [0, 0, 0, 36, 0, 0, 0, 0]);
    // A recordable disc goes in; that a Persistent feature is listed makes no difference.
    for features in [&[0x1F][..], &[0x1F, 0x105], &[1, 3, 0x1F, 0x105]] {
        assert_eq!(loaded(Rows, &empty, &medium(features, &[0x12]), 52), ((0, 0), E.to_vec()));
    }
    // A DVD-ROM: 0010h is the Current Profile.
    let (_, rom) = loaded(Rows, &E, &medium(&[], &[0x10]), 60);
    assert_eq!((rom[22], rom[38], rom[42]), (0, 0, 1));
    assert_eq!(rom[52..], [FILL; 8]);
    assert_eq!(ask(&rom[..52], 0, 0, 8).1, [0, 0, 0, 40, 0, 0, 0, 0x10]);
    // The same in columns.
    let (_, columns) = loaded(Columns, &E_COLUMNS, &medium(&[], &[0x10]), 52);
    assert_eq!(rearranged(Rows, Columns, &columns), rom[..52]);
}

#[test]
fn all_other_bits_stay() {
    // Version 15, with and without Persistent.
    let mut sheet = E;
    (sheet[6], sheet[22]) = (0x3F, 0x3D);
    let (_, ejected) = loaded(Rows, &sheet, &medium(&[], &[]), 52);
    assert_eq!((ejected[6], ejected[22]), (0x3F, 0x3C));
    let (_, back) = loaded(Rows, &ejected, &medium(&[0x1F], &[0x12]), 52);
    assert_eq!(back, sheet);
}

#[test]
fn refusals() {
    let cases: [(&[u16], &[u16], usize, u8); 13] = [
        (&[0x1F, 0x1F], &[], 0, LIST_ORDER),
        (&[0x1F, 1], &[0x13], 0, LIST_ORDER),
        (&[0x20], &[0x12, 0x10], 0, LIST_ORDER),
        (&[0x20], &[0x12, 0x12], 0, LIST_ORDER),
        (&[0], &[], 0, SHEET_LACKS),
        (&[0, 1], &[], 52, SHEET_LACKS),
        (&[0x1F, 0x106], &[], 52, SHEET_LACKS),
        (&[2, 3], &[], 52, SHEET_LACKS),
        (&[], &[0], 0, SHEET_LACKS),
        (&[], &[0x10, 0x11], 52, SHEET_LACKS),
        // 0012h is a profile of the sheet, and no feature.
        (&[0x12], &[], 52, SHEET_LACKS),
        (&[0x1F], &[0x10, 0x12], 51, LOADED_SHORT),
        (&[], &[], 0, LOADED_SHORT),
    ];
    for (features, profiles, room, wanted) in cases {
        for (layout, sheet) in [(Rows, E), (Columns, E_COLUMNS)] {
            let made = loaded(layout, &sheet, &medium(features, profiles), room);
            assert_eq!(made, ((wanted, 0), vec![FILL; room]));
        }
    }
    // The sheet comes first, with its place.
    let mut bad = E;
    bad[14] = 2;
    assert_eq!(loaded(Rows, &bad, &medium(&[9, 8], &[0]), 0).0, (PERSISTENT_UNCURRENT, 2));
}

/// Some of the numbers that a sheet has, ascending.
fn some(numbers: &mut Numbers, own: impl Iterator<Item = u16>) -> Vec<u16> {
    let mut list: Vec<u16> = own.filter(|_| numbers.below(2) == 0).collect();
    list.sort_unstable();
    list
}

#[test]
fn made_up_media() {
    each_sheet(13, 300, 40, |numbers, rows, meaning| {
        let mut media = (0..2).map(|_| {
            let features = some(numbers, meaning.descriptors.iter().map(|own| own.feature.0));
            medium(&features, &some(numbers, meaning.profiles.iter().map(|own| own.number.0)))
        });
        let (first, second) = (media.next().unwrap(), media.next().unwrap());
        for layout in [Rows, Columns] {
            let sheet = rearranged(layout, Rows, rows);
            let (number, one) = loaded(layout, &sheet, &first, rows.len());
            assert_eq!((number, check(layout, &one)), ((0, 0), Ok(())));
            // What was in before makes no difference, and both layouts load to both layouts of one sheet.
            let alone = loaded(layout, &sheet, &second, rows.len());
            assert_eq!(loaded(layout, &one, &second, rows.len()), alone);
            assert_eq!(rearranged(Rows, layout, &alone.1), loaded(Rows, rows, &second, rows.len()).1);
            let then = Sheet::accept(layout, &one).unwrap().meaning();
            for (before, after) in meaning.descriptors.iter().zip(&then.descriptors) {
                let current = before.flags & PERSISTENT != 0 || first.0.contains(&before.feature);
                assert_eq!(after.flags, before.flags & !CURRENT | u8::from(current));
                assert_eq!((after.feature, after.body), (before.feature, before.body));
            }
            for (before, after) in meaning.profiles.iter().zip(&then.profiles) {
                assert_eq!((after.number, after.current), (before.number, first.1.contains(&before.number)));
            }
        }
    });
}
