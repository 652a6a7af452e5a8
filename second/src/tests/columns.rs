//! A sheet in columns: the worked example, both conversions, and the same refusals.

use super::cross::each_sheet;
use super::{told, E, E_COLUMNS, E_FULL, FILL};
use crate::command::respond;
use crate::convert::{convert, rearranged};
use crate::numbers::*;
use crate::sheet::Layout::{Columns, Rows};
use crate::sheet::{build_in, check, Sheet};

#[test]
fn the_worked_example() {
    assert_eq!(check(Columns, &E_COLUMNS), Ok(()));
    let mut out = [FILL; 50];
    let command = [0x46, 0, 0, 0, 0, 0, 0, 0, 44, 0];
    assert_eq!(respond(Columns, &E_COLUMNS, &command, &mut out), Ok(44));
    assert_eq!(out[..44], E_FULL);
    assert_eq!(out[44..], [FILL; 6]);
    let (rows, columns) = (Sheet::accept(Rows, &E), Sheet::accept(Columns, &E_COLUMNS));
    assert_eq!(rows.unwrap().meaning(), columns.unwrap().meaning());
}

#[test]
fn conversions() {
    for (to, from, given, wanted) in [(Columns, Rows, E, E_COLUMNS), (Rows, Columns, E_COLUMNS, E)] {
        let mut out = [FILL; 60];
        assert_eq!(convert(to, from, &given, &mut out), Ok(52));
        assert_eq!(out[..52], wanted);
        assert_eq!(out[52..], [FILL; 8]);
        // A sheet may stay as it is.
        assert_eq!(rearranged(from, from, &given), given);
        let mut short = [FILL; 51];
        assert_eq!(convert(to, from, &given, &mut short), Err(SHEET_BUFFER_SHORT.into()));
        assert_eq!(short, [FILL; 51]);
    }
}

#[test]
fn refusals_and_places() {
    // The number and the place, and the byte of the sheet in columns to change for them.
    for (wanted, at, value) in [
        ((PROFILE_BAD, 1), 38, 2),
        ((FEATURE_ORDER, 2), 7, 1),
        ((FLAGS_RESERVED, 4), 15, 0x43),
        ((PERSISTENT_UNCURRENT, 3), 14, 2),
        ((BODY_LENGTH, 1), 16, 2),
        ((BODY_OFFSET, 4), 35, 0x38),
    ] {
        let mut sheet = E_COLUMNS;
        sheet[at] = value;
        assert_eq!(told(check(Columns, &sheet)), wanted);
        assert_eq!(told(check(Rows, &rearranged(Rows, Columns, &sheet))), wanted);
        // The sheet comes before the buffer.
        let mut short = [FILL; 9];
        assert_eq!(told(convert(Rows, Columns, &sheet, &mut short)), wanted);
        assert_eq!(short, [FILL; 9]);
    }
    for cut in 0..52 {
        assert_eq!(check(Columns, &E_COLUMNS[..cut]), check(Rows, &E[..cut]));
    }
}

#[test]
fn made_up_sheets_come_back() {
    each_sheet(7, 500, 40, |_, rows, meaning| {
        let mut columns = vec![FILL; rows.len()];
        assert_eq!(convert(Columns, Rows, rows, &mut columns), Ok(rows.len()));
        assert_eq!(build_in(Columns, &meaning.profiles, &meaning.descriptors).unwrap(), columns);
        assert_eq!(Sheet::accept(Columns, &columns).unwrap().meaning(), meaning);
        let mut back = vec![FILL; rows.len()];
        assert_eq!(convert(Rows, Columns, &columns, &mut back), Ok(rows.len()));
        assert_eq!(back, rows);
    });
}
