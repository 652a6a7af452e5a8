//! One file for each function of the archive: how the two sides are called, and on what.
//! A further function takes a wrapper in bindings/rust/src/raw.rs, a file here, and its line in `KINDS`.

mod bench;
mod build_command;
mod check_descriptors;
mod check_image;
mod check_profile;
mod check_sheet;
mod commands;
mod convert;
mod held;
mod images;
mod import;
mod judge;
mod list;
mod load;
mod make_sense;
mod mend;
mod most;
mod next;
mod place;
mod read;
mod read_sense;
mod respond;
mod respond_accepted;
mod respond_image;
mod respond_image_accepted;
mod stops;
mod sweep_start;
mod sweep_take;
mod words;

pub(crate) use judge::{judged, verdict_fields};
pub(crate) use next::next_fields;
pub(crate) use words::sentence;

use std::borrow::Cow;

use crate::lent::Given;
use crate::run::Kind;
use gcf::raw;
use second::convert::rearranged;
use second::sheet::Layout;
use second::sweep::Record;
use second::wire::{Feature, Profile};

/// Every function.
pub const KINDS: &[Kind] = &[
    words::KIND,
    check_sheet::KIND,
    respond::KIND,
    respond_accepted::KIND,
    convert::KIND,
    load::KIND,
    check_image::KIND,
    respond_image::KIND,
    respond_image_accepted::KIND,
    build_command::KIND,
    read::KIND,
    next::KIND,
    stops::KIND,
    place::KIND,
    held::KIND,
    list::KIND,
    most::KIND,
    sweep_start::KIND,
    sweep_take::KIND,
    bench::KIND,
    judge::KIND,
    check_descriptors::KIND,
    check_profile::KIND,
    mend::KIND,
    import::KIND,
    make_sense::KIND,
    read_sense::KIND,
];

/// A layout as the proved side takes it.
pub(crate) fn columns(layout: Layout) -> bool {
    layout == Layout::Columns
}

/// A sheet in rows, good or damaged, as it stands in a layout.
fn laid(layout: Layout, rows: &[u8]) -> Cow<'_, [u8]> {
    match layout {
        Layout::Rows => Cow::Borrowed(rows),
        Layout::Columns => Cow::Owned(rearranged(layout, Layout::Rows, rows)),
    }
}

/// The same of two copies.
fn laid_as(layout: Layout, rows: &Given) -> Cow<'_, Given> {
    match layout {
        Layout::Rows => Cow::Borrowed(rows),
        Layout::Columns => Cow::Owned(Given::new(&laid(layout, rows.plain()))),
    }
}

/// A record, and the place of a refusal, as the numbers of a result.
pub(crate) fn fields(record: Record, place: u16) -> [u64; 8] {
    [
        u64::from(record.rt),
        u64::from(record.allocation),
        u64::from(record.next.0),
        u64::from(record.commands),
        record.collected as u64,
        u64::from(record.ended),
        u64::from(record.profile.0),
        u64::from(place),
    ]
}

/// A record as the proved side takes it.
pub(crate) fn handed(record: Record) -> raw::Sweep {
    raw::Sweep {
        rt: record.rt,
        allocation: record.allocation,
        next: gcf::Feature(record.next.0),
        commands: record.commands,
        collected: record.collected as u64,
        ended: record.ended,
        profile: gcf::Profile(record.profile.0),
    }
}

/// What the proved side gives of a sweep, as the same numbers.
pub(crate) fn proved(step: raw::Step) -> [u64; 8] {
    let sweep = step.sweep;
    let record = Record {
        rt: sweep.rt,
        allocation: sweep.allocation,
        next: Feature(sweep.next.0),
        commands: sweep.commands,
        collected: sweep.collected as usize,
        ended: sweep.ended,
        profile: Profile(sweep.profile.0),
    };
    fields(record, step.refusal.place)
}

/// The answers of a sheet's check.
const SHEET: [u64; 10] = [0, 1, 2, 3, 4, 5, 44, 6, 7, 8];

/// The answers of a reading with RT 0.
const READING: [u64; 7] = [0, 14, 15, 16, 17, 18, 20];

/// The answers of an image's check: a reading's, 29, 41, and of the sheet's 3, 5 and 44.
const IMAGE: [u64; 12] = [0, 14, 15, 16, 17, 18, 20, 29, 41, 3, 5, 44];
