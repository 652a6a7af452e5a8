//! Times the proved functions against plain Rust written for speed and against a copy of the bytes; prints a table.
#![forbid(unsafe_code)]

use against::made::captures::{capture_of, example, long_bodies, no_bodies};
use against::made::responses::{long_faultless, response_of, ruled_parts, sent, MOST};
use against::made::sheets::{
    body, every_feature, in_a_row, longest, profiles, profiles_in_no_order, sheet_of, E,
};
use against::made::Part;
use against::run::told;
use against::timing::{head, line, Case, Effort};
use gcf::raw;
use second::bench::{Buffers, Outcome};
use second::command::Request;
use second::convert::rearranged;
use second::fast::bench::bench;
use second::fast::checks::{check_descriptors, check_profile};
use second::fast::columns;
use second::fast::command::{respond, respond_checked};
use second::fast::convert::{to_columns, to_rows};
use second::fast::find::find;
use second::fast::import::import;
use second::fast::lister::list;
use second::fast::load::{load, load_columns};
use second::fast::mend::mend;
use second::fast::reading::read;
use second::fast::rom;
use second::fast::sheet::check;
use second::fast::sweep::take;
use second::load::Medium;
use second::refusal::Refusal;
use second::sense;
use second::sheet::Layout;
use second::sweep::Record;
use second::wire::{Feature, Profile};

const USAGE: &str = "usage: benchmarks [--rounds N] [--milliseconds N] [--only WORDS]
  --rounds N         how often each side of a case is timed at each place, in turn (9 if not given)
  --milliseconds N   how long one timing takes at least (0.5 if not given): short, so that most are not interrupted
  --only WORDS       only the cases with these words in their names";

type Plain = fn(&[u8], &[u8], &mut [u8]) -> Result<usize, u8>;

type PlainLoad = fn(&[u8], Medium, &mut [u8]) -> Result<usize, Refusal>;

type PlainConversion = fn(&[u8], &mut [u8]) -> Result<usize, Refusal>;

/// What the command line asks for.
struct Run {
    effort: Effort,
    only: String,
}

fn main() {
    let words: Vec<String> = std::env::args().skip(1).collect();
    let run = match Run::asked(&words) {
        Some(run) => run,
        None => {
            eprintln!("{USAGE}");
            std::process::exit(2);
        }
    };
    println!("{}", head(run.effort));
    commands(&run);
    commands_from_the_last(&run);
    images(&run);
    checks_of_sheets(&run);
    readings(&run);
    sweeps(&run);
    sheets_in_columns(&run);
    media(&run);
    checks_of_responses(&run);
    mendings(&run);
    imports(&run);
    conversions(&run);
    searches_in_responses(&run);
    listings(&run);
    takings(&run);
    commands_and_sense(&run);
}

impl Run {
    /// Reads the command line; none if it is not understood.
    fn asked(words: &[String]) -> Option<Run> {
        let mut run = Run { effort: Effort { rounds: 9, nanoseconds: 5e5 }, only: String::new() };
        for pair in words.chunks(2) {
            let value = pair.get(1)?;
            match pair[0].as_str() {
                "--rounds" => run.effort.rounds = value.parse::<usize>().ok()?.max(1),
                "--milliseconds" => run.effort.nanoseconds = value.parse::<f64>().ok()? * 1e6,
                "--only" => run.only = value.clone(),
                _ => return None,
            }
        }
        Some(run)
    }

    /// Times a case and prints its line.
    fn time(&self, case: Case) {
        if case.name.contains(&self.only) {
            println!("{}", line(self.effort, case));
        }
    }
}

/// A command's bytes.
fn command(rt: u8, sfn: u16, allocation: u16) -> [u8; 10] {
    Request { rt, sfn: Feature(sfn), allocation }.bytes()
}

/// A sheet of as many profiles as there can be.
fn many_profiles() -> Vec<u8> {
    sheet_of(&profiles(63, 63), &[])
}

/// The same in no order.
fn mixed_profiles() -> Vec<u8> {
    sheet_of(&profiles_in_no_order(63, 63), &[])
}

/// A sheet of 4,000 features with bodies of 4 bytes.
fn small_bodies() -> Vec<u8> {
    sheet_of(&profiles(2, 1), &in_a_row(4_000, 4))
}

/// Commands with the sheet's check and without.
fn commands(run: &Run) {
    let long = sheet_of(&profiles(2, 1), &in_a_row(250, 252));
    let (profiles, mixed, small) = (many_profiles(), mixed_profiles(), small_bodies());
    let cases: [(&str, &[u8], u16, Option<usize>); 5] = [
        ("command to sheet E", &E, 44, None),
        ("command to 63 profiles", &profiles, 65_535, None),
        ("command to 63 profiles in no order", &mixed, 65_535, None),
        ("command to 4,000 features of 4 bytes", &small, 65_535, None),
        ("command to 250 features of 252 bytes", &long, 65_535, Some(252)),
    ];
    for (name, sheet, allocation, pieces) in cases {
        let command = command(0, 0, allocation);
        time_checked(run, name, sheet, command, pieces);
        time_accepted(run, name, sheet, command, pieces);
    }
    let every = every_feature();
    for allocation in [20, 1_000] {
        let name = format!("command to 65,535 features, RT 1, allocation length {allocation}");
        time_accepted(run, &name, &every, command(1, 0, allocation), None);
    }
}

/// A call's number and one of the further results that it tells, added up.
fn told_by<T: Default>(call: impl FnOnce(&mut T) -> u8, result: impl FnOnce(&T) -> u64) -> usize {
    let mut told = T::default();
    usize::from(call(&mut told)) + result(&told) as usize
}

/// Times a command to a sheet or to an image.
fn time_command<R>(
    run: &Run,
    name: String,
    asked: &[u8],
    command: [u8; 10],
    pieces: Option<usize>,
    proved: impl Fn(&[u8], &[u8], &mut [u8], &mut raw::Made) -> u8,
    plain: impl Fn(&[u8], &[u8], &mut [u8]) -> Result<usize, R>,
) {
    let bytes = plain(asked, &command, &mut vec![0; MOST]).unwrap_or(0);
    let case = Case::new(
        name,
        asked,
        MOST,
        move |asked, out| {
            told_by(|sent: &mut raw::Made| proved(asked, &command, out, sent), |sent| sent.bytes)
        },
        move |asked, out| plain(asked, &command, out).unwrap_or(0),
    );
    run.time(Case { bytes, pieces, ..case });
}

/// Times a command to a sheet that is checked.
fn time_checked(run: &Run, name: &str, sheet: &[u8], command: [u8; 10], pieces: Option<usize>) {
    let name = format!("{name}, sheet checked");
    let proved =
        |sheet: &_, command: &_, out: &mut _, sent: &mut _| raw::respond(false, sheet, command, out, sent);
    time_command(run, name, sheet, command, pieces, proved, respond);
}

/// Times a command to a sheet that was accepted before.
fn time_accepted(run: &Run, name: &str, sheet: &[u8], command: [u8; 10], pieces: Option<usize>) {
    let name = format!("{name}, sheet accepted before");
    let proved = |sheet: &_, command: &_, out: &mut _, sent: &mut _| {
        raw::respond_accepted(false, sheet, command, out, sent)
    };
    time_command(run, name, sheet, command, pieces, proved, respond_checked);
}

/// Commands from the last feature on, to many features and to few.
fn commands_from_the_last(run: &Run) {
    for rt in 0..2 {
        for count in [65_535, 100] {
            let parts: Vec<Part> =
                (0..count).map(|index| (65_535 - (count - 1 - index), 3, body(8))).collect();
            let sheet = sheet_of(&profiles(2, 1), &parts);
            let name = format!("command from the last of {count} features, RT {rt}");
            time_accepted(run, &name, &sheet, command(rt, 65_535, 65_535), None);
        }
    }
}

/// The same commands to a sheet and to its image, both accepted before; then to an image that is checked, and its check.
fn images(run: &Run) {
    let long = sheet_of(&profiles(2, 1), &in_a_row(250, 252));
    let (small, empty) = (small_bodies(), no_bodies());
    // RT 0 from 0, RT 0 from the middle on, the current ones, and the one in the middle.
    let sheets: [(&str, &[u8], u16, Option<usize>); 4] = [
        ("sheet E", &E, 0x0003, None),
        ("4,000 features of 4 bytes", &small, 2_000, None),
        ("250 features of 252 bytes", &long, 125, Some(252)),
        ("16,380 features without bodies", &empty, 8_190, None),
    ];
    for (name, sheet, middle, pieces) in sheets {
        let image = sent(sheet, 0, 0, 65_535);
        for (rt, sfn, asked) in [
            (0, 0, "RT 0"),
            (0, middle, "RT 0 from the middle"),
            (1, 0, "RT 1"),
            (2, middle, "RT 2, the middle one"),
        ] {
            let (name, command) = (format!("{name}, {asked}"), command(rt, sfn, 65_535));
            let pieces = pieces.filter(|_| rt < 2);
            time_accepted(run, &format!("command to {name}"), sheet, command, pieces);
            let name = format!("command to the image of {name}, image accepted before");
            let (proved, plain) = (raw::respond_image_accepted, rom::respond_checked);
            time_command(run, name, &image, command, pieces, proved, plain);
        }
        let whole = format!("command to the image of {name}, RT 0, image checked");
        time_command(run, whole, &image, command(0, 0, 65_535), None, raw::respond_image, rom::respond);
        run.time(Case::new(
            format!("check of the image of {name}"),
            &image,
            0,
            |image, _| told_by(|check: &mut raw::Check| raw::check_image(image, check), |check| check.place),
            |image, _| refused(rom::check(image)),
        ));
    }
}

/// The number and the place of a refusal, added up; 0 where there is none.
fn refused(checked: Result<(), Refusal>) -> usize {
    let (number, place) = told(&checked);
    usize::from(number) + place
}

/// Checks of sheets, which read the contents and the profiles.
fn checks_of_sheets(run: &Run) {
    let sheets = [
        ("sheet E", E.to_vec()),
        ("63 profiles", many_profiles()),
        ("63 profiles in no order", mixed_profiles()),
        ("4,000 features of 4 bytes", small_bodies()),
        ("17,039,356 bytes", longest()),
    ];
    for (name, sheet) in &sheets {
        time_check(run, format!("check of a sheet, {name}"), Layout::Rows, sheet, check);
    }
}

/// Times the check of a sheet that is given in rows, in a layout.
fn time_check(
    run: &Run,
    name: String,
    layout: Layout,
    rows: &[u8],
    plain: impl Fn(&[u8]) -> Result<(), Refusal>,
) {
    let (sheet, laid) = (rearranged(layout, Layout::Rows, rows), layout == Layout::Columns);
    let case = Case::new(
        name,
        &sheet,
        0,
        |sheet, _| {
            told_by(|check: &mut raw::Check| raw::check_sheet(laid, sheet, check), |check| check.place)
        },
        |sheet, _| refused(plain(sheet)),
    );
    let bytes = 4 + 8 * usize::from(u16::from_be_bytes([rows[0], rows[1]])) + 4 * usize::from(rows[3]);
    run.time(Case { bytes, ..case });
}

/// Readings of 65,534 bytes with long bodies, with small ones and with none.
fn readings(run: &Run) {
    for (name, count, length) in
        [("bodies of 252 bytes", 257, 252), ("bodies of 4 bytes", 8_192, 4), ("no bodies", 16_384, 0)]
    {
        let parts: Vec<Part> = (0..count).map(|number| (number, 3, body(length))).collect();
        run.time(Case::new(
            format!("reading of 65,534 bytes, {name}"),
            &response_of(0x0012, &parts)[..MOST],
            0,
            |response, _| {
                told_by(
                    |reading: &mut raw::Reading| raw::read(0, gcf::Feature(0), response, reading),
                    |reading| reading.count,
                )
            },
            |response, _| read(0, Feature(0), response, None).count,
        ));
    }
}

/// Bench sweeps of 65,535 features without bodies, with long responses and with short ones, with a response buffer
/// that is as long as the longest response and longer than these, and with a command for each feature.
fn sweeps(run: &Run) {
    let rows = &every_feature();
    for rt in 0..2 {
        for allocation in [65_535, 1_000, 20] {
            let name = format!("bench sweep of 65,535 features, RT {rt}, allocation length {allocation}");
            let room = MOST.min(usize::from(allocation));
            time_sweep(run, name, Swept { rows, rt, allocation, room }, Layout::Rows, bench);
        }
    }
    for allocation in [1_000, 20] {
        let name =
            format!("bench sweep of 65,535 features, RT 0, allocation length {allocation}, long buffer");
        time_sweep(run, name, Swept { rows, rt: 0, allocation, room: MOST }, Layout::Rows, bench);
    }
    // A descriptor to a response: as many commands as there can be.
    let parts: Vec<Part> = (1..=65_535).map(|number| (number, 1, Vec::new())).collect();
    let rows = &sheet_of(&profiles(0, 0), &parts);
    for rt in 0..2 {
        let name = format!("bench sweep of 65,535 current features, RT {rt}, allocation length 12");
        time_sweep(run, name, Swept { rows, rt, allocation: 12, room: 12 }, Layout::Rows, bench);
    }
    let name = "bench sweep of 4,000 features of 4 bytes, RT 0, allocation length 1000".to_string();
    let small = Swept { rows: &small_bodies(), rt: 0, allocation: 1_000, room: 1_000 };
    time_sweep(run, name, small, Layout::Rows, bench);
}

/// What is swept: a sheet in rows, with a response buffer of a length.
struct Swept<'a> {
    rows: &'a [u8],
    rt: u8,
    allocation: u16,
    room: usize,
}

/// Times a bench sweep in a layout; what is collected is written behind the response.
fn time_sweep(
    run: &Run,
    name: String,
    swept: Swept,
    layout: Layout,
    plain: impl Fn(&[u8], u8, u16, Buffers) -> Result<Outcome, Refusal>,
) {
    let Swept { rows, rt, allocation, room } = swept;
    let (sheet, laid) = (rearranged(layout, Layout::Rows, rows), layout == Layout::Columns);
    let (mut starts, mut other_starts) = (vec![0; 65_536], vec![0; 65_536]);
    let bytes = sent_in_full(rows, rt);
    let case = Case::new(
        name,
        &sheet,
        room + bytes,
        move |sheet, out| {
            let (response, collected) = out.split_at_mut(room);
            told_by(
                |swept: &mut raw::Swept| {
                    raw::bench(laid, sheet, rt, allocation, response, collected, &mut starts, swept)
                },
                |swept| swept.commands,
            )
        },
        move |sheet, out| {
            let (response, collected) = out.split_at_mut(room);
            let outcome = plain(sheet, rt, allocation, Buffers::new(response, collected, &mut other_starts));
            outcome.map_or(0, |outcome| outcome.commands)
        },
    );
    run.time(Case { bytes, ..case });
}

/// Sheets in columns that are timed in rows too: a command from the last feature, the check, a bench sweep.
fn sheets_in_columns(run: &Run) {
    let parts: Vec<Part> = (1..=65_535).map(|number| (number, 3, body(8))).collect();
    let rows = sheet_of(&profiles(2, 1), &parts);
    let sheet = rearranged(Layout::Columns, Layout::Rows, &rows);
    for rt in 0..2 {
        let name = format!("command from the last of 65535 features, RT {rt}");
        time_accepted_in_columns(run, &name, &sheet, command(rt, 65_535, 65_535));
    }
    for (name, rows) in [("4,000 features of 4 bytes", small_bodies()), ("65,535 features", every_feature())]
    {
        let sheet = rearranged(Layout::Columns, Layout::Rows, &rows);
        for (rt, allocation) in [(0, 65_535), (1, 65_535), (1, 20)] {
            let name = format!("command to {name}, RT {rt}, allocation length {allocation}");
            time_accepted_in_columns(run, &name, &sheet, command(rt, 0, allocation));
        }
    }
    for (name, rows) in [("4,000 features of 4 bytes", small_bodies()), ("17,039,356 bytes", longest())] {
        let name = format!("check of a sheet, {name}, in columns");
        time_check(run, name, Layout::Columns, &rows, columns::check);
    }
    searches(run);
    let rows = &every_feature();
    for rt in 0..2 {
        let name = format!("bench sweep of 65,535 features, RT {rt}, allocation length 1000, in columns");
        let swept = Swept { rows, rt, allocation: 1_000, room: 1_000 };
        time_sweep(run, name, swept, Layout::Columns, columns::bench);
    }
}

/// Times a command to a sheet in columns that was accepted before.
fn time_accepted_in_columns(run: &Run, name: &str, sheet: &[u8], command: [u8; 10]) {
    let name = format!("{name}, sheet accepted before, in columns");
    let proved = |sheet: &_, command: &_, out: &mut _, sent: &mut _| {
        raw::respond_accepted(true, sheet, command, out, sent)
    };
    time_command(run, name, sheet, command, None, proved, columns::respond_checked);
}

/// The search for one feature that is not there, another one each time, in rows and in columns; there is little else to these commands.
fn searches(run: &Run) {
    let parts: Vec<Part> = (1..=32_767).map(|half| (2 * half, 3, body(0))).collect();
    let rows = sheet_of(&profiles(2, 1), &parts);
    let sides: [(&str, Layout, Plain); 2] =
        [("", Layout::Rows, respond_checked), (", in columns", Layout::Columns, columns::respond_checked)];
    for (where_it_stands, layout, plain) in sides {
        let (mut turn, mut other_turn) = (0, 0);
        let sheet = rearranged(layout, Layout::Rows, &rows);
        let case = Case::new(
            format!("search among 32,767 features, RT 2{where_it_stands}"),
            &sheet,
            MOST,
            |sheet, out| {
                let (laid, command) = (layout == Layout::Columns, odd_one(&mut turn));
                told_by(
                    |sent: &mut raw::Made| raw::respond_accepted(laid, sheet, &command, out, sent),
                    |sent| sent.bytes,
                )
            },
            |sheet, out| plain(sheet, &odd_one(&mut other_turn), out).unwrap_or(0),
        );
        run.time(Case { bytes: 8, ..case });
    }
}

/// A command for one feature with an odd number, far from the one before.
fn odd_one(turn: &mut u16) -> [u8; 10] {
    *turn = turn.wrapping_add(40_502);
    command(2, *turn | 1, 65_535)
}

/// Media loaded: into sheet E, into 63 profiles, and into 65,535 features, of which all, each second and none are listed.
fn media(run: &Run) {
    let (every, profiles) = (every_feature(), many_profiles());
    let current: Vec<u16> = (1..=63).collect();
    time_load(run, "a medium into sheet E", &E, &[0x1F], &[0x12]);
    time_load(run, "a medium into 63 profiles", &profiles, &[], &current);
    for (name, step) in [("all", 1), ("each second one", 2), ("none", 65_536)] {
        let listed: Vec<u16> = (1..=65_535).step_by(step).skip(step / 65_536).collect();
        time_load(run, &format!("a medium into 65,535 features, {name} listed"), &every, &listed, &[1]);
    }
}

/// Times a loading in both layouts.
fn time_load(run: &Run, name: &str, rows: &[u8], features: &[u16], profiles: &[u16]) {
    let sides: [(&str, Layout, PlainLoad); 2] =
        [("", Layout::Rows, load), (", in columns", Layout::Columns, load_columns)];
    let (proved_features, proved_profiles): (Vec<_>, Vec<_>) = (
        features.iter().map(|&number| gcf::Feature(number)).collect(),
        profiles.iter().map(|&number| gcf::Profile(number)).collect(),
    );
    let (plain_features, plain_profiles): (Vec<_>, Vec<_>) = (
        features.iter().map(|&number| Feature(number)).collect(),
        profiles.iter().map(|&number| Profile(number)).collect(),
    );
    let medium = Medium { features: &plain_features, profiles: &plain_profiles };
    for (where_it_stands, layout, plain) in sides {
        let name = format!("{name}{where_it_stands}");
        let proved = |laid: bool, sheet: &[u8], out: &mut [u8], made: &mut raw::Made| {
            raw::load(laid, sheet, &proved_features, &proved_profiles, out, made)
        };
        time_making(run, name, layout, rows, proved, |sheet, out| plain(sheet, medium, out));
    }
}

/// Times the making of a sheet out of another one, which is given in rows, in a layout.
fn time_making(
    run: &Run,
    name: String,
    layout: Layout,
    rows: &[u8],
    proved: impl Fn(bool, &[u8], &mut [u8], &mut raw::Made) -> u8,
    plain: impl Fn(&[u8], &mut [u8]) -> Result<usize, Refusal>,
) {
    let (sheet, laid) = (rearranged(layout, Layout::Rows, rows), layout == Layout::Columns);
    run.time(Case::new(
        name,
        &sheet,
        rows.len(),
        |sheet, out| told_by(|made: &mut raw::Made| proved(laid, sheet, out, made), |made| made.bytes),
        |sheet, out| plain(sheet, out).unwrap_or(0),
    ));
}

/// Responses mended: clean ones, and ones with a stray bit in each descriptor's flags and in each body that has a rule.
fn mendings(run: &Run) {
    let mut stray = ruled_parts();
    for part in &mut stray {
        part.1 |= 0x40;
        part.2.iter_mut().take(3).for_each(|byte| *byte |= 0x10);
    }
    let mut flags = long_faultless();
    flags.iter_mut().skip(10).step_by(4).for_each(|byte| *byte |= 0x40);
    let responses = [
        ("sheet E's response", example()),
        ("all rules", response_of(0x12, &ruled_parts())),
        ("all rules, stray bits", response_of(0x12, &stray)),
        ("65,532 bytes without bodies", long_faultless()),
        ("65,532 bytes without bodies, stray flags", flags),
    ];
    for (name, response) in &responses {
        let (mut list, mut other) = (vec![0; response.len()], vec![0; response.len()]);
        run.time(Case::new(
            format!("mending, {name}"),
            response,
            response.len(),
            move |response, out| {
                told_by(
                    |mended: &mut raw::Mended| raw::mend(response, out, &mut list, mended),
                    |mended| mended.changes,
                )
            },
            move |response, out| mend(response, out, &mut other).map_or(0, |made| made.1),
        ));
    }
}

/// How many bytes a sweep collects from a sheet.
fn sent_in_full(sheet: &[u8], rt: u8) -> usize {
    let room = &mut vec![0; 1 << 20];
    let outcome = bench(sheet, rt, 65_535, Buffers::new(&mut vec![0; MOST], room, &mut vec![0; 65_536]));
    outcome.map_or(0, |outcome| outcome.collected)
}

/// Both checks of responses.
fn checks_of_responses(run: &Run) {
    let responses = [
        ("sheet E's response", example()),
        ("all rules", response_of(0x12, &ruled_parts())),
        ("63 profiles", with_feature_1(&sent(&many_profiles(), 0, 0, 65_535)[12..])),
        ("65,532 bytes without bodies", long_faultless()),
    ];
    for (name, response) in &responses {
        run.time(Case::new(
            format!("check of the descriptors, {name}"),
            response,
            0,
            |response, _| {
                told_by(
                    |finding: &mut raw::Finding| raw::check_descriptors(response, finding),
                    |finding| finding.feature,
                )
            },
            |response, _| {
                let (number, feature) = check_descriptors(response);
                usize::from(number) + usize::from(feature.0)
            },
        ));
        for (profile, said) in [(0x0012, "profile 0012h"), (0x0000, "the archive subset")] {
            run.time(Case::new(
                format!("check of {said}, {name}"),
                response,
                0,
                move |response, _| {
                    told_by(
                        |said: &mut raw::Judgement| raw::check_profile(gcf::Profile(profile), response, said),
                        |said| said.feature,
                    )
                },
                move |response, _| {
                    let (number, _, feature) = check_profile(Profile(profile), response).fields();
                    usize::from(number) + usize::from(feature.0)
                },
            ));
        }
    }
}

/// A response with a list of profiles that the checks find nothing in.
fn with_feature_1(list: &[u8]) -> Vec<u8> {
    capture_of(list, &[(1, 3, vec![0, 0, 0, 2])])
}

/// Imports of responses.
fn imports(run: &Run) {
    let captures = [
        ("sheet E's response", example(), None),
        ("63 profiles", sent(&many_profiles(), 0, 0, 65_535), None),
        ("63 profiles in no order", sent(&mixed_profiles(), 0, 0, 65_535), None),
        ("4,000 features of 4 bytes", sent(&small_bodies(), 0, 0, 65_535), None),
        ("65,532 bytes, bodies of 252 bytes", sent(&long_bodies(), 0, 0, 65_535), Some(252)),
        ("65,532 bytes, no bodies", sent(&no_bodies(), 0, 0, 65_535), None),
    ];
    for (name, capture, pieces) in &captures {
        let case = Case::new(
            format!("import of {name}"),
            capture,
            2 * MOST,
            |capture, sheet| {
                told_by(|made: &mut raw::Made| raw::import(capture, sheet, made), |made| made.bytes)
            },
            |capture, sheet| import(capture, sheet).unwrap_or(0),
        );
        run.time(Case { pieces: *pieces, ..case });
    }
}

/// Sheets laid out anew, both ways.
fn conversions(run: &Run) {
    let sides: [(&str, Layout, PlainConversion); 2] =
        [("columns", Layout::Rows, to_columns), ("rows", Layout::Columns, to_rows)];
    let sheets = [
        ("sheet E", E.to_vec()),
        ("4,000 features of 4 bytes", small_bodies()),
        ("65,535 features", every_feature()),
    ];
    for (name, rows) in &sheets {
        for (to, from, plain) in sides {
            let proved = |laid: bool, sheet: &[u8], out: &mut [u8], made: &mut raw::Made| {
                raw::convert(laid, sheet, !laid, out, made)
            };
            time_making(run, format!("{name} to {to}"), from, rows, proved, plain);
        }
    }
}

/// Responses that are read and listed: the smallest, one with small bodies and one without.
fn read_responses() -> [(&'static str, Vec<u8>); 3] {
    [
        ("sheet E's response", example()),
        ("4,000 features of 4 bytes", sent(&small_bodies(), 0, 0, 65_535)),
        ("65,532 bytes, no bodies", sent(&no_bodies(), 0, 0, 65_535)),
    ]
}

/// A descriptor looked for in a fresh response that has it, and in one that lacks it, with the same one kept.
fn searches_in_responses(run: &Run) {
    for (name, response) in &read_responses() {
        for (where_it_is, feature) in [("there", 3), ("nowhere", 65_535)] {
            run.time(Case::new(
                format!("a descriptor held, {where_it_is}, {name}"),
                response,
                256,
                move |response, out| raw::held(gcf::Feature(feature), response, response, out),
                move |response, out| {
                    let found = find(Feature(feature), response, response);
                    out[..found.len()].copy_from_slice(found);
                    found.len()
                },
            ));
        }
    }
}

/// Listings of responses.
fn listings(run: &Run) {
    for (name, response) in &read_responses() {
        run.time(Case::new(format!("listing of {name}"), response, 250_000, raw::list, list));
    }
}

/// Responses taken by a sweep that has just begun.
fn takings(run: &Run) {
    for (name, response) in &read_responses() {
        let allocation = 65_535;
        let begun = raw::sweep_start(0, allocation).sweep;
        let record = Record { allocation, ended: false, ..Record::refused() };
        run.time(Case::new(
            format!("sweep takes {name}"),
            response,
            response.len(),
            move |response, out| {
                let step = raw::sweep_take(begun, response, out);
                usize::from(step.refusal.number) + step.sweep.collected as usize
            },
            move |response, out| {
                let (number, after) = take(record, response, out);
                usize::from(number) + after.collected
            },
        ));
    }
}

/// A command built, and sense data made and read.
fn commands_and_sense(run: &Run) {
    for length in [10, 12] {
        let (rt, sfn, allocation) = (1, 0x0105, 65_534);
        let case = Case::new(
            format!("a command of {length} bytes built"),
            &[],
            length,
            move |_, out| {
                told_by(
                    |made: &mut raw::Made| {
                        raw::build_command(length, rt, gcf::Feature(sfn), allocation, out, made)
                    },
                    |made| made.bytes,
                )
            },
            move |_, out| Request { rt, sfn: Feature(sfn), allocation }.build(length, out).unwrap_or(0),
        );
        run.time(Case { bytes: length, ..case });
    }
    for (name, number) in [("the opcode", 10), ("the sheet", 7)] {
        let (asked, mut made) = ([number], [0; 18]);
        let _ = sense::make(number, &mut made);
        let case = Case::new(
            format!("sense data made for {name}"),
            &asked,
            18,
            |number, out| {
                told_by(|made: &mut raw::Made| raw::make_sense(number[0], out, made), |made| made.bytes)
            },
            |number, out| sense::make(number[0], out).unwrap_or(0),
        );
        run.time(Case { bytes: 18, ..case });
        run.time(Case::new(
            format!("sense data read for {name}"),
            &made,
            0,
            |sense, _| {
                told_by(|meaning: &mut raw::Meaning| raw::read_sense(sense, meaning), |meaning| meaning.kind)
            },
            |sense, _| sense::read(sense).map_or(0, |kind| kind as usize + 1),
        ));
    }
}
