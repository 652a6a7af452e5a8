//! What an operation is on either side.

use super::{Case, Numbers, Outcome};
use crate::kinds::{
    columns, fields as record_fields, handed, judged, next_fields, proved as step_fields, sentence,
    verdict_fields,
};
use crate::run::told;
use gcf::raw::{self, Told};
use second::bench::Buffers;
use second::command::Request;
use second::load::Medium;
use second::refusal::Refusal;
use second::sheet::{Layout, Sheet};
use second::sweep::Record;
use second::wire::{Feature, Profile};

/// One of the two that a case is run on.
pub struct Side {
    pub name: &'static str,
    run: fn(&Case, &mut [u8]) -> Option<Numbers>,
}

/// The exported functions, and the second program.
pub const SIDES: [Side; 2] =
    [Side { name: "archive", run: proved }, Side { name: "second program", run: plain }];

/// What a lent buffer holds before a call, and the bytes beside it on either side.
const BEFORE: u8 = 0xEE;
const GUARD: usize = 33;

impl Side {
    /// What comes of a case; none where there is no such operation, or where bytes beside the buffer were changed.
    pub fn outcome(&self, case: &Case) -> Option<Outcome> {
        let length = case.wanted.buffer.len();
        let mut memory = vec![BEFORE; GUARD + length + GUARD];
        let numbers = (self.run)(case, &mut memory[GUARD..GUARD + length])?;
        let (before, behind) = (&memory[..GUARD], &memory[GUARD + length..]);
        let buffer = memory[GUARD..GUARD + length].to_vec();
        before.iter().chain(behind).all(|byte| *byte == BEFORE).then(|| Outcome { numbers, buffer })
    }
}

/// The layout that a number names.
fn layout(columns: u64) -> Layout {
    match columns {
        1 => Layout::Columns,
        _ => Layout::Rows,
    }
}

/// A number of a call and what it told beside it, as the numbers of a case.
fn with(number: u8, further: &[u64]) -> Numbers {
    let mut numbers = Numbers::default();
    numbers[0] = u64::from(number);
    numbers[1..=further.len()].copy_from_slice(further);
    numbers
}

/// A record as the numbers of a case hold it.
fn record(given: Numbers) -> Record {
    Record {
        rt: given[0] as u8,
        allocation: given[1] as u16,
        next: Feature(given[2] as u16),
        commands: given[3] as u32,
        collected: given[4] as usize,
        ended: given[5] != 0,
        profile: Profile(given[6] as u16),
    }
}

/// A number and the seven fields of a record.
fn after(number: u8, fields: [u64; 8]) -> Numbers {
    with(number, &fields[..7])
}

/// The buffers of a bench sweep: for the response, for what is collected, for the starts, which are written behind the two.
fn benched(out: &mut [u8], run: impl FnOnce(&mut [u8], &mut [u8], &mut [u16]) -> Numbers) -> Option<Numbers> {
    let mut starts = [u16::from_be_bytes([BEFORE; 2]); 6];
    let (response, rest) = out.split_at_mut(64.min(out.len()));
    let (collected, list) = rest.split_at_mut(40.min(rest.len()));
    if list.len() != 2 * starts.len() {
        return None;
    }
    let numbers = run(response, collected, &mut starts);
    for (bytes, start) in list.chunks_mut(2).zip(starts) {
        bytes.copy_from_slice(&start.to_be_bytes());
    }
    Some(numbers)
}

/// The buffers of a mending: so many bytes for the copy, then the list of changes, four bytes each.
fn mended(
    out: &mut [u8],
    room: usize,
    run: impl FnOnce(&mut [u8], &mut [u32]) -> Numbers,
) -> Option<Numbers> {
    if room > out.len() {
        return None;
    }
    let (copy, list) = out.split_at_mut(room);
    let mut changes = vec![u32::from_be_bytes([BEFORE; 4]); list.len() / 4];
    let numbers = run(copy, &mut changes);
    for (bytes, change) in list.chunks_exact_mut(4).zip(changes) {
        bytes.copy_from_slice(&change.to_be_bytes());
    }
    Some(numbers)
}

/// A number of a call, and the fields of the struct that it filled, as the numbers of a case.
fn telling<T: Told + Default>(call: impl FnOnce(&mut T) -> u8) -> Numbers {
    let mut told = T::default();
    let number = call(&mut told);
    with(number, told.numbers())
}

/// The archive's side.
fn proved(case: &Case, out: &mut [u8]) -> Option<Numbers> {
    let (given, first, second) = (case.given, &case.first[..], &case.second[..]);
    let laid = columns(layout(given[0]));
    Some(match case.operation.as_str() {
        "words" => one(raw::words(given[0] as u8, out)),
        "sheet" => telling(|told| raw::check_sheet(laid, first, told)),
        "respond" => telling(|told| raw::respond(laid, first, second, out, told)),
        "accepted" => telling(|told| raw::respond_accepted(laid, first, second, out, told)),
        "convert" => telling(|told| raw::convert(laid, first, !laid, out, told)),
        "load" => {
            let (features, profiles) = lists(second, given[1]);
            let features: Vec<_> = features.into_iter().map(gcf::Feature).collect();
            let profiles: Vec<_> = profiles.into_iter().map(gcf::Profile).collect();
            telling(|told| raw::load(laid, first, &features, &profiles, out, told))
        }
        "build" => {
            let (rt, sfn) = (given[1] as u8, gcf::Feature(given[2] as u16));
            telling(|told| raw::build_command(given[0] as usize, rt, sfn, given[3] as u16, out, told))
        }
        "judge" => {
            let (command, response) = second.split_at(second.len().min(given[1] as usize));
            telling(|told| raw::judge(laid, first, command, response, out, told))
        }
        "mend" => {
            let mend = |copy: &mut [u8], list: &mut [u32]| telling(|told| raw::mend(first, copy, list, told));
            return mended(out, given[0] as usize, mend);
        }
        "import" => telling(|told| raw::import(first, out, told)),
        "read" => telling(|told| raw::read(given[0] as u8, gcf::Feature(given[1] as u16), first, told)),
        "next" => telling(|told| u8::from(raw::next(given[0] as usize, first, told))),
        "stops" => {
            let ([most, rt, sfn], mut stop) = ([given[0], given[1], given[2]], raw::Stop::default());
            raw::stops(most as usize, rt as u8, gcf::Feature(sfn as u16), first, &mut stop);
            two(stop.place as usize, stop.feature)
        }
        "place" => one(raw::place(gcf::Feature(given[0] as u16), first)),
        "descriptors" => telling(|told| raw::check_descriptors(first, told)),
        "profile" => {
            let mut said = raw::Judgement::default();
            let number = raw::check_profile(gcf::Profile(given[0] as u16), first, &mut said);
            with(number, &[u64::from(number == 0 && said.wrong == 0), said.feature, said.wrong])
        }
        "held" => one(raw::held(gcf::Feature(given[0] as u16), first, second, out)),
        "list" => one(raw::list(first, out)),
        "most" => one(raw::most(given[0] as u16)),
        "start" => {
            let step = raw::sweep_start(given[0] as u8, given[1] as u16);
            after(step.refusal.number, step_fields(step))
        }
        "take" => {
            let step = raw::sweep_take(handed(record(given)), first, out);
            after(step.refusal.number, step_fields(step))
        }
        "bench" => {
            let (laid, rt, allocation) = (columns(layout(given[2])), given[0] as u8, given[1] as u16);
            return benched(out, |response, collected, starts| {
                telling(|told| raw::bench(laid, first, rt, allocation, response, collected, starts, told))
            });
        }
        _ => return None,
    })
}

/// The features of a medium, so many of the numbers that bytes hold, and its profiles, the others.
fn lists(bytes: &[u8], features: u64) -> (Vec<u16>, Vec<u16>) {
    let mut numbers: Vec<u16> =
        bytes.chunks_exact(2).map(|number| u16::from_be_bytes([number[0], number[1]])).collect();
    let profiles = numbers.split_off(numbers.len().min(features as usize));
    (numbers, profiles)
}

/// A count alone.
fn one(count: usize) -> Numbers {
    two(count, 0)
}

/// A place, and what stands there.
fn two(place: usize, feature: u64) -> Numbers {
    let mut numbers = Numbers::default();
    numbers[..2].copy_from_slice(&[place as u64, feature]);
    numbers
}

/// A count or a refusal, with its place.
fn counted(given: Result<usize, Refusal>) -> Numbers {
    let (number, place) = told(&given);
    with(number, &[given.unwrap_or(0) as u64, place as u64])
}

/// The second program's side.
fn plain(case: &Case, out: &mut [u8]) -> Option<Numbers> {
    let (given, first, second) = (case.given, &case.first[..], &case.second[..]);
    let laid = layout(given[0]);
    Some(match case.operation.as_str() {
        "words" => one(copied(sentence(given[0] as u8).as_bytes(), out)),
        "sheet" => {
            let (number, place) = told(&second::sheet::check(laid, first));
            with(number, &[place as u64])
        }
        "respond" => counted(second::command::respond(laid, first, second, out)),
        "accepted" => {
            let sent = second::command::respond_checked(Sheet::assume_checked(laid, first), second, out);
            with(sent.err().unwrap_or(0), &[sent.unwrap_or(0) as u64])
        }
        "convert" => {
            let to = if laid == Layout::Rows { Layout::Columns } else { Layout::Rows };
            counted(second::convert::convert(to, laid, first, out))
        }
        "load" => {
            let (features, profiles) = lists(second, given[1]);
            let features: Vec<_> = features.into_iter().map(Feature).collect();
            let profiles: Vec<_> = profiles.into_iter().map(Profile).collect();
            let medium = Medium { features: &features, profiles: &profiles };
            counted(second::load::load(laid, first, medium, out))
        }
        "build" => {
            let (rt, sfn, allocation) = (given[1] as u8, Feature(given[2] as u16), given[3] as u16);
            let built = Request { rt, sfn, allocation }.build(given[0] as usize, out);
            with(built.err().unwrap_or(0), &[built.unwrap_or(0) as u64])
        }
        "judge" => {
            let (command, response) = second.split_at(second.len().min(given[1] as usize));
            let said = judged(laid, first, command, response, out);
            with(told(&said).0, &verdict_fields(&said))
        }
        "mend" => {
            return mended(out, given[0] as usize, |copy, list| {
                let made = second::mend::mend(first, copy, list);
                let (length, changes) = made.unwrap_or((0, 0));
                with(made.err().unwrap_or(0), &[length as u64, changes as u64])
            });
        }
        "import" => counted(second::import::import(first, out)),
        "read" => {
            let reading = second::reading::read(given[0] as u8, Feature(given[1] as u16), first, None);
            let fields = [u64::from(reading.profile.0), u64::from(reading.data_length), reading.count as u64];
            let [profile, length, count] = fields;
            with(reading.number, &[profile, length, count, reading.end as u64, u64::from(reading.complete)])
        }
        "next" => {
            let (stands, fields) = next_fields(given[0] as usize, first);
            with(u8::from(stands), &fields)
        }
        "stops" => {
            let [most, rt, sfn] = [given[0], given[1], given[2]];
            let (place, feature) =
                second::reading::stops(most as usize, rt as u8, Feature(sfn as u16), first);
            two(place, u64::from(feature.0))
        }
        "place" => one(second::find::place(Feature(given[0] as u16), first)),
        "descriptors" => {
            let (number, feature) = second::checks::check_descriptors(first);
            with(number, &[u64::from(feature.0)])
        }
        "profile" => {
            let answer = second::checks::check_profile(Profile(given[0] as u16), first);
            let (number, wrong, feature) = answer.fields();
            with(number, &[u64::from(number == 0 && wrong == 0), u64::from(feature.0), u64::from(wrong)])
        }
        "held" => one(copied(second::find::find(Feature(given[0] as u16), first, second), out)),
        "list" => one(copied(&second::lister::list(first), out)),
        "most" => one(second::command::most_bytes(given[0] as u16)),
        "start" => {
            let (number, record) = Record::start(given[0] as u8, given[1] as u16);
            after(number, record_fields(record, 0))
        }
        "take" => {
            let (number, record) = record(given).take(first, out);
            after(number, record_fields(record, 0))
        }
        "bench" => {
            return benched(out, |response, collected, starts| {
                let laid = layout(given[2]);
                let (rt, allocation) = (given[0] as u8, given[1] as u16);
                let buffers = Buffers::new(response, collected, starts);
                let end = second::bench::bench(laid, first, rt, allocation, buffers);
                let (number, place) = told(&end);
                let (commands, count) = end.map_or((0, 0), |done| (done.commands, done.collected));
                with(number, &[commands as u64, count as u64, place as u64])
            })
        }
        _ => return None,
    })
}

/// Copies bytes to the front, as far as there is room, and counts them.
fn copied(bytes: &[u8], out: &mut [u8]) -> usize {
    let count = bytes.len().min(out.len());
    out[..count].copy_from_slice(&bytes[..count]);
    count
}
