//! gcf_judge.

use super::commands::command;
use super::{columns, laid, SHEET};
use crate::lent::{Given, Memory};
use crate::made::damage::damage;
use crate::made::faults::{each_pair, fault, fault_at, good_sheet, some_sheet_faults, Fault};
use crate::made::responses::length_to_send;
use crate::made::sheets::{body, longest, profiles, random_sheet, sheet_of, short_sheets, starts_for};
use crate::made::Part;
use crate::random::Random;
use crate::run::{told, Cases, Input, Kind, Run, LAYOUTS};
use gcf::raw;
use second::command::{most_bytes, Request};
use second::judge::{judge, sent, Mistake, Verdict, MISTAKES};
use second::refusal::Refusal;
use second::sheet::{Layout, Sheet};
use second::wire::Feature;

pub const KIND: Kind = Kind { name: "gcf_judge", answers, cases: Cases::Of(fixed, random) };

/// A refusal; else a hundred for each verdict, with the mistake that explains it, or with the number that the command is to be refused with.
fn answers() -> Vec<u64> {
    let refused = SHEET.into_iter().filter(|&number| number != 0).chain([12]);
    refused.chain([100, 200, 300]).chain(400..=407).chain(509..=511).collect()
}

/// What was recorded: a sheet, a command and the response to it, and the room for what is due.
#[derive(Clone)]
struct Recorded {
    sheet: Vec<u8>,
    command: Vec<u8>,
    response: Vec<u8>,
    room: usize,
}

/// What the plain side says, and what it leaves in the buffer.
type Judged = Result<(Verdict, Option<Vec<u8>>), Refusal>;

/// The plain side's judgement; the buffer as it must stand afterwards.
pub fn judged(layout: Layout, sheet: &[u8], command: &[u8], response: &[u8], due: &mut [u8]) -> Judged {
    let said = judge(layout, sheet, command, response, due.len());
    if let Ok((_, Some(bytes))) = &said {
        due.fill(0);
        due[..bytes.len()].copy_from_slice(bytes);
    }
    said
}

/// The fields of the struct.
pub fn verdict_fields(said: &Judged) -> [u64; 5] {
    let number = |mistake: Option<Mistake>| mistake.map_or(0, |mistake| mistake as u64);
    match said {
        Ok((Verdict::Exact, _)) => [1, 0, 0, 0, 0],
        Ok((Verdict::Padded(at), _)) => [2, *at as u64, 0, 0, 0],
        Ok((Verdict::Short(at), _)) => [3, *at as u64, 0, 0, 0],
        Ok((Verdict::Wrong(at, mistake), _)) => [4, *at as u64, number(*mistake), 0, 0],
        Ok((Verdict::Answered(refusal), _)) => [5, 0, 0, u64::from(*refusal), 0],
        Err(refusal) => [0, 0, 0, 0, refusal.place as u64],
    }
}

/// Compares one judgement of a sheet in rows, as it stands in a layout; gives what it counts as.
fn compare_in(run: &mut Run, layout: Layout, asked: &Recorded) -> u64 {
    let (sheet, command) = (Given::new(&laid(layout, &asked.sheet)), Given::new(&asked.command));
    let response = Given::new(&asked.response);
    let mut answer = 0;
    run.uncounted(
        &[
            Input::Number("columns", u64::from(columns(layout))),
            Input::Bytes("sheet", &sheet),
            Input::Bytes("command", &command),
            Input::Bytes("response", &response),
            Input::Number("room", asked.room as u64),
        ],
        Memory::none().with_buffer(asked.room),
        |memory| {
            let (columns, due) = (columns(layout), memory.first.part());
            let judge = |verdict: &mut _| {
                raw::judge(columns, sheet.proved(), command.proved(), response.proved(), due, verdict)
            };
            u64::from(memory.told.by(judge))
        },
        |memory| {
            let due = memory.first.part();
            let said = judged(layout, sheet.plain(), command.plain(), response.plain(), due);
            let (number, fields) = (u64::from(told(&said).0), verdict_fields(&said));
            memory.told.give(&fields);
            answer = number + 100 * fields[0] + fields[2] + fields[3];
            number
        },
    );
    run.saw(answer);
    answer
}

/// The same in both layouts.
fn compare(run: &mut Run, asked: &Recorded) -> u64 {
    LAYOUTS.into_iter().fold(0, |_, layout| compare_in(run, layout, asked))
}

/// A drive with two current profiles and one above them, and features of each kind of flags.
fn drive() -> Vec<u8> {
    let parts: Vec<Part> = vec![
        (0x0001, 3, body(4)),
        (0x0003, 3, body(4)),
        (0x001F, 0, vec![]),
        (0x0020, 0, body(12)),
        (0x0105, 1, vec![]),
        (0xFFFF, 1, body(8)),
    ];
    sheet_of(&[(0x0010, true), (0x0012, true), (0x0014, false)], &parts)
}

/// What is asked of a sheet, and what the box of a mistake, or the right one, sends.
fn recorded(sheet: &[u8], rt: u8, sfn: u16, allocation: u16, mistake: Option<Mistake>) -> Recorded {
    let meaning = Sheet::assume_checked(Layout::Rows, sheet).meaning();
    let request = Request { rt, sfn: Feature(sfn), allocation };
    Recorded {
        sheet: sheet.to_vec(),
        command: command(rt, sfn, allocation).to_vec(),
        response: sent(&meaning, request, mistake),
        room: most_bytes(allocation),
    }
}

/// Allocation lengths that matter to a response of so many bytes.
fn allocations(full: usize) -> Vec<u16> {
    let near = [full.saturating_sub(5), full.saturating_sub(1), full, full + 1];
    near.into_iter().chain([0, 1, 3, 4, 7, 8, 11, 12, 20, 300]).map(|length| length as u16).collect()
}

fn fixed(run: &mut Run) {
    each_byte(run);
    each_mistake(run);
    each_two_faults(run);
    refused_commands(run);
    each_room(run);
    at_the_limit(run);
}

/// A response, the same with zeros behind it, with something else there, and without its last byte.
fn about(run: &mut Run, asked: &Recorded) {
    compare(run, asked);
    for behind in [&[0][..], &[0; 5], &[0, 0, 1], &[7]] {
        let response = [&asked.response[..], behind].concat();
        compare(run, &Recorded { response, ..asked.clone() });
    }
    if let Some((_, less)) = asked.response.split_last() {
        compare(run, &Recorded { response: less.to_vec(), ..asked.clone() });
    }
}

/// Each cut of what is due, and each byte of it changed in each bit, alone and with zeros behind.
fn each_byte(run: &mut Run) {
    let sheet = drive();
    for (rt, sfn) in [(0, 0), (0, 1), (1, 0), (1, 0x20), (2, 0), (2, 3), (2, 0x21), (0, 0xFFFF)] {
        for allocation in allocations(length_to_send(&sheet, rt, sfn)) {
            let asked = recorded(&sheet, rt, sfn, allocation, None);
            about(run, &asked);
            for at in 0..asked.response.len() {
                compare(run, &Recorded { response: asked.response[..at].to_vec(), ..asked.clone() });
                for bit in 0..8 {
                    let mut changed = asked.clone();
                    changed.response[at] ^= 1 << bit;
                    compare(run, &changed);
                    changed.response.extend([0; 3]);
                    compare(run, &changed);
                }
            }
        }
    }
}

/// What the box of each mistake sends of each sheet, for each RT, several starts and allocation lengths.
fn each_mistake(run: &mut Run) {
    for sheet in short_sheets().into_iter().chain([drive()]) {
        for rt in 0..3 {
            for sfn in starts_for(&sheet, 3) {
                for allocation in allocations(length_to_send(&sheet, rt, sfn)) {
                    about(run, &recorded(&sheet, rt, sfn, allocation, None));
                    for mistake in MISTAKES {
                        about(run, &recorded(&sheet, rt, sfn, allocation, Some(mistake)));
                    }
                }
            }
        }
    }
}

/// Each two faults of sheet, command and buffer, where something came.
fn each_two_faults(run: &mut Run) {
    let mut faults: Vec<Fault<Recorded>> = Vec::new();
    for of_sheet in some_sheet_faults() {
        faults.push(fault_at(of_sheet.told, move |asked: &mut Recorded| of_sheet.make(&mut asked.sheet)));
    }
    faults.push(fault(9, |asked: &mut Recorded| asked.command.truncate(9)));
    faults.push(fault(10, |asked: &mut Recorded| asked.command[0] = 0x47));
    faults.push(fault(11, |asked: &mut Recorded| asked.command[1] |= 3));
    faults.push(fault(12, |asked: &mut Recorded| asked.room = 0));
    faults.push(fault(12, |asked: &mut Recorded| asked.room = 99));
    let good = recorded(&good_sheet(), 0, 0, 100, None);
    each_pair(&good, &faults, &mut |asked, (number, _)| {
        let answer = compare(run, asked);
        let answered = (9..=11).contains(&number);
        run.expect(answer, u64::from(number) + if answered { 500 } else { 0 });
    });
}

/// Commands that are to be refused, where nothing came and where something did.
fn refused_commands(run: &mut Run) {
    let sheet = drive();
    let mut asked: Vec<Vec<u8>> = (0..20).map(|length| vec![0x46; length]).collect();
    asked.extend((0..=255).map(|byte| [&[byte][..], &command(0, 0, 44)[1..]].concat()));
    asked.extend((0..=255).map(|byte| [&[0x46, byte][..], &command(0, 0, 44)[2..], &[byte, 0xFF]].concat()));
    for command in asked {
        for response in [&[][..], &[0], &[0; 44]] {
            let (sheet, command, response) = (sheet.clone(), command.clone(), response.to_vec());
            compare(run, &Recorded { sheet, command, response, room: 300 });
        }
    }
}

/// Each room about the least that is enough.
fn each_room(run: &mut Run) {
    for allocation in [0, 1, 8, 44, 300, 65_534, 65_535] {
        let asked = recorded(&drive(), 0, 0, allocation, None);
        let least = most_bytes(allocation);
        for room in least.saturating_sub(2)..least + 3 {
            let answer = compare(run, &Recorded { room, ..asked.clone() });
            run.expect(answer, if room < least { 12 } else { 100 });
        }
    }
}

/// The longest sheet, and full lengths about the return limit.
fn at_the_limit(run: &mut Run) {
    let parts: Vec<Part> =
        (1..=255).map(|number| (number, 1, body(252))).chain([(0x100, 1, body(236))]).collect();
    for sheet in [longest(), sheet_of(&profiles(1, 1), &parts)] {
        for (rt, sfn) in [(0, 0), (1, 1), (2, 0xFFFF)] {
            for mistake in [None, Some(Mistake::OnlyAbove), Some(Mistake::NotOnlyOne)] {
                compare_in(run, Layout::Rows, &recorded(&sheet, rt, sfn, 65_535, mistake));
            }
        }
    }
}

fn random(run: &mut Run, random: &mut Random) {
    let most = random.one_of(&[0, 3, 12, 12, 40, 300]);
    let sheet = random_sheet(random, most);
    let starts = starts_for(&sheet, 20);
    for _ in 0..10 {
        let (rt, sfn) = (random.one_of(&[0, 0, 1, 1, 2]), random.one_of(&starts));
        let allocation = random.near(length_to_send(&sheet, rt, sfn));
        let mistake = if random.once_in(4) { None } else { Some(random.one_of(&MISTAKES)) };
        let mut asked = recorded(&sheet, rt, sfn, allocation, mistake);
        asked.room += random.below(9);
        asked.response.resize(asked.response.len() + random.one_of(&[0, 0, 1, 4]), 0);
        if random.once_in(3) {
            damage(random, &mut asked.response);
        }
        if random.once_in(8) {
            damage(random, &mut asked.command);
        }
        if random.once_in(16) {
            damage(random, &mut asked.sheet);
        }
        compare(run, &asked);
    }
}
