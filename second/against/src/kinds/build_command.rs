//! gcf_build_command.

use super::{columns, laid};
use crate::lent::{Given, Memory};
use crate::made::captures::example;
use crate::made::sheets::{starts_for, E};
use crate::random::Random;
use crate::run::{Cases, Input, Kind, Run, LAYOUTS};
use gcf::raw;
use second::command::Request;
use second::sheet::Layout;
use second::wire::Feature;

pub const KIND: Kind =
    Kind { name: "gcf_build_command", answers: || vec![0, 9, 11, 12], cases: Cases::Of(fixed, random) };

/// Compares one making.
fn compare(run: &mut Run, length: usize, request: Request, room: usize) -> u64 {
    let Request { rt, sfn, allocation } = request;
    run.compare(
        &[
            Input::Number("length", length as u64),
            Input::Number("rt", u64::from(rt)),
            Input::Number("sfn", u64::from(sfn.0)),
            Input::Number("allocation", u64::from(allocation)),
            Input::Number("room", room as u64),
        ],
        Memory::none().with_buffer(room),
        |memory| {
            let (command, sfn) = (memory.first.part(), gcf::Feature(sfn.0));
            u64::from(memory.told.by(|made| raw::build_command(length, rt, sfn, allocation, command, made)))
        },
        |memory| {
            let built = request.build(length, memory.first.part());
            memory.told.give(&[built.unwrap_or(0) as u64, 0]);
            u64::from(built.err().unwrap_or(0))
        },
    )
}

/// Every length from 0 to 16, and long ones that end alike, with every RT and every room up to 16 bytes; each bit of the two numbers; and
/// what the boxes make of a command.
fn fixed(run: &mut Run) {
    for length in (0..=16).chain([10 + 0x100, 12 + 0x1_0000, (1 << 32) + 10, usize::MAX]) {
        for rt in 0..=255 {
            for room in 0..=16 {
                let request = Request { rt, sfn: Feature(0x0105), allocation: 0xFFFE };
                let answer = compare(run, length, request, room);
                let wanted = match (length, rt) {
                    (10 | 12, 0..=2) if room >= length => 0,
                    (10 | 12, 0..=2) => 12,
                    (10 | 12, _) => 11,
                    _ => 9,
                };
                run.expect(answer, wanted);
            }
        }
    }
    for length in [10, 12] {
        for bit in 0..16 {
            let request = Request { rt: 0, sfn: Feature(1 << bit), allocation: 1 << (15 - bit) };
            let answer = compare(run, length, request, 12);
            run.expect(answer, 0);
        }
        for rt in 0..3 {
            for sfn in starts_for(&E, 9) {
                for allocation in 0..=60 {
                    is_answered(run, length, Request { rt, sfn: Feature(sfn), allocation });
                }
            }
        }
    }
}

/// What the proved builder makes, the plain program reads as what was asked for, and the proved boxes, of sheet E in both layouts and of its
/// response as an image, answer as the plain one does.
fn is_answered(run: &mut Run, length: usize, request: Request) {
    let Request { rt, sfn, allocation } = request;
    let (mut command, mut told) = (vec![0xA5; length], raw::Made::default());
    let made = raw::build_command(length, rt, gcf::Feature(sfn.0), allocation, &mut command, &mut told);
    let mut holds = made == 0 && Request::parse(&command) == Ok(request);
    let mut wanted = [0xA5; 64];
    let count =
        second::command::respond(Layout::Rows, &E, &request.bytes(), &mut wanted).unwrap_or(99) as u64;
    let mut see = |answer: &dyn Fn(&mut [u8], &mut raw::Made) -> u8| {
        let (mut response, mut sent) = ([0xA5; 64], raw::Made::default());
        holds &= answer(&mut response, &mut sent) == 0 && sent.bytes == count && response == wanted;
    };
    for layout in LAYOUTS {
        let (columns, sheet) = (columns(layout), laid(layout, &E));
        see(&|response, sent| raw::respond(columns, &sheet, &command, response, sent));
        see(&|response, sent| raw::respond_accepted(columns, &sheet, &command, response, sent));
    }
    see(&|response, sent| raw::respond_image(&example(), &command, response, sent));
    see(&|response, sent| raw::respond_image_accepted(&example(), &command, response, sent));
    let given = Given::new(&command);
    run.holds(holds, "a built command is answered as another", &[Input::Bytes("command", &given)]);
}

fn random(run: &mut Run, random: &mut Random) {
    let length = if random.once_in(4) { random.below(40) } else { random.one_of(&[10, 12]) };
    let rt = if random.once_in(4) { random.byte() } else { random.one_of(&[0, 1, 2]) };
    let request = Request { rt, sfn: Feature(random.near(65_535)), allocation: random.near(65_535) };
    compare(run, length, request, random.below(24));
    if [10, 12].contains(&length) && rt < 3 {
        is_answered(run, length, Request { allocation: request.allocation % 61, ..request });
    }
}
