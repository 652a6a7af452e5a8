//! gcf_make_sense.

use crate::lent::Memory;
use crate::random::Random;
use crate::run::{Cases, Input, Kind, Run};
use gcf::raw;

pub const KIND: Kind = Kind { name: "gcf_make_sense", answers, cases: Cases::Of(fixed, random) };

fn answers() -> Vec<u64> {
    vec![0, 54, 55]
}

/// The numbers that a command gives, to a sheet or to an image.
const GIVEN: [u8; 22] = [0, 1, 2, 3, 4, 5, 6, 7, 8, 9, 10, 11, 12, 14, 15, 16, 17, 18, 20, 29, 41, 44];

/// Compares one making.
fn compare(run: &mut Run, number: u8, room: usize) -> u64 {
    run.compare(
        &[Input::Number("number", u64::from(number)), Input::Number("room", room as u64)],
        Memory::none().with_buffer(room),
        |memory| {
            let sense = memory.first.part();
            u64::from(memory.told.by(|made| raw::make_sense(number, sense, made)))
        },
        |memory| {
            let made = second::sense::make(number, memory.first.part());
            memory.told.give(&[made.unwrap_or(0) as u64, 0]);
            u64::from(made.err().unwrap_or(0))
        },
    )
}

/// Every number with every room from 0 to 40 bytes.
fn fixed(run: &mut Run) {
    for number in 0..=255 {
        for room in 0..=40 {
            let answer = compare(run, number, room);
            let wanted = match (GIVEN.contains(&number), room) {
                (false, _) => 54,
                (true, 0..=17) => 55,
                (true, _) => 0,
            };
            run.expect(answer, wanted);
        }
        come_back(run, number);
    }
}

/// What the proved maker makes, its reader takes for the kind of that number.
fn come_back(run: &mut Run, number: u8) {
    let (mut sense, mut meaning) = ([0xA5; 18], raw::Meaning::default());
    if raw::make_sense(number, &mut sense, &mut raw::Made::default()) != 0 {
        return;
    }
    let wanted = match number {
        0 => 1,
        9 | 10 => 2,
        11 => 3,
        _ => 4,
    };
    let holds = raw::read_sense(&sense, &mut meaning) == 0 && meaning.kind == wanted;
    run.holds(holds, "a kind does not come back", &[Input::Number("number", u64::from(number))]);
}

fn random(run: &mut Run, random: &mut Random) {
    let number = if random.once_in(2) { random.one_of(&GIVEN) } else { random.byte() };
    compare(run, number, random.below(64));
}
