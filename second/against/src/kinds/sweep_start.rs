//! gcf_sweep_start.

use super::{fields, proved};
use crate::lent::Memory;
use crate::random::Random;
use crate::run::{Cases, Input, Kind, Run};
use gcf::raw;
use second::sweep::Record;

pub const KIND: Kind =
    Kind { name: "gcf_sweep_start", answers: || vec![0, 21, 22], cases: Cases::Of(fixed, random) };

/// Compares one start.
fn compare(run: &mut Run, rt: u8, allocation: u16) -> u64 {
    run.compare(
        &[Input::Number("rt", u64::from(rt)), Input::Number("allocation", u64::from(allocation))],
        Memory::none(),
        |memory| {
            let step = raw::sweep_start(rt, allocation);
            memory.told.give(&proved(step));
            u64::from(step.refusal.number)
        },
        |memory| {
            let (number, record) = Record::start(rt, allocation);
            memory.told.give(&fields(record, 0));
            u64::from(number)
        },
    )
}

/// Every RT with the allocation lengths around 8, and every allocation length with the lowest RTs.
fn fixed(run: &mut Run) {
    for rt in 0..=255 {
        for allocation in (0..20).chain([0x100, 0xFFFE, 0xFFFF]) {
            compare(run, rt, allocation);
        }
    }
    for allocation in 0..=65_535 {
        for rt in 0..3 {
            compare(run, rt, allocation);
        }
    }
    // With both faults the RT decides.
    let answer = compare(run, 2, 7);
    run.expect(answer, 21);
}

fn random(run: &mut Run, random: &mut Random) {
    let rt = random.one_of(&[0, 1, 2, 3, 255]);
    compare(run, rt, random.near(8));
}
