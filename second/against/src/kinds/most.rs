//! gcf_most.

use crate::lent::Memory;
use crate::random::Random;
use crate::run::{Cases, Input, Kind, Run};
use gcf::raw;

/// It answers a length.
pub const KIND: Kind =
    Kind { name: "gcf_most", answers: || (0..=65_534).collect(), cases: Cases::Of(fixed, random) };

/// Compares one allocation length.
fn compare(run: &mut Run, allocation: u16) {
    run.compare(
        &[Input::Number("allocation", u64::from(allocation))],
        Memory::none(),
        |_| raw::most(allocation) as u64,
        |_| second::command::most_bytes(allocation) as u64,
    );
}

/// All there are.
fn fixed(run: &mut Run) {
    for allocation in 0..=65_535 {
        compare(run, allocation);
    }
}

fn random(run: &mut Run, random: &mut Random) {
    compare(run, random.near(65_535));
}
