//! gcf_words. What it should say is read off the text of its definition.

use crate::lent::Memory;
use crate::random::Random;
use crate::run::{Cases, Input, Kind, Run};
use gcf::raw;

/// The definition: a line for each number, with its sentence and, behind two strokes, the number.
const DEFINITION: &str = include_str!("../../../../crates/meanings/specs/Meanings.antt");

/// It answers how many bytes it wrote; what is counted is the number that was asked for.
pub const KIND: Kind =
    Kind { name: "gcf_words", answers: || (0..256).collect(), cases: Cases::Of(fixed, random) };

/// The sentence of a number; none has an empty one.
pub fn sentence(number: u8) -> &'static str {
    let lines =
        DEFINITION.lines().filter_map(|line| line.trim().strip_prefix("codes \"")?.split_once("\" ∷"));
    let mut named =
        lines.filter(|(_, behind)| behind.rsplit_once("-- ").map(|it| it.1.parse()) == Some(Ok(number)));
    named.next().map_or("", |(sentence, _)| sentence)
}

/// Compares one sentence.
fn compare(run: &mut Run, number: u8, room: usize) {
    run.saw(u64::from(number));
    run.uncounted(
        &[Input::Number("number", u64::from(number)), Input::Number("room", room as u64)],
        Memory::none().with_buffer(room),
        |memory| raw::words(number, memory.first.part()) as u64,
        |memory| {
            let (sentence, room) = (sentence(number).as_bytes(), memory.first.part());
            let count = sentence.len().min(room.len());
            room[..count].copy_from_slice(&sentence[..count]);
            count as u64
        },
    );
}

/// Every number with every room up to more than the longest needs.
fn fixed(run: &mut Run) {
    for number in 0..=255 {
        for room in 0..140 {
            compare(run, number, room);
        }
        let given = (number < 56) && ![38, 43].contains(&number);
        let inputs = [Input::Number("number", u64::from(number))];
        run.holds(
            sentence(number).is_empty() != given,
            "a number without a sentence, or one too many",
            &inputs,
        );
    }
}

fn random(run: &mut Run, random: &mut Random) {
    let number = random.byte();
    compare(run, number, random.below(140));
}
