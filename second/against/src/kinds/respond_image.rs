//! gcf_respond_image.

use super::commands::inputs;
use super::{images, IMAGE};
use crate::lent::{Given, Memory};
use crate::run::{tell_made, Cases, Kind, Run, Told};
use gcf::raw;

pub const KIND: Kind = Kind {
    name: "gcf_respond_image",
    answers: || IMAGE.into_iter().chain(9..=12).collect(),
    cases: Cases::Of(|run| images::fixed(run, &compare), |run, random| images::random(run, random, &compare)),
};

/// Compares one command.
fn compare(run: &mut Run, image: &Given, command: &[u8], room: usize) -> Told {
    let command = Given::new(command);
    run.compare_told(
        &inputs("image", image, &command, room),
        Memory::none().with_buffer(room),
        |memory| {
            let response = memory.first.part();
            memory.told.by(|sent| raw::respond_image(image.proved(), command.proved(), response, sent))
        },
        |memory| {
            let sent = second::rom::respond(image.plain(), command.plain(), memory.first.part());
            tell_made(memory, sent)
        },
    )
}
