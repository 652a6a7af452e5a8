//! gcf_respond_image_accepted, which has an answer for any bytes.

use super::commands::inputs;
use super::images;
use crate::lent::{Given, Memory};
use crate::run::{Cases, Kind, Run, Told};
use gcf::raw;

pub const KIND: Kind = Kind {
    name: "gcf_respond_image_accepted",
    answers: || vec![0, 9, 10, 11, 12],
    cases: Cases::Of(|run| images::fixed(run, &compare), |run, random| images::random(run, random, &compare)),
};

/// Compares one command, whether the image is accepted or not; gives what the image is refused with, if it is.
fn compare(run: &mut Run, image: &Given, command: &[u8], room: usize) -> Told {
    let command = Given::new(command);
    let told = run.compare_told(
        &inputs("image", image, &command, room),
        Memory::none().with_buffer(room),
        |memory| {
            let response = memory.first.part();
            memory
                .told
                .by(|sent| raw::respond_image_accepted(image.proved(), command.proved(), response, sent))
        },
        |memory| {
            let sent = second::rom::respond_checked(image.plain(), command.plain(), memory.first.part());
            memory.told.give(&[sent.unwrap_or(0) as u64, 0]);
            (sent.err().unwrap_or(0), 0)
        },
    );
    match second::rom::check(image.plain()) {
        Err(refusal) => (refusal.number, refusal.place),
        Ok(()) => told,
    }
}
