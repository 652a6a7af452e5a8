//! gcf_respond.

use super::commands::{self, in_layout, inputs};
use super::{columns, laid_as, SHEET};
use crate::lent::{Given, Memory};
use crate::run::{tell_made, Cases, Kind, Run, Told};
use gcf::raw;
use second::sheet::Layout;

pub const KIND: Kind = Kind {
    name: "gcf_respond",
    answers: || SHEET.into_iter().chain(9..=12).collect(),
    cases: Cases::InEachLayout(
        |run, layout| commands::fixed(run, &in_layout(layout, compare)),
        |run, layout, random| commands::random(run, random, &in_layout(layout, compare)),
    ),
};

/// Compares one command to a sheet in rows, as it stands in a layout.
fn compare(run: &mut Run, layout: Layout, sheet: &Given, command: &[u8], room: usize) -> Told {
    let (sheet, command) = (&*laid_as(layout, sheet), Given::new(command));
    run.compare_told(
        &inputs("sheet", sheet, &command, room),
        Memory::none().with_buffer(room),
        |memory| {
            let (columns, response) = (columns(layout), memory.first.part());
            memory.told.by(|sent| raw::respond(columns, sheet.proved(), command.proved(), response, sent))
        },
        |memory| {
            let sent = second::command::respond(layout, sheet.plain(), command.plain(), memory.first.part());
            tell_made(memory, sent)
        },
    )
}
