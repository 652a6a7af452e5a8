//! gcf_respond_accepted.

use super::commands::{self, in_layout, inputs};
use super::{columns, laid_as};
use crate::lent::{Given, Memory};
use crate::run::{Cases, Kind, Run, Told};
use gcf::raw;
use second::sheet::{Layout, Sheet};

pub const KIND: Kind = Kind {
    name: "gcf_respond_accepted",
    answers: || vec![0, 9, 10, 11, 12],
    cases: Cases::InEachLayout(
        |run, layout| commands::fixed(run, &in_layout(layout, compare)),
        |run, layout, random| commands::random(run, random, &in_layout(layout, compare)),
    ),
};

/// Compares one command where the sheet is accepted; else sees that it returns and writes nothing outside.
fn compare(run: &mut Run, layout: Layout, sheet: &Given, command: &[u8], room: usize) -> Told {
    let (sheet, command) = (&*laid_as(layout, sheet), Given::new(command));
    let inputs = inputs("sheet", sheet, &command, room);
    let memory = Memory::none().with_buffer(room);
    let proved = |memory: &mut Memory| {
        let (columns, response) = (columns(layout), memory.first.part());
        memory
            .told
            .by(|sent| raw::respond_accepted(columns, sheet.proved(), command.proved(), response, sent))
    };
    if let Err(refusal) = second::sheet::check(layout, sheet.plain()) {
        run.only_returns(&inputs, memory, proved);
        return (refusal.number, refusal.place);
    }
    run.compare_told(&inputs, memory, proved, |memory| {
        let sheet = Sheet::assume_checked(layout, sheet.plain());
        let sent = second::command::respond_checked(sheet, command.plain(), memory.first.part());
        memory.told.give(&[sent.unwrap_or(0) as u64, 0]);
        (sent.err().unwrap_or(0), 0)
    })
}
