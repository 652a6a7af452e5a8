//! Times the sides of a case in turn, at several places in memory, and writes the times as a line of a table.

use std::time::Instant;

use crate::made::sheets::body;

/// How far behind the start of a page the bytes that are read stand, and those that are written.
const PLACES: [(usize, usize); 5] = [(0, 0), (1, 0), (4, 20), (32, 3), (61, 2050)];

/// The bytes of a page.
const PAGE: usize = 4096;

/// How often a side is timed at each place, and how long one timing takes at least.
#[derive(Clone, Copy)]
pub struct Effort {
    pub rounds: usize,
    pub nanoseconds: f64,
}

/// A side reads bytes and writes bytes, and gives a number that is looked at, so that no call can be left out.
pub type Side<'a> = Box<dyn FnMut(&[u8], &mut [u8]) -> usize + 'a>;

/// One case.
pub struct Case<'a> {
    pub name: String,
    /// What is read.
    pub input: &'a [u8],
    /// The room for what is written.
    pub room: usize,
    /// How many bytes are moved or, where none are moved, looked at.
    pub bytes: usize,
    /// The length of the bodies, where a copy in pieces is timed too: a header of four bytes and a body in turn.
    pub pieces: Option<usize>,
    pub proved: Side<'a>,
    pub plain: Side<'a>,
}

impl<'a> Case<'a> {
    /// A case that looks at all that is read, without a copy in pieces.
    pub fn new(
        name: String,
        input: &'a [u8],
        room: usize,
        proved: impl FnMut(&[u8], &mut [u8]) -> usize + 'a,
        plain: impl FnMut(&[u8], &mut [u8]) -> usize + 'a,
    ) -> Case<'a> {
        let (proved, plain) = (Box::new(proved), Box::new(plain));
        Case { name, input, room, bytes: input.len(), pieces: None, proved, plain }
    }
}

/// The times of one side.
struct Times {
    median: f64,
    least: f64,
}

/// What stands above the lines.
pub fn head(effort: Effort) -> String {
    let processors = std::thread::available_parallelism().map_or(1, usize::from);
    let (machine, rounds, places) = (std::env::consts::ARCH, effort.rounds, PLACES.len());
    format!(
        "Run on {machine} with {processors} processors; places in memory: {places}, rounds at each: {rounds}.\n\n\
         | case | proved | least | plain | least | ratio | bytes | copy | ratio | in pieces | ratio |\n\
         |---|---|---|---|---|---|---|---|---|---|---|"
    )
}

/// Times a case; gives its line.
pub fn line(effort: Effort, mut case: Case) -> String {
    see_that_both_agree(&mut case);
    let mut copies: Vec<Side> = vec![Box::new(copy)];
    if let Some(length) = case.pieces {
        copies.push(Box::new(move |from, to| copy_in_pieces(length, from, to)));
    }
    let sides = times(effort, case.input, case.room, vec![case.proved, case.plain]);
    let copies = times(effort, &body(case.bytes), case.bytes, copies);
    let (proved, plain) = (&sides[0], &sides[1]);
    let mut line = format!(
        "| {} | {:.1} | {:.1} | {:.1} | {:.1} | {:.2} | {} |",
        case.name,
        proved.median,
        proved.least,
        plain.median,
        plain.least,
        proved.median / plain.median,
        case.bytes
    );
    for copy in &copies {
        line += &format!(" {:.1} | {:.2} |", copy.median, proved.median / copy.median);
    }
    if copies.len() == 1 {
        line += " | |";
    }
    line
}

/// Sees that both sides of a case give the same number and write the same bytes.
fn see_that_both_agree(case: &mut Case) {
    let (mut one, mut two) = (vec![0; case.room], vec![0; case.room]);
    assert_eq!((case.proved)(case.input, &mut one), (case.plain)(case.input, &mut two), "{}", case.name);
    assert!(one == two, "{}", case.name);
}

/// Copies the bytes in one go.
fn copy(from: &[u8], to: &mut [u8]) -> usize {
    to.copy_from_slice(from);
    usize::from(to[0])
}

/// Copies the bytes in pieces of four bytes and of a body in turn.
fn copy_in_pieces(body: usize, from: &[u8], to: &mut [u8]) -> usize {
    for (from, to) in from.chunks(4 + body).zip(to.chunks_mut(4 + body)) {
        let (header, body) = from.split_at(4);
        to[..4].copy_from_slice(header);
        to[4..].copy_from_slice(body);
    }
    usize::from(to[0])
}

/// Times sides that take turns, all with the same bytes at the same places.
fn times(effort: Effort, input: &[u8], room: usize, mut sides: Vec<Side>) -> Vec<Times> {
    let mut all = vec![Vec::new(); sides.len()];
    let mut calls = Vec::new();
    for (from, to) in PLACES {
        let (mut source, mut target) = (Placed::new(input.len(), from), Placed::new(room, to));
        source.bytes().copy_from_slice(input);
        let (input, output) = (&*source.bytes(), target.bytes());
        if calls.is_empty() {
            calls.extend(sides.iter_mut().map(|side| calls_for(effort, &mut || side(input, output))));
        }
        for _ in 0..effort.rounds {
            for (index, side) in sides.iter_mut().enumerate() {
                all[index].push(nanoseconds(&mut || side(input, output), calls[index]));
            }
        }
    }
    all.into_iter().map(summary).collect()
}

/// Bytes at a place behind the start of a page.
struct Placed {
    memory: Vec<u8>,
    from: usize,
    length: usize,
}

impl Placed {
    /// So many bytes, so far behind the start of a page.
    fn new(length: usize, behind: usize) -> Placed {
        let memory = vec![0; length + 2 * PAGE];
        let from = PAGE - memory.as_ptr() as usize % PAGE + behind % PAGE;
        Placed { memory, from, length }
    }

    /// The bytes themselves.
    fn bytes(&mut self) -> &mut [u8] {
        &mut self.memory[self.from..self.from + self.length]
    }
}

/// How many calls take long enough to be timed.
fn calls_for(effort: Effort, call: &mut dyn FnMut() -> usize) -> usize {
    let mut calls = 1;
    while nanoseconds(call, calls) * (calls as f64) < effort.nanoseconds {
        calls *= 2;
    }
    calls
}

/// The time of one call, from so many.
fn nanoseconds(call: &mut dyn FnMut() -> usize, calls: usize) -> f64 {
    let begun = Instant::now();
    let mut sum: usize = 0;
    for _ in 0..calls {
        sum = sum.wrapping_add(call());
    }
    let time = begun.elapsed().as_nanos() as f64;
    assert!(sum != usize::MAX);
    time / calls as f64
}

/// The middle one and the least of some times.
fn summary(mut times: Vec<f64>) -> Times {
    times.sort_by(f64::total_cmp);
    Times { median: times[times.len() / 2], least: times[0] }
}
