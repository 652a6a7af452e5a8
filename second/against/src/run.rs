//! Compares the two sides case by case, and counts.

use std::collections::BTreeMap;
use std::fmt::{Debug, Write};

use crate::lent::{Cell, Given, Lent, Memory};
use crate::random::Random;
use gcf::raw;
use second::refusal::Refusal;
use second::sheet::Layout;

/// Longer inputs are written to a file rather than printed.
const PRINTED_MOST: usize = 2_048;

/// One function and its cases.
pub struct Kind {
    /// Its name in the archive.
    pub name: &'static str,
    /// Every answer that can occur, each of which has to be seen.
    pub answers: fn() -> Vec<u64>,
    pub cases: Cases,
}

/// The cases that are the same in every run, and some made-up ones.
pub enum Cases {
    Of(fn(&mut Run), fn(&mut Run, &mut Random)),
    /// Those of a sheet, in either layout.
    InEachLayout(fn(&mut Run, Layout), fn(&mut Run, Layout, &mut Random)),
}

/// Both layouts.
pub const LAYOUTS: [Layout; 2] = [Layout::Rows, Layout::Columns];

impl Cases {
    /// Tries those that are the same in every run.
    pub fn try_fixed(&self, run: &mut Run) {
        match self {
            Cases::Of(fixed, _) => fixed(run),
            Cases::InEachLayout(fixed, _) => LAYOUTS.into_iter().for_each(|layout| fixed(run, layout)),
        }
    }

    /// Tries some made-up ones.
    pub fn try_random(&self, run: &mut Run, made: &mut Random) {
        match self {
            Cases::Of(_, random) => random(run, made),
            Cases::InEachLayout(_, random) => {
                LAYOUTS.into_iter().for_each(|layout| random(run, layout, made))
            }
        }
    }
}

/// What a call that can tell a place gives: the number and the place, both 0 where it is accepted.
pub type Told = (u8, usize);

/// The number and the place of what the plain side gives.
pub fn told<T>(given: &Result<T, Refusal>) -> Told {
    match given {
        Ok(_) => (0, 0),
        Err(refusal) => (refusal.number, refusal.place),
    }
}

/// Has the plain side tell how many bytes it made, or the place of its refusal; gives the number and the place.
pub fn tell_made(memory: &mut Memory, made: Result<usize, Refusal>) -> Told {
    let told = told(&made);
    memory.told.give(&[made.unwrap_or(0) as u64, told.1 as u64]);
    told
}

/// One side of a call: what it answers, and does to the memory.
pub trait Side<Answer = u64>: FnOnce(&mut Memory) -> Answer {}

impl<Answer, Call: FnOnce(&mut Memory) -> Answer> Side<Answer> for Call {}

/// An input of a call, with its name.
pub enum Input<'a> {
    Bytes(&'static str, &'a Given),
    Number(&'static str, u64),
}

/// The cases of one function so far.
pub struct Run {
    name: &'static str,
    pub cases: u64,
    pub seen: BTreeMap<u64, u64>,
    pub failure: Option<String>,
}

impl Run {
    /// No case yet.
    pub fn new(name: &'static str) -> Run {
        Run { name, cases: 0, seen: BTreeMap::new(), failure: None }
    }

    /// Calls both sides on equal memory and compares what they answer and leave; counts and gives the plain answer.
    pub fn compare(&mut self, inputs: &[Input], memory: Memory, proved: impl Side, plain: impl Side) -> u64 {
        let answer = self.uncounted(inputs, memory, proved, plain);
        self.saw(answer);
        answer
    }

    /// Compares likewise what a function says of some bytes, by its number and by the first of its further results.
    pub fn compare_said<T: raw::Told>(
        &mut self,
        name: &'static str,
        bytes: &[u8],
        proved: fn(&[u8], &mut T) -> u8,
        plain: impl FnOnce(&[u8]) -> (u8, u64),
    ) -> u64 {
        let given = Given::new(bytes);
        self.compare(
            &[Input::Bytes(name, &given)],
            Memory::none(),
            |memory| u64::from(memory.told.by(|told| proved(given.proved(), told))),
            |memory| {
                let (number, further) = plain(given.plain());
                memory.told.give(&[further]);
                u64::from(number)
            },
        )
    }

    /// Compares likewise where what is counted is not what the function returns.
    pub fn uncounted(
        &mut self,
        inputs: &[Input],
        memory: Memory,
        proved: impl Side,
        plain: impl Side,
    ) -> u64 {
        let mut left = memory.clone();
        let mut right = memory;
        let wanted = plain(&mut right);
        if self.failure.is_some() {
            return wanted;
        }
        let answer = proved(&mut left);
        self.cases += 1;
        if answer != wanted || left != right || !unchanged(inputs) {
            self.fail(format!(
                "proved {answer}, plain {wanted}\n{}{}",
                differences(&left, &right, inputs),
                shown(self.name, inputs)
            ));
        }
        wanted
    }

    /// Compares likewise where both sides also tell a place; gives the plain number and place.
    pub fn compare_told(
        &mut self,
        inputs: &[Input],
        memory: Memory,
        proved: impl Side<u8>,
        plain: impl Side<Told>,
    ) -> Told {
        let mut told = (0, 0);
        self.compare(
            inputs,
            memory,
            |memory| u64::from(proved(memory)),
            |memory| {
                told = plain(memory);
                u64::from(told.0)
            },
        );
        told
    }

    /// Calls the proved side only, where it may write anything between the guards.
    pub fn only_returns(&mut self, inputs: &[Input], memory: Memory, proved: impl Side<u8>) {
        if self.failure.is_some() {
            return;
        }
        let mut left = memory.clone();
        proved(&mut left);
        left.forget();
        self.cases += 1;
        if left != memory || !unchanged(inputs) {
            self.fail(format!(
                "wrote outside its buffers\n{}{}",
                differences(&left, &memory, inputs),
                shown(self.name, inputs)
            ));
        }
    }

    /// Counts a case of the proved side alone, and fails where it doesn't hold.
    pub fn holds(&mut self, holds: bool, otherwise: &str, inputs: &[Input]) {
        if self.failure.is_some() {
            return;
        }
        self.cases += 1;
        if !holds {
            self.fail(format!("{otherwise}\n{}", shown(self.name, inputs)));
        }
    }

    /// Counts an answer, as long as nothing has failed.
    pub fn saw(&mut self, answer: u64) {
        if self.failure.is_none() {
            *self.seen.entry(answer).or_insert(0) += 1;
        }
    }

    /// Fails where the answer of a case is not the one it was made for.
    pub fn expect(&mut self, answer: u64, wanted: u64) {
        if answer != wanted && self.failure.is_none() {
            self.fail(format!("a case made for {wanted} gets {answer} from both sides"));
        }
    }

    /// Fails where the number and the place of a case are not those it was made for.
    pub fn expect_told(&mut self, told: Told, wanted: Told) {
        if told != wanted && self.failure.is_none() {
            self.fail(format!(
                "a case made for {} at {} gets {} at {} from both sides",
                wanted.0, wanted.1, told.0, told.1
            ));
        }
    }

    /// Ends this kind.
    pub fn fail(&mut self, text: String) {
        self.failure = Some(format!("{}: {text}", self.name));
    }
}

/// Whether no input was changed.
fn unchanged(inputs: &[Input]) -> bool {
    inputs.iter().all(|input| match input {
        Input::Bytes(_, given) => given.is_unchanged(),
        Input::Number(..) => true,
    })
}

/// Where the memory of the two sides differs.
fn differences(left: &Memory, right: &Memory, inputs: &[Input]) -> String {
    let mut text = String::new();
    text += &difference("first buffer", &left.first, &right.first);
    text += &difference("second buffer", &left.second, &right.second);
    text += &difference("starts", &left.starts, &right.starts);
    text += &difference("changes", &left.changes, &right.changes);
    if let Some((at, proved, plain)) = left.told.difference(&right.told) {
        text += &format!("told at {at}: proved {proved:#X?}, plain {plain:#X?}\n");
    }
    if !unchanged(inputs) {
        text += "an input was changed\n";
    }
    text
}

/// The first difference of two buffers in words; empty if there is none.
fn difference<T: Cell + Debug>(name: &str, left: &Lent<T>, right: &Lent<T>) -> String {
    match left.difference(right) {
        Some((at, proved, plain)) => format!("{name} at {at}: proved {proved:#X?}, plain {plain:#X?}\n"),
        None => String::new(),
    }
}

/// The inputs in words.
fn shown(kind: &str, inputs: &[Input]) -> String {
    let mut text = String::new();
    for input in inputs {
        let line = match input {
            Input::Number(name, number) => format!("{name}: {number}"),
            Input::Bytes(name, given) => format!("{name}: {}", shown_bytes(kind, name, given.plain())),
        };
        text += &line;
        text.push('\n');
    }
    text
}

/// Bytes in hexadecimal digits, or the name of a file that holds them.
fn shown_bytes(kind: &str, name: &str, bytes: &[u8]) -> String {
    if bytes.len() > PRINTED_MOST {
        let file = std::env::temp_dir().join(format!("{kind}-{name}-{}", std::process::id()));
        return match std::fs::write(&file, bytes) {
            Ok(()) => format!("{} bytes in {}", bytes.len(), file.display()),
            Err(error) => format!("{} bytes, not written to {}: {error}", bytes.len(), file.display()),
        };
    }
    let mut text = format!("{} bytes", bytes.len());
    for byte in bytes {
        // Writing to a string cannot fail.
        let _ = write!(text, " {byte:02X}");
    }
    text
}
