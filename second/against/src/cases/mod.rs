//! Cases of the paper, a line each, and what comes of them on either side.
//!
//! ```text
//! TITLE | OPERATION NUMBER.. | BYTES | BYTES = NUMBER.. | BYTES
//! ```
//!
//! Left of `=` stand what is called and what is handed in, right of it what must come back: numbers, and the lent buffer as it must stand afterwards, whole.
//! Before the call it has as many bytes, all EEh. Numbers that are left out are 0, but for the first right of `=`; a field of bytes that is left out is
//! empty. A line that starts with `#` is a comment, an empty one is skipped, and `define NAME = BYTES` gives bytes a name. `|` and `=` have a space on either
//! side, and a title has no `|`.
//!
//! A number is decimal, or hexadecimal and ends in `h`. Bytes are words:
//!
//! ```text
//! 2A              two hexadecimal digits: this byte; 2A*300 is 300 of them
//! NAME            the bytes that have this name
//! "0012 44 5"     this text
//! @12             what follows stands from byte 12 on, over what is there
//! <12             all from byte 12 on goes
//! entries F N V O, descriptors F N V O, bodies F N V O
//!                 for each of the N numbers from F on: the number and V, two bytes each, and an offset of four bytes, first O, which rises by the body
//!                 length, V's low byte; the number, V, and the body; the body alone. A body is the number's low byte again and again. A profile has
//!                 four bytes too: `descriptors` with a length of 0 are profiles.
//! ```
//!
//! The operations, their numbers, and what comes back beside the buffer:
//!
//! ```text
//! words NUMBER = count; the sentence is copied to the buffer
//! sheet C | SHEET = refusal, place; here and below C is 1 where the sheet is in columns
//! respond C | SHEET | COMMAND = refusal, count, place
//! accepted C | SHEET | COMMAND = refusal, count: the same with no check of the sheet
//! build LENGTH RT SFN A = refusal, count
//! convert C | SHEET = refusal, count, place: to the other layout
//! load C N | SHEET | NUMBERS = refusal, count, place: N features of a medium, two bytes each, then its profiles
//! judge C N | SHEET | EXCHANGE = refusal, which verdict, the first byte that differs, the mistake, the number to be refused with, place; the exchange is N bytes of a
//!                 command, then the response
//! mend N | RESPONSE = refusal, count, changes; the buffer is N bytes for the copy, then the list of changes, four bytes each
//! import | RESPONSE = refusal, count, place
//! read RT SFN | RESPONSE = refusal, profile, Data Length, whole descriptors, the place behind the last, 1 if complete
//! next PLACE | RESPONSE = 1 if a descriptor stands there whole, its feature, flags, Version, Persistent, Current, the place and length of its body, the next place
//! stops MOST RT SFN | RESPONSE = the place where the reading stops, the feature there
//! place FEATURE | RESPONSE = where its descriptor stands
//! held FEATURE | FRESH | KEPT = count; the descriptor is copied to the buffer
//! list | RESPONSE = count
//! descriptors | RESPONSE = number, feature
//! profile PROFILE | RESPONSE = number, 1 if it conforms, the feature that breaks it, what is wrong with it
//! most A = C
//! start RT A = refusal, RT, A, next start, commands, bytes collected, 1 if ended, profile
//! take RT A NEXT COMMANDS COLLECTED ENDED PROFILE | RESPONSE = the same eight
//! bench RT A C | SHEET = refusal, commands, bytes collected, place; the buffer is 64 bytes for the response, 40 to collect, 12 for six starts
//! ```

mod calls;
mod lines;

pub use calls::{Side, SIDES};
pub use lines::{read, Line, Names};

/// As many numbers as a case can have on either side of its `=`.
pub type Numbers = [u64; 9];

/// A case.
pub struct Case {
    pub title: String,
    pub operation: String,
    pub given: Numbers,
    pub first: Vec<u8>,
    pub second: Vec<u8>,
    pub wanted: Outcome,
}

/// What comes back: the numbers, and the lent buffer.
#[derive(Clone, PartialEq, Eq)]
pub struct Outcome {
    pub numbers: Numbers,
    pub buffer: Vec<u8>,
}

impl Outcome {
    /// In words, where it is not what was wanted: the numbers, and the first place where the buffer differs.
    pub fn shown(&self, wanted: &Outcome) -> String {
        let numbers: Vec<String> = self.numbers.iter().map(u64::to_string).collect();
        let place = self.buffer.iter().zip(&wanted.buffer).position(|(got, want)| got != want);
        let bytes = place.map_or(String::new(), |place| {
            let shown: Vec<String> =
                self.buffer[place..].iter().take(32).map(|byte| format!("{byte:02X}")).collect();
            format!(" | @{place} {}", shown.join(" "))
        });
        numbers.join(" ") + &bytes
    }
}
