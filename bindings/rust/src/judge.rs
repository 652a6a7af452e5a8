//! The judge of another box.

use crate::drive::placed;
use crate::numbers::told_by_number;
use crate::{raw, Layout, Number, Refused};

told_by_number! {
    /// What another box gets wrong, the first of these that explains its response: `enum gcf_mistake`.
    Mistake {
        /// It sends only the features above SFN.
        1 => OnlyAbove,
        /// Its Data Length is cut with the allocation length.
        2 => LengthCut,
        /// Its Data Length counts all features, whatever was asked for.
        3 => LengthOfAll,
        /// Its Current Profile is the highest of the current ones.
        4 => HighestCurrent,
        /// Its Current Profile is the highest of all.
        5 => HighestListed,
        /// It gives RT 1 what RT 0 gets.
        6 => NotOnlyCurrent,
        /// It gives RT 2 what RT 0 gets.
        7 => NotOnlyOne,
    }
}

/// What is said of another box's response: `enum gcf_said`.
#[derive(Clone, Copy, Debug, PartialEq, Eq, Hash)]
pub enum Verdict {
    /// The bytes that are due; of a command that is to be refused, none.
    Exact,
    /// The bytes due, so many of them, and nothing but zeros behind.
    Padded(usize),
    /// The first so many of the bytes due, and no more.
    Short(usize),
    /// The place of the first byte that is not the one due, and what explains it, if one of the mistakes does.
    Wrong(usize, Option<Mistake>),
    /// Some bytes, though the command is to be refused with this number.
    Answered(Number),
}

/// Judges what another box sent for a command by what a box with this sheet sends: `gcf_judge`. The last buffer needs [`most`](crate::most) bytes of the command's
/// allocation length, and has what was due afterwards, and zeros behind, where the response was judged by its bytes.
///
/// ```
/// use gcf::{Layout, Mistake, Number, Verdict};
///
/// let command = |rt, length| [0x46, rt, 0, 0, 0, 0, 0, 0, length, 0];
/// let mut due = [0; 64];
/// let mut judge = |rt, length, response: &[u8]| {
///     gcf::judge(Layout::Rows, &gcf::SHEET_E, &command(rt, length), response, &mut due)
/// };
/// assert_eq!(judge(0, 44, &gcf::IMAGE_E), Ok(Verdict::Exact));
/// assert_eq!(judge(0, 20, &gcf::IMAGE_E[..19]), Ok(Verdict::Short(19)));
/// assert_eq!(judge(2, 44, &gcf::IMAGE_E), Ok(Verdict::Wrong(3, Some(Mistake::NotOnlyOne))));
/// assert_eq!(judge(3, 44, &gcf::IMAGE_E), Ok(Verdict::Answered(Number::RtReserved)));
/// assert_eq!(judge(0, 65, &[]).unwrap_err().number, Number::BufferShort);
/// assert_eq!(due[..4], [0, 0, 0, 16]); // what was due to RT 2
/// ```
pub fn judge(
    layout: Layout,
    sheet: &[u8],
    command: &[u8],
    response: &[u8],
    due: &mut [u8],
) -> Result<Verdict, Refused> {
    let mut verdict = raw::Verdict::default();
    let number = raw::judge(layout.columns(), sheet, command, response, due, &mut verdict);
    placed(number, verdict.place)?;
    let differs = verdict.differs as usize;
    Ok(match verdict.said {
        1 => Verdict::Exact,
        2 => Verdict::Padded(differs),
        3 => Verdict::Short(differs),
        4 => Verdict::Wrong(differs, Mistake::of(verdict.mistake)),
        _ => Verdict::Answered(Number::of(verdict.refusal as u8).unwrap_or(Number::Other(0))),
    })
}
