//! Sense data.

use crate::numbers::told_by_number;
use crate::{accepted, raw, Number, SENSE_BYTES};

told_by_number! {
    /// What sense data says of a command: `enum gcf_kind`.
    Kind {
        /// The command was accepted.
        1 => Nothing,
        /// It is no GET CONFIGURATION of 10 or 12 bytes.
        2 => Operation,
        /// RT 3.
        3 => Field,
        /// The box's own trouble: its sheet or its image, or its response buffer.
        4 => Trouble,
    }
}

/// Makes sense data for what the last command was refused with, or for none: `gcf_make_sense`. Refused is a number that no command gives.
///
/// ```
/// use gcf::{Kind, Number};
///
/// let sense = gcf::make_sense(Some(Number::RtReserved)).unwrap();
/// assert_eq!((sense[2], sense[12], &sense[15..]), (5, 0x24, &[0xC9, 0, 1][..]));
/// assert_eq!(gcf::read_sense(&sense), Ok(Kind::Field));
/// let trouble = gcf::make_sense(Some(Number::ResponseCut)).unwrap(); // an image that is cut
/// assert_eq!(gcf::read_sense(&trouble), Ok(Kind::Trouble));
/// assert_eq!(gcf::make_sense(Some(Number::NoTable)), Err(Number::NotGiven));
/// ```
pub fn make_sense(last: Option<Number>) -> Result<[u8; SENSE_BYTES], Number> {
    let mut sense = [0; SENSE_BYTES];
    accepted(raw::make_sense(last.map_or(0, Number::number), &mut sense, &mut raw::Made::default()))?;
    Ok(sense)
}

/// What received sense data means: `gcf_read_sense`.
///
/// ```
/// let sense = gcf::make_sense(None).unwrap();
/// assert_eq!(gcf::read_sense(&sense), Ok(gcf::Kind::Nothing));
/// assert_eq!(gcf::read_sense(&sense[..17]), Err(gcf::Number::SenseLength));
/// ```
pub fn read_sense(sense: &[u8]) -> Result<Kind, Number> {
    let mut meaning = raw::Meaning::default();
    accepted(raw::read_sense(sense, &mut meaning))?;
    Ok(Kind::of(meaning.kind).unwrap_or(Kind::Trouble))
}
