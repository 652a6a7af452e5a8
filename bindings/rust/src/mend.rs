//! A captured response, mended.

use crate::{accepted, raw, Number};

/// A byte that was changed: its place in the response, counted from 0, what stood there, and what stands there now. A list holds it as one
/// number, the place in the upper two bytes, then the old byte, then the new one.
#[derive(Clone, Copy, Debug, PartialEq, Eq)]
pub struct Change {
    /// Where in the response.
    pub place: usize,
    /// What stood there.
    pub old: u8,
    /// What stands there now.
    pub new: u8,
}

impl From<u32> for Change {
    fn from(line: u32) -> Change {
        let [high, low, old, new] = line.to_be_bytes();
        Change { place: usize::from(u16::from_be_bytes([high, low])), old, new }
    }
}

/// A response that was mended: the copy, and the lines of the list that were written.
#[derive(Clone, Copy, Debug, PartialEq, Eq)]
pub struct Mended<'b, 'c> {
    /// The response mended, as long as it was.
    pub copy: &'b [u8],
    /// The changes as numbers.
    pub lines: &'c [u32],
}

impl<'c> Mended<'_, 'c> {
    /// The changes, in rising order: one for each byte that differs.
    pub fn changes(&self) -> impl Iterator<Item = Change> + 'c {
        self.lines.iter().map(|&line| Change::from(line))
    }
}

/// Mends a complete response to RT 0 from 0 in a copy, and lists the changes: `gcf_mend`. Reserved flags and body bits and pads are cleared,
/// 0000h to 0003h get both flags, Persistent goes where it may not be, and a cue sheet length where SAO is 0. Versions, bodies that have one
/// and bodies of wrong length stay. As many bytes as the response has are enough for the copy, and as many lines for the list.
///
/// ```
/// use gcf::{Change, Number};
///
/// // A reserved bit of 0000h's flags, and 0001h without Persistent.
/// let response = [0, 0, 0, 16, 0, 0, 0, 0, 0, 0, 0x43, 0, 0, 1, 1, 4, 0, 0, 0, 2];
/// let (mut copy, mut list) = ([0; 20], [0; 20]);
/// let mended = gcf::mend(&response, &mut copy, &mut list).unwrap();
/// assert_eq!(gcf::check_descriptors(mended.copy), gcf::Finding::Faultless);
/// let changes: Vec<Change> = mended.changes().collect();
/// assert_eq!(changes, [Change { place: 10, old: 0x43, new: 3 }, Change { place: 14, old: 1, new: 3 }]);
/// gcf::undo(changes, &mut copy);
/// assert_eq!(copy, response);
/// assert_eq!(gcf::mend(&response, &mut copy, &mut [0; 1]), Err(Number::ChangesShort));
/// ```
pub fn mend<'b, 'c>(
    response: &[u8],
    copy: &'b mut [u8],
    list: &'c mut [u32],
) -> Result<Mended<'b, 'c>, Number> {
    let mut mended = raw::Mended::default();
    accepted(raw::mend(response, copy, list, &mut mended))?;
    Ok(Mended { copy: &copy[..mended.bytes as usize], lines: &list[..mended.changes as usize] })
}

/// Undoes changes in a mended copy, one after the other: what comes of all of them is the response as it was.
pub fn undo(changes: impl IntoIterator<Item = Change>, copy: &mut [u8]) {
    for change in changes {
        if let Some(byte) = copy.get_mut(change.place) {
            *byte = change.old;
        }
    }
}
