//! A captured response, mended in a copy, and the list of what changed.

use crate::checks::{is_of_the_medium, mended_body, read_complete};
use crate::numbers::*;
use crate::reading::whole;
use crate::wire::{Descriptor, DescriptorHeader, Feature};

const REMOVABLE_MEDIUM: Feature = Feature(0x0003);

/// A byte that was changed: its place in the response, what stood there, and what stands there now.
#[derive(Clone, Copy, Debug, PartialEq, Eq)]
pub struct Change {
    pub place: usize,
    pub old: u8,
    pub new: u8,
}

impl Change {
    /// The change as it stands in a list: the place in the upper two bytes, the old byte, the new one.
    pub fn noted(self) -> u32 {
        (self.place as u32) << 16 | u32::from(self.old) << 8 | u32::from(self.new)
    }

    /// What a number of a list says.
    pub fn of(noted: u32) -> Change {
        let [_, _, old, new] = noted.to_be_bytes();
        Change { place: (noted >> 16) as usize, old, new }
    }
}

/// Mends a complete response to RT 0 from 0 in a copy, and lists the changes; gives the bytes of the copy and the number of changes.
pub fn mend(response: &[u8], copy: &mut [u8], list: &mut [u32]) -> Result<(usize, usize), u8> {
    let mended = mended(response)?;
    let room = copy.get_mut(..response.len()).ok_or(COPY_SHORT)?;
    let changes = changes(response, &mended);
    let lines = list.get_mut(..changes.len()).ok_or(CHANGES_SHORT)?;
    room.copy_from_slice(&mended);
    for (line, change) in lines.iter_mut().zip(&changes) {
        *line = change.noted();
    }
    Ok((response.len(), changes.len()))
}

/// The response mended: its header as it is, then each descriptor.
fn mended(response: &[u8]) -> Result<Vec<u8>, u8> {
    let reading = read_complete(response)?;
    let removable = whole(response, &reading).any(|descriptor| descriptor.feature == REMOVABLE_MEDIUM);
    let mut bytes = response[..HEADER_BYTES].to_vec();
    for descriptor in whole(response, &reading) {
        let body = mended_body(descriptor);
        let (feature, flags) = (descriptor.feature, mended_flags(descriptor, removable));
        bytes.extend(DescriptorHeader { feature, flags, length: body.len() as u8 }.bytes());
        bytes.extend(body);
    }
    Ok(bytes)
}

/// A descriptor's flags: reserved bits cleared, then both flags set for 0000h to 0003h, then Persistent cleared where it may not be.
fn mended_flags(descriptor: Descriptor, removable: bool) -> u8 {
    let mut flags = descriptor.flags & !RESERVED;
    if descriptor.feature <= REMOVABLE_MEDIUM {
        flags |= PERSISTENT | CURRENT;
    }
    let barred = removable && is_of_the_medium(descriptor.feature);
    if flags & CURRENT == 0 || barred {
        flags &= !PERSISTENT;
    }
    flags
}

/// What differs between two byte strings of one length, in rising order.
pub fn changes(old: &[u8], new: &[u8]) -> Vec<Change> {
    let pairs = old.iter().zip(new).enumerate();
    pairs
        .filter(|(_, (old, new))| old != new)
        .map(|(place, (&old, &new))| Change { place, old, new })
        .collect()
}

/// Undoes changes, one after the other.
pub fn undo(changes: &[Change], mended: &[u8]) -> Vec<u8> {
    let mut bytes = mended.to_vec();
    for change in changes {
        bytes[change.place] = change.old;
    }
    bytes
}
