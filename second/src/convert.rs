//! A drive sheet in the other layout.

use crate::numbers::*;
use crate::refusal::Refusal;
use crate::sheet::{laid_out, places, Entry, Layout, Sheet};

/// Lays a sheet out anew; gives its length, which stays the same, or why it is refused.
pub fn convert(to: Layout, from: Layout, sheet: &[u8], out: &mut [u8]) -> Result<usize, Refusal> {
    Sheet::accept(from, sheet)?;
    let room = out.get_mut(..sheet.len()).ok_or(SHEET_BUFFER_SHORT)?;
    room.copy_from_slice(&rearranged(to, from, sheet));
    Ok(sheet.len())
}

/// The bytes with the contents in the other layout, also of a sheet that is refused; the same bytes where not all of the contents are there.
pub fn rearranged(to: Layout, from: Layout, sheet: &[u8]) -> Vec<u8> {
    let (profiles_at, _) = places(sheet);
    let mut bytes = sheet.to_vec();
    let parts = Sheet::assume_checked(from, sheet);
    if let Some(contents) = bytes.get_mut(SHEET_HEADER_BYTES..profiles_at) {
        let entries: Vec<Entry> = parts.entries(0, parts.feature_count()).collect();
        contents.copy_from_slice(&laid_out(to, &entries));
    }
    bytes
}
