//! A drive sheet in the other layout: checked, copied, and its contents laid out on one walk.

use super::columns::{self, Columns};
use super::sheet;
use crate::numbers::*;
use crate::refusal::Refusal;

/// Lays a sheet in rows out in columns; gives its length.
pub fn to_columns(sheet: &[u8], out: &mut [u8]) -> Result<usize, Refusal> {
    let parts = sheet::accept(sheet)?;
    let contents = copied(sheet, parts.contents.len(), out)?;
    let count = parts.contents.len() / ENTRY_BYTES;
    let (numbers, rest) = contents.split_at_mut(2 * count);
    let (flags, rest) = rest.split_at_mut(count);
    let (lengths, offsets) = rest.split_at_mut(count);
    let heads = numbers.chunks_exact_mut(2).zip(flags).zip(lengths);
    let entries = parts.contents.chunks_exact(ENTRY_BYTES);
    for ((((number, flags), length), offset), entry) in heads.zip(offsets.chunks_exact_mut(4)).zip(entries) {
        number.copy_from_slice(&entry[..2]);
        *flags = entry[2];
        *length = entry[3];
        offset.copy_from_slice(&entry[4..]);
    }
    Ok(sheet.len())
}

/// Lays a sheet in columns out in rows; gives its length.
pub fn to_rows(sheet: &[u8], out: &mut [u8]) -> Result<usize, Refusal> {
    let Columns { parts, numbers, flags, lengths, offsets } = columns::accept(sheet)?;
    let contents = copied(sheet, parts.contents.len(), out)?;
    let heads = numbers.chunks_exact(2).zip(flags).zip(lengths);
    let entries = contents.chunks_exact_mut(ENTRY_BYTES);
    for (entry, (((number, &flags), &length), offset)) in entries.zip(heads.zip(offsets.chunks_exact(4))) {
        entry[..2].copy_from_slice(number);
        entry[2] = flags;
        entry[3] = length;
        entry[4..].copy_from_slice(offset);
    }
    Ok(sheet.len())
}

/// Copies a sheet but for its contents; gives the room for them.
fn copied<'a>(sheet: &[u8], contents: usize, out: &'a mut [u8]) -> Result<&'a mut [u8], u8> {
    let room = out.get_mut(..sheet.len()).ok_or(SHEET_BUFFER_SHORT)?;
    let behind = SHEET_HEADER_BYTES + contents;
    room[..SHEET_HEADER_BYTES].copy_from_slice(&sheet[..SHEET_HEADER_BYTES]);
    room[behind..].copy_from_slice(&sheet[behind..]);
    Ok(&mut room[SHEET_HEADER_BYTES..behind])
}
