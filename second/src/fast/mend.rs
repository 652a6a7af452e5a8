//! A captured response, mended in a copy: the changes are counted on one walk and made on another.

use super::reading::read_complete;
use super::wire::Header;
use crate::numbers::*;

/// Mends a complete response to RT 0 from 0 in a copy, and lists the changes; gives the bytes of the copy and the number of changes.
pub fn mend(response: &[u8], copy: &mut [u8], list: &mut [u32]) -> Result<(usize, usize), u8> {
    let mut removable = false;
    read_complete(response, |header, _| removable |= header.feature() == 3)?;
    let copy = copy.get_mut(..response.len()).ok_or(COPY_SHORT)?;
    let mut count = 0;
    each_change(response, removable, |_, _, _| count += 1);
    let list = list.get_mut(..count).ok_or(CHANGES_SHORT)?;
    copy.copy_from_slice(response);
    let mut lines = list.iter_mut();
    each_change(response, removable, |place, old, new| {
        copy[place] = new;
        if let Some(line) = lines.next() {
            *line = (place as u32) << 16 | u32::from(old) << 8 | u32::from(new);
        }
    });
    Ok((response.len(), count))
}

/// Shows each byte that differs: place, old, new.
fn each_change(response: &[u8], removable: bool, mut see: impl FnMut(usize, u8, u8)) {
    let mut at = HEADER_BYTES;
    while let Some((header, behind)) = Header::split(&response[at..]) {
        let (body, _) = behind.split_at(header.length());
        let flags = flags(header, removable);
        if flags != header.flags() {
            see(at + 2, header.flags(), flags);
        }
        at += DESCRIPTOR_BYTES;
        if header.flags() & VERSION == 0 {
            body_changes(header.feature(), body, |place, old, new| see(at + place, old, new));
        }
        at += header.length();
    }
}

/// The flags mended.
fn flags(header: Header, removable: bool) -> u8 {
    let flags = header.flags() & !RESERVED;
    match header.feature() {
        0x0000..=0x0003 => flags | PERSISTENT | CURRENT,
        0x001F | 0x0020 | 0x0021 | 0x0026 | 0x002D..=0x002F if removable => flags & !PERSISTENT,
        _ if flags & CURRENT == 0 => flags & !PERSISTENT,
        _ => flags,
    }
}

/// Shows each byte of a body with Version 0 that differs.
fn body_changes(feature: u16, body: &[u8], mut see: impl FnMut(usize, u8, u8)) {
    let mask: [u8; 12] = match (feature, body.len()) {
        (0x0000, _) => [0xFF, 0xFF, 1, 0, 0xFF, 0xFF, 1, 0, 0xFF, 0xFF, 1, 0],
        (0x0002, 4) => four(0x01),
        (0x0003, 4) => four(0xED),
        (0x0020, 12) => [0xFF, 0xFF, 0xFF, 0xFF, 0xFF, 0xFF, 0xFF, 0xFF, 0xFF, 0xFF, 1, 0],
        (0x0021, length) if length >= 4 && length == 4 + (usize::from(body[3]) + 3) / 4 * 4 => {
            return link_size_changes(body, see);
        }
        (0x002D, 4) => four(0x07),
        (0x002E, 4) if body[0] & 0x20 == 0 => four(0x1F),
        (0x002E, 4) => [0x3F, 0xFF, 0xFF, 0xFF, 0, 0, 0, 0, 0, 0, 0, 0],
        (0x002F, 4) => four(0x04),
        _ => return,
    };
    for (place, (&byte, mask)) in body.iter().zip(mask.iter().cycle()).enumerate() {
        if byte & !mask != 0 {
            see(place, byte, byte & mask);
        }
    }
}

/// A mask of four bytes of which only the first may have a bit.
fn four(first: u8) -> [u8; 12] {
    let mut mask = [0; 12];
    mask[0] = first;
    mask
}

/// Shows each reserved byte and each pad of 0021h that is not 0.
fn link_size_changes(body: &[u8], mut see: impl FnMut(usize, u8, u8)) {
    let pad = 4 + usize::from(body[3]);
    for (place, &byte) in body.iter().enumerate() {
        if byte != 0 && (place < 3 || place >= pad) {
            see(place, byte, 0);
        }
    }
}
