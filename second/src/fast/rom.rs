//! The box that holds an image: one walk to the first wanted descriptor, and what stands together copied in one go.

use super::import::accept;
use super::wire::{first32, Header};
use crate::command::{most_bytes, Request, RT_ALL, RT_CURRENT};
use crate::numbers::*;
use crate::refusal::Refusal;

/// Checks an image; gives import's number, but for the buffer.
#[inline]
pub fn check(image: &[u8]) -> Result<(), Refusal> {
    accept(image).map(|_| ())
}

/// Checks the image and answers the command; gives the count of bytes sent.
pub fn respond(image: &[u8], command: &[u8], out: &mut [u8]) -> Result<usize, Refusal> {
    check(image)?;
    Ok(respond_checked(image, command, out)?)
}

/// Answers the command from an image accepted before; gives the count of bytes sent.
pub fn respond_checked(image: &[u8], command: &[u8], out: &mut [u8]) -> Result<usize, u8> {
    let Request { rt, sfn, allocation } = Request::parse(command)?;
    let (head, behind) = match image.get(..HEADER_BYTES) {
        Some(head) => (head, from(&image[HEADER_BYTES..], sfn.0)),
        None => return Err(RECEIVED_LENGTH),
    };
    let size = match rt {
        RT_ALL => behind.len(),
        RT_CURRENT => size_of_currents(behind),
        _ => size_of_one(behind, sfn.0),
    };
    let count = most_bytes(allocation).min(HEADER_BYTES + size);
    let out = out.get_mut(..count).ok_or(BUFFER_SHORT)?;
    let passed = image.len() - HEADER_BYTES - size;
    let mut header = [0; HEADER_BYTES];
    header[..4].copy_from_slice(&first32(head).wrapping_sub(passed as u32).to_be_bytes());
    header[4..].copy_from_slice(&head[4..]);
    if count <= HEADER_BYTES {
        out.copy_from_slice(&header[..count]);
        return Ok(count);
    }
    let (room, rest) = out.split_at_mut(HEADER_BYTES);
    room.copy_from_slice(&header);
    match rt {
        RT_CURRENT => put_currents(rest, behind),
        _ => rest.copy_from_slice(&behind[..rest.len()]),
    }
    Ok(count)
}

/// The descriptors from the first one on whose number is the wanted one or higher.
fn from(mut descriptors: &[u8], wanted: u16) -> &[u8] {
    while let Some((header, behind)) = Header::split(descriptors) {
        if header.feature() >= wanted {
            break;
        }
        descriptors = behind.get(header.length()..).unwrap_or(&[]);
    }
    descriptors
}

/// The length of the first descriptor if it is the wanted one.
fn size_of_one(descriptors: &[u8], wanted: u16) -> usize {
    match Header::split(descriptors) {
        Some((header, _)) if header.feature() == wanted => DESCRIPTOR_BYTES + header.length(),
        _ => 0,
    }
}

/// The length of the current ones.
fn size_of_currents(mut descriptors: &[u8]) -> usize {
    let mut size = 0;
    while let Some((header, behind)) = Header::split(descriptors) {
        // Without a branch that the flags decide.
        size += (DESCRIPTOR_BYTES + header.length()) * usize::from(header.flags() & CURRENT);
        descriptors = behind.get(header.length()..).unwrap_or(&[]);
    }
    size
}

/// Writes the current ones up to the cut, each run of them in one go.
fn put_currents(mut out: &mut [u8], mut descriptors: &[u8]) {
    while !out.is_empty() && !descriptors.is_empty() {
        let skipped = run(descriptors, 0);
        let current = run(&descriptors[skipped..], CURRENT);
        let count = current.min(out.len());
        let (room, later) = std::mem::take(&mut out).split_at_mut(count);
        room.copy_from_slice(&descriptors[skipped..skipped + count]);
        out = later;
        descriptors = &descriptors[skipped + current..];
    }
}

/// How many bytes the first descriptors have whose Current bit is this.
fn run(descriptors: &[u8], current: u8) -> usize {
    let mut rest = descriptors;
    while let Some((header, behind)) = Header::split(rest) {
        if header.flags() & CURRENT != current {
            break;
        }
        rest = behind.get(header.length()..).unwrap_or(&[]);
    }
    descriptors.len() - rest.len()
}
