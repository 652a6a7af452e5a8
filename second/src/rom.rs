//! The ROM way: a box that holds the complete response to RT 0 from 0 as an image, and no sheet.

use crate::command::{most_bytes, Request, Writer, RT_ALL, RT_CURRENT, RT_ONE};
use crate::import::Capture;
use crate::numbers::*;
use crate::refusal::Refusal;
use crate::wire::{byte, Feature};

/// Checks an image; gives import's number, but for the buffer, and the place that the sheet would have.
pub fn check(image: &[u8]) -> Result<(), Refusal> {
    Capture::accept(image)?;
    Ok(())
}

/// Checks the image and answers the command; gives the count of bytes sent.
pub fn respond(image: &[u8], command: &[u8], out: &mut [u8]) -> Result<usize, Refusal> {
    check(image)?;
    Ok(respond_checked(image, command, out)?)
}

/// Answers the command from an image already checked; gives the count of bytes sent, or the first of 9 to 12.
/// Any other bytes are walked by the same rule: a byte behind the end counts as 0, and what isn't there isn't sent.
pub fn respond_checked(image: &[u8], command: &[u8], out: &mut [u8]) -> Result<usize, u8> {
    let request = Request::parse(command)?;
    let size = wanted(image, request).map(|standing| standing.bytes.len()).sum();
    let rest = rest_of_header(image);
    let count = most_bytes(request.allocation).min(4 + rest.len() + size);
    let mut writer = Writer { room: out.get_mut(..count).ok_or(BUFFER_SHORT)? };
    writer.put(&data_length(image, size).to_be_bytes());
    writer.put(rest);
    for standing in wanted(image, request) {
        writer.put(standing.bytes);
    }
    Ok(count)
}

/// The Data Length of an answer with so many bytes behind its header: the image's, less what is passed over.
fn data_length(image: &[u8], size: usize) -> u32 {
    let stated = u32::from_be_bytes([0, 1, 2, 3].map(|at| byte(image, at)));
    let passed_over = image.len().saturating_sub(HEADER_BYTES).saturating_sub(size);
    stated.saturating_sub(u32::try_from(passed_over).unwrap_or(u32::MAX))
}

/// The header's bytes behind Data Length, as many as are there.
fn rest_of_header(image: &[u8]) -> &[u8] {
    let behind = image.get(4..).unwrap_or(&[]);
    &behind[..behind.len().min(HEADER_BYTES - 4)]
}

/// The descriptors that a request wants, in the order in which they stand.
fn wanted(image: &[u8], request: Request) -> impl Iterator<Item = Standing<'_>> {
    let Request { rt, sfn, .. } = request;
    let first = Walk { image, at: HEADER_BYTES }.skip_while(move |standing| standing.feature < sfn);
    let most = if rt == RT_ONE { 1 } else { usize::MAX };
    first.take(most).filter(move |standing| match rt {
        RT_ALL => true,
        RT_CURRENT => standing.flags & CURRENT != 0,
        _ => standing.feature == sfn,
    })
}

/// A descriptor as it stands in the image, cut where the image ends.
struct Standing<'a> {
    feature: Feature,
    flags: u8,
    bytes: &'a [u8],
}

/// Walks from descriptor to descriptor, up to the image's end.
struct Walk<'a> {
    image: &'a [u8],
    at: usize,
}

impl<'a> Iterator for Walk<'a> {
    type Item = Standing<'a>;

    fn next(&mut self) -> Option<Standing<'a>> {
        let here = self.image.get(self.at..).filter(|here| !here.is_empty())?;
        let end = DESCRIPTOR_BYTES + usize::from(byte(here, 3));
        self.at += end;
        Some(Standing {
            feature: Feature(u16::from_be_bytes([byte(here, 0), byte(here, 1)])),
            flags: byte(here, 2),
            bytes: &here[..end.min(here.len())],
        })
    }
}
