//! The box: answers GET CONFIGURATION from a sheet.

use std::ops::Range;

use crate::numbers::*;
use crate::refusal::Refusal;
use crate::sheet::{Layout, Sheet};
use crate::wire::{be16, byte, DescriptorHeader, Feature};

/// RT 0: all features from SFN.
pub const RT_ALL: u8 = 0;
/// RT 1: the current features from SFN.
pub const RT_CURRENT: u8 = 1;
/// RT 2: the feature SFN or none.
pub const RT_ONE: u8 = 2;
/// RT 3 is reserved.
pub const RT_RESERVED: u8 = 3;

/// What a command asks for.
#[derive(Clone, Copy, Debug, PartialEq, Eq)]
pub struct Request {
    pub rt: u8,
    pub sfn: Feature,
    pub allocation: u16,
}

impl Request {
    /// Reads a command; gives the request, or the first of 9 to 11 that refuses it.
    #[inline]
    pub fn parse(command: &[u8]) -> Result<Request, u8> {
        if !is_command_length(command.len()) {
            return Err(COMMAND_LENGTH);
        }
        if byte(command, 0) != OPCODE {
            return Err(COMMAND_OPCODE);
        }
        let rt = byte(command, 1) & 0x03;
        if rt == RT_RESERVED {
            return Err(COMMAND_RT);
        }
        Ok(Request { rt, sfn: Feature(be16(command, 2)), allocation: be16(command, 7) })
    }

    /// The command's 10 bytes, with every other bit 0.
    pub fn bytes(self) -> [u8; COMMAND_BYTES] {
        let [sfn_high, sfn_low] = self.sfn.0.to_be_bytes();
        let [high, low] = self.allocation.to_be_bytes();
        [OPCODE, self.rt & 0x03, sfn_high, sfn_low, 0, 0, 0, high, low, 0]
    }

    /// Writes the command of so many bytes to the front of a buffer; gives their count, or the first of 9, 11 and 12.
    pub fn build(self, length: usize, out: &mut [u8]) -> Result<usize, u8> {
        if !is_command_length(length) {
            return Err(COMMAND_LENGTH);
        }
        if self.rt >= RT_RESERVED {
            return Err(COMMAND_RT);
        }
        let room = out.get_mut(..length).ok_or(BUFFER_SHORT)?;
        let (command, pads) = room.split_at_mut(COMMAND_BYTES);
        command.copy_from_slice(&self.bytes());
        pads.fill(0);
        Ok(length)
    }
}

/// Whether a command can have so many bytes.
fn is_command_length(length: usize) -> bool {
    length == COMMAND_BYTES || length == PACKET_BYTES
}

/// The most bytes a response can have for an allocation length; the paper calls it C.
pub fn most_bytes(allocation: u16) -> usize {
    usize::from(allocation).min(RETURN_LIMIT)
}

/// Checks the sheet and answers the command; gives the count of bytes sent.
pub fn respond(layout: Layout, sheet: &[u8], command: &[u8], out: &mut [u8]) -> Result<usize, Refusal> {
    let sheet = Sheet::accept(layout, sheet)?;
    Ok(respond_checked(sheet, command, out)?)
}

/// Answers the command from a sheet already checked; gives the count of bytes sent, or the first of 9 to 12.
pub fn respond_checked(sheet: Sheet, command: &[u8], out: &mut [u8]) -> Result<usize, u8> {
    let request = Request::parse(command)?;
    let full = full_length(sheet, request.rt, request.sfn);
    send(sheet, request, full, out)
}

/// The length of the full response to a request, before any cut.
pub fn full_length(sheet: Sheet, rt: u8, sfn: Feature) -> usize {
    let mut length = HEADER_BYTES;
    if sfn == Feature(0) {
        length += DESCRIPTOR_BYTES + sheet.profile_bytes().len();
    }
    let range = wanted_entries(sheet, rt, sfn);
    match rt {
        RT_ALL => length + length_from(sheet, range),
        RT_CURRENT => length + sum_of_lengths(sheet, range, true),
        _ => length + sum_of_lengths(sheet, range, false),
    }
}

/// The length of the descriptors of all entries in a range that reaches the last, taken from where its first body starts.
fn length_from(sheet: Sheet, range: Range<usize>) -> usize {
    if range.is_empty() {
        return 0;
    }
    let bodies = sheet.length().saturating_sub(sheet.entry(range.start).offset as usize);
    DESCRIPTOR_BYTES * range.len() + bodies
}

/// The length of the descriptors of the entries in a range, or of the current ones among them.
fn sum_of_lengths(sheet: Sheet, range: Range<usize>, only_current: bool) -> usize {
    let entries = sheet.entries(range.start, range.end);
    let wanted = entries.filter(|entry| entry.is_current() || !only_current);
    wanted.map(|entry| DESCRIPTOR_BYTES + usize::from(entry.length)).sum()
}

/// The entries a request looks at; for RT 1 not all of them are sent.
fn wanted_entries(sheet: Sheet, rt: u8, sfn: Feature) -> Range<usize> {
    let first = sheet.first_from(sfn);
    let count = sheet.feature_count();
    if rt != RT_ONE {
        return first..count;
    }
    if first < count && sheet.entry(first).feature == sfn {
        return first..first + 1;
    }
    first..first
}

/// Sends the first bytes of the response whose full length is given; gives their count.
pub fn send(sheet: Sheet, request: Request, full: usize, out: &mut [u8]) -> Result<usize, u8> {
    let count = most_bytes(request.allocation).min(full);
    let room = out.get_mut(..count).ok_or(BUFFER_SHORT)?;
    let mut writer = Writer { room };
    writer.put(&header(full, sheet.current_profile().0));
    if request.sfn == Feature(0) {
        put_profile_list(sheet, &mut writer);
    }
    put_entries(sheet, request, &mut writer);
    Ok(count)
}

/// The 8 bytes before the descriptors.
fn header(full: usize, profile: u16) -> [u8; HEADER_BYTES] {
    // The longest response has fewer than 2^25 bytes, so this never falls back.
    let data_length = u32::try_from(full.saturating_sub(4)).unwrap_or(u32::MAX);
    let [a, b, c, d] = data_length.to_be_bytes();
    let [high, low] = profile.to_be_bytes();
    [a, b, c, d, 0, 0, high, low]
}

/// Writes feature 0; a profile has the same 4 bytes in the sheet and in the response.
fn put_profile_list(sheet: Sheet, writer: &mut Writer) {
    let body = sheet.profile_bytes();
    // 63 profiles have 252 bytes, so this never falls back.
    let length = u8::try_from(body.len()).unwrap_or(u8::MAX);
    let header = DescriptorHeader { feature: Feature(0), flags: PERSISTENT | CURRENT, length };
    writer.put(&header.bytes());
    writer.put(body);
}

/// Writes the wanted entries' descriptors, and stops at the cut.
fn put_entries(sheet: Sheet, request: Request, writer: &mut Writer) {
    let range = wanted_entries(sheet, request.rt, request.sfn);
    for entry in sheet.entries(range.start, range.end) {
        if writer.is_full() {
            return;
        }
        if request.rt == RT_CURRENT && !entry.is_current() {
            continue;
        }
        let header = DescriptorHeader { feature: entry.feature, flags: entry.flags, length: entry.length };
        writer.put(&header.bytes());
        writer.put(sheet.body(entry));
    }
}

/// The part of the lent buffer that is still to be written.
pub(crate) struct Writer<'a> {
    pub(crate) room: &'a mut [u8],
}

impl Writer<'_> {
    /// Writes as many of the bytes as there is room for.
    pub(crate) fn put(&mut self, bytes: &[u8]) {
        let count = bytes.len().min(self.room.len());
        let (now, later) = std::mem::take(&mut self.room).split_at_mut(count);
        now.copy_from_slice(&bytes[..count]);
        self.room = later;
    }

    /// Whether the cut is reached.
    fn is_full(&self) -> bool {
        self.room.is_empty()
    }
}
