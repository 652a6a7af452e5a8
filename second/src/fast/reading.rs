//! The driver's reading, which shows each whole descriptor on its one walk.

use super::wire::{first16, first32, Header};
use crate::command::{RT_ALL, RT_CURRENT};
use crate::numbers::*;
use crate::reading::Reading;
use crate::wire::{Feature, Profile};

/// Reads a response to RT and SFN; a sweep gives the largest length it accepts, others none.
pub fn read(rt: u8, sfn: Feature, received: &[u8], limit: Option<usize>) -> Reading {
    read_each(rt, sfn, received, limit.unwrap_or(RETURN_LIMIT), |_, _| {}).unwrap_or_else(Reading::refused)
}

/// Reads a response to RT 0 from 0, which must be complete, and shows each descriptor.
pub(super) fn read_complete(received: &[u8], each: impl FnMut(Header, &[u8])) -> Result<Reading, u8> {
    let data_length = data_length(received, RETURN_LIMIT)?;
    let walked = walk(0, received, data_length, |_| ACCEPTED, each)?;
    let reading = reading(received, data_length, walked);
    if !reading.complete {
        return Err(CHECK_CUT);
    }
    Ok(reading)
}

/// Reads a response and shows the header and the body of each whole descriptor.
pub(super) fn read_each(
    rt: u8,
    sfn: Feature,
    received: &[u8],
    limit: usize,
    each: impl FnMut(Header, &[u8]),
) -> Result<Reading, u8> {
    if rt > 2 {
        return Err(READING_RT);
    }
    let data_length = data_length(received, limit)?;
    let walked = match rt {
        RT_ALL => walk(sfn.0, received, data_length, |_| ACCEPTED, each),
        RT_CURRENT => walk(sfn.0, received, data_length, not_current, each),
        _ => walk(sfn.0, received, data_length, |header| another(header, sfn.0), each),
    }?;
    Ok(reading(received, data_length, walked))
}

/// Checks what stands before the descriptors; gives the Data Length.
fn data_length(received: &[u8], limit: usize) -> Result<u32, u8> {
    if received.len() < HEADER_BYTES || received.len() > RETURN_LIMIT {
        return Err(RECEIVED_LENGTH);
    }
    let data_length = first32(received);
    if data_length < 4 || data_length % 4 != 0 {
        return Err(DATA_LENGTH);
    }
    if received.len() as u64 > full_length(data_length) || received.len() > limit {
        return Err(RECEIVED_TOO_MUCH);
    }
    Ok(data_length)
}

/// The length of the response before any cut.
fn full_length(data_length: u32) -> u64 {
    u64::from(data_length) + 4
}

/// The reading of a response that is not refused.
fn reading(received: &[u8], data_length: u32, (count, end): (usize, usize)) -> Reading {
    let complete = received.len() as u64 == full_length(data_length);
    Reading { number: ACCEPTED, profile: Profile(first16(&received[6..])), data_length, count, end, complete }
}

/// What RT 1 refuses.
fn not_current(header: Header) -> u8 {
    if header.flags() & CURRENT == 0 {
        return NOT_CURRENT;
    }
    ACCEPTED
}

/// What RT 2 refuses.
fn another(header: Header, sfn: u16) -> u8 {
    if header.feature() != sfn {
        return RESPONSE_ORDER;
    }
    ACCEPTED
}

/// Checks each descriptor whose header was received; gives how many are whole and the place behind them.
fn walk(
    sfn: u16,
    received: &[u8],
    data_length: u32,
    refused: impl Fn(Header) -> u8,
    mut each: impl FnMut(Header, &[u8]),
) -> Result<(usize, usize), u8> {
    let mut rest = &received[HEADER_BYTES..];
    // How many bytes behind the received ones the response goes on.
    let missing = full_length(data_length) - received.len() as u64;
    let mut lowest = u32::from(sfn);
    let mut count = 0;
    while let Some((header, behind)) = Header::split(rest) {
        let feature = u32::from(header.feature());
        if header.length() % 4 != 0 {
            return Err(ADDITIONAL_LENGTH);
        }
        if feature < lowest {
            return Err(RESPONSE_ORDER);
        }
        if refused(header) != ACCEPTED {
            return Err(refused(header));
        }
        if header.length() > behind.len() {
            if header.length() as u64 > behind.len() as u64 + missing {
                return Err(BEYOND_DATA);
            }
            break;
        }
        let (body, next) = behind.split_at(header.length());
        each(header, body);
        lowest = feature + 1;
        count += 1;
        rest = next;
    }
    Ok((count, received.len() - rest.len()))
}
