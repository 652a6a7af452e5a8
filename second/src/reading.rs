//! The driver: reads one response.

use crate::numbers::*;
use crate::wire::{be16, be32, part, DescriptorHeader, Descriptors, Feature, Profile};

/// What a reading gives back; on a refusal every field but the number is 0.
#[derive(Clone, Copy, Debug, PartialEq, Eq)]
pub struct Reading {
    pub number: u8,
    pub profile: Profile,
    pub data_length: u32,
    pub count: usize,
    pub end: usize,
    pub complete: bool,
}

impl Reading {
    /// A reading that was refused.
    pub fn refused(number: u8) -> Reading {
        Reading { number, profile: Profile(0), data_length: 0, count: 0, end: 0, complete: false }
    }
}

/// Reads a response to RT and SFN; a sweep gives the largest length it accepts, others none.
pub fn read(rt: u8, sfn: Feature, received: &[u8], limit: Option<usize>) -> Reading {
    match read_and_last(rt, sfn, received, limit) {
        Ok((reading, _)) => reading,
        Err(number) => Reading::refused(number),
    }
}

/// Reads as `read` does, and gives the number of the last whole descriptor too.
pub(crate) fn read_and_last(
    rt: u8,
    sfn: Feature,
    received: &[u8],
    limit: Option<usize>,
) -> Result<(Reading, Option<Feature>), u8> {
    if rt > 2 {
        return Err(READING_RT);
    }
    if received.len() < HEADER_BYTES || received.len() > RETURN_LIMIT {
        return Err(RECEIVED_LENGTH);
    }
    let data_length = be32(received, 0);
    if data_length < 4 || data_length % 4 != 0 {
        return Err(DATA_LENGTH);
    }
    let full = u64::from(data_length) + 4;
    let over_limit = limit.map_or(false, |limit| received.len() > limit);
    if received.len() as u64 > full || over_limit {
        return Err(RECEIVED_TOO_MUCH);
    }
    let walk = walk(rt, sfn, received, full)?;
    let reading = Reading {
        number: ACCEPTED,
        profile: Profile(be16(received, 6)),
        data_length,
        count: walk.count,
        end: walk.end,
        complete: received.len() as u64 == full,
    };
    Ok((reading, walk.last))
}

/// What a walk over the descriptors found whole.
struct Walk {
    count: usize,
    end: usize,
    last: Option<Feature>,
}

/// Checks each descriptor whose 4 header bytes were received.
fn walk(rt: u8, sfn: Feature, received: &[u8], full: u64) -> Result<Walk, u8> {
    let mut walk = Walk { count: 0, end: HEADER_BYTES, last: None };
    while let Some(header) = DescriptorHeader::at(received, walk.end) {
        check_header(rt, sfn, walk.last, header)?;
        let end = walk.end + DESCRIPTOR_BYTES + usize::from(header.length);
        if end as u64 > full {
            return Err(BEYOND_DATA);
        }
        // A descriptor whose body did not arrive whole is the last and isn't counted.
        if end > received.len() {
            break;
        }
        walk = Walk { count: walk.count + 1, end, last: Some(header.feature) };
    }
    Ok(walk)
}

/// Checks 17 to 19 for one header, given the feature before it.
fn check_header(rt: u8, sfn: Feature, before: Option<Feature>, header: DescriptorHeader) -> Result<(), u8> {
    if header.length % 4 != 0 {
        return Err(ADDITIONAL_LENGTH);
    }
    let not_above = before.map_or(false, |before| header.feature <= before);
    let another = rt == 2 && header.feature != sfn;
    if header.feature < sfn || not_above || another {
        return Err(RESPONSE_ORDER);
    }
    if rt == 1 && header.flags & CURRENT == 0 {
        return Err(NOT_CURRENT);
    }
    Ok(())
}

/// The whole descriptors of a response that was read without refusal.
pub fn whole<'a>(received: &'a [u8], reading: &Reading) -> Descriptors<'a> {
    Descriptors::new(part(received, HEADER_BYTES, reading.end))
}

/// Where the reading of a response stops, and the feature there: behind what can be read whole. The response up to a descriptor's 4 header bytes is a
/// response that was cut there, so that reading it tells whether the descriptor is at fault.
pub fn stops(limit: usize, rt: u8, sfn: Feature, received: &[u8]) -> (usize, Feature) {
    let header = received.get(..HEADER_BYTES).unwrap_or(received);
    if received.len() > RETURN_LIMIT || refuses_header(limit, rt, sfn, header, received.len()) {
        return (0, Feature(0));
    }
    let mut at = HEADER_BYTES;
    while let Some(header) = DescriptorHeader::at(received, at) {
        let end = at + DESCRIPTOR_BYTES + usize::from(header.length);
        let cut = read(rt, sfn, &received[..at + DESCRIPTOR_BYTES], None);
        if cut.number != ACCEPTED || end > received.len() {
            return (at, header.feature);
        }
        at = end;
    }
    (at, Feature(0))
}

/// Whether the header alone, of a response of so many bytes, is refused.
fn refuses_header(limit: usize, rt: u8, sfn: Feature, header: &[u8], length: usize) -> bool {
    let alone = read(rt, sfn, header, None);
    alone.number != ACCEPTED || length as u64 > u64::from(be32(header, 0)) + 4 || length > limit
}
