//! A descriptor in the fresh response or in the kept one: found on the walk of the reading.

use super::reading::read_each;
use crate::numbers::*;
use crate::wire::Feature;

/// The descriptor as a part of the fresh response, else of the kept one, else an empty part.
pub fn find<'a>(feature: Feature, fresh: &'a [u8], kept: &'a [u8]) -> &'a [u8] {
    if let Some(descriptor) = find_in(feature, fresh) {
        return descriptor;
    }
    find_in(feature, kept).unwrap_or(&[])
}

/// The descriptor if it is whole in a response that isn't refused.
fn find_in(feature: Feature, response: &[u8]) -> Option<&[u8]> {
    let mut at = HEADER_BYTES;
    let mut found = None;
    let reading = read_each(0, Feature(0), response, RETURN_LIMIT, |header, body| {
        let end = at + DESCRIPTOR_BYTES + body.len();
        if header.feature() == feature.0 {
            found = Some((at, end));
        }
        at = end;
    });
    let (from, to) = found.filter(|_| reading.is_ok())?;
    response.get(from..to)
}
