//! Finds a descriptor in the fresh response or in the one kept from power-on.

use crate::numbers::{ACCEPTED, DESCRIPTOR_BYTES, HEADER_BYTES};
use crate::reading::{read, whole};
use crate::wire::Feature;

/// The descriptor as a part of the fresh response, else of the kept one, else an empty part.
pub fn find<'a>(feature: Feature, fresh: &'a [u8], kept: &'a [u8]) -> &'a [u8] {
    if let Some(descriptor) = find_in(feature, fresh) {
        return descriptor;
    }
    find_in(feature, kept).unwrap_or(&[])
}

/// The descriptor if it is whole in a response that isn't refused.
fn find_in(feature: Feature, response: &[u8]) -> Option<&[u8]> {
    let reading = read(0, Feature(0), response, None);
    if reading.number != ACCEPTED {
        return None;
    }
    let mut walk = whole(response, &reading);
    loop {
        let here = walk.rest();
        let descriptor = walk.next()?;
        if descriptor.feature == feature {
            return here.get(..DESCRIPTOR_BYTES + descriptor.body.len());
        }
    }
}

/// Where a feature's descriptor stands in a response, or would stand: behind the header and the whole descriptors of lower features.
pub fn place(feature: Feature, response: &[u8]) -> usize {
    let reading = read(0, Feature(0), response, None);
    if reading.number != ACCEPTED {
        return HEADER_BYTES;
    }
    let lower = whole(response, &reading).filter(|descriptor| descriptor.feature < feature);
    HEADER_BYTES + lower.map(|descriptor| DESCRIPTOR_BYTES + descriptor.body.len()).sum::<usize>()
}
