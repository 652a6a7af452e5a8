//! The lister: prints a response to RT 0 from 0.

use crate::numbers::{ACCEPTED, CURRENT, PERSISTENT};
use crate::reading::{read, whole};
use crate::wire::{Descriptor, Feature};

/// The lister's output for an input.
pub fn list(received: &[u8]) -> Vec<u8> {
    let reading = read(0, Feature(0), received, None);
    if reading.number != ACCEPTED {
        return format!("refused {}\n", reading.number).into_bytes();
    }
    let mut text = format!("{:04X} {} {}\n", reading.profile.0, received.len(), reading.count);
    for descriptor in whole(received, &reading) {
        text.push_str(&line(descriptor));
    }
    if !reading.complete {
        text.push_str("cut\n");
    }
    text.into_bytes()
}

/// The line of one descriptor.
fn line(descriptor: Descriptor) -> String {
    let flags = descriptor.flags;
    let persistent = if flags & PERSISTENT != 0 { 'P' } else { '-' };
    let current = if flags & CURRENT != 0 { 'C' } else { '-' };
    let version = (flags >> 2) & 0x0F;
    let length = descriptor.body.len();
    format!("{:04X} {persistent}{current} {version} {length}\n", descriptor.feature.0)
}
