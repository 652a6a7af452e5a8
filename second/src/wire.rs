//! Big-endian fields, the two kinds of number, and descriptors in a row.

use crate::numbers::DESCRIPTOR_BYTES;

/// A feature number; 0010h is Random Readable.
#[derive(Clone, Copy, Debug, PartialEq, Eq, PartialOrd, Ord)]
pub struct Feature(pub u16);

/// A profile number; 0010h is DVD-ROM.
#[derive(Clone, Copy, Debug, PartialEq, Eq, PartialOrd, Ord)]
pub struct Profile(pub u16);

/// A feature descriptor with its body.
#[derive(Clone, Copy, Debug, PartialEq, Eq)]
pub struct Descriptor<'a> {
    pub feature: Feature,
    pub flags: u8,
    pub body: &'a [u8],
}

/// The byte at a place; 0 outside, so that no caller can panic.
pub fn byte(bytes: &[u8], at: usize) -> u8 {
    bytes.get(at).copied().unwrap_or(0)
}

/// The 2-byte number at a place; 0 if it isn't there whole.
pub fn be16(bytes: &[u8], at: usize) -> u16 {
    match bytes.get(at..) {
        Some(&[high, low, ..]) => u16::from_be_bytes([high, low]),
        _ => 0,
    }
}

/// The 4-byte number at a place; 0 if it isn't there whole.
pub fn be32(bytes: &[u8], at: usize) -> u32 {
    match bytes.get(at..) {
        Some(&[a, b, c, d, ..]) => u32::from_be_bytes([a, b, c, d]),
        _ => 0,
    }
}

/// The bytes from one place to another; empty if they aren't all there.
pub fn part(bytes: &[u8], from: usize, to: usize) -> &[u8] {
    bytes.get(from..to).unwrap_or(&[])
}

/// The 4 bytes that stand before a body.
#[derive(Clone, Copy, Debug, PartialEq, Eq)]
pub struct DescriptorHeader {
    pub feature: Feature,
    pub flags: u8,
    pub length: u8,
}

impl DescriptorHeader {
    /// The header at a place, if all 4 bytes are there.
    pub fn at(bytes: &[u8], at: usize) -> Option<DescriptorHeader> {
        match bytes.get(at..) {
            Some(&[high, low, flags, length, ..]) => {
                Some(DescriptorHeader { feature: Feature(u16::from_be_bytes([high, low])), flags, length })
            }
            _ => None,
        }
    }

    /// The header's 4 bytes.
    pub fn bytes(self) -> [u8; DESCRIPTOR_BYTES] {
        let [high, low] = self.feature.0.to_be_bytes();
        [high, low, self.flags, self.length]
    }
}

/// Walks descriptors that stand in a row; stops before one that isn't whole.
#[derive(Clone, Debug)]
pub struct Descriptors<'a> {
    rest: &'a [u8],
}

impl<'a> Descriptors<'a> {
    /// A walk over bytes that begin with a descriptor.
    pub fn new(bytes: &'a [u8]) -> Descriptors<'a> {
        Descriptors { rest: bytes }
    }

    /// The bytes not walked yet.
    pub fn rest(&self) -> &'a [u8] {
        self.rest
    }
}

impl<'a> Iterator for Descriptors<'a> {
    type Item = Descriptor<'a>;

    fn next(&mut self) -> Option<Descriptor<'a>> {
        let header = DescriptorHeader::at(self.rest, 0)?;
        let end = DESCRIPTOR_BYTES + usize::from(header.length);
        let body = self.rest.get(DESCRIPTOR_BYTES..end)?;
        self.rest = self.rest.get(end..)?;
        Some(Descriptor { feature: header.feature, flags: header.flags, body })
    }
}
