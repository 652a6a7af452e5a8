//! What has a fixed width, read or moved in one go.

/// The number in the first two bytes.
pub fn first16(bytes: &[u8]) -> u16 {
    match *bytes {
        [high, low, ..] => u16::from_be_bytes([high, low]),
        _ => 0,
    }
}

/// The number in the first four bytes.
pub fn first32(bytes: &[u8]) -> u32 {
    match *bytes {
        [a, b, c, d, ..] => u32::from_be_bytes([a, b, c, d]),
        _ => 0,
    }
}

/// The four bytes before a body; each field is read where it is asked for.
#[derive(Clone, Copy)]
pub struct Header<'a>(pub &'a [u8; 4]);

impl<'a> Header<'a> {
    /// The header that the bytes begin with, and what stands behind it.
    pub fn split(bytes: &'a [u8]) -> Option<(Header<'a>, &'a [u8])> {
        if bytes.len() < 4 {
            return None;
        }
        let (header, behind) = bytes.split_at(4);
        Some((Header(header.try_into().ok()?), behind))
    }

    /// The feature number.
    pub fn feature(self) -> u16 {
        first16(self.0)
    }

    /// The flags.
    pub fn flags(self) -> u8 {
        self.0[2]
    }

    /// The length of the body.
    pub fn length(self) -> usize {
        usize::from(self.0[3])
    }
}

/// Copies a body to a room of its length; most bodies are of no or of four bytes, which need no call.
pub fn copy_body(room: &mut [u8], body: &[u8]) {
    match body {
        [] => {}
        [a, b, c, d] => room.copy_from_slice(&[*a, *b, *c, *d]),
        _ => room.copy_from_slice(body),
    }
}
