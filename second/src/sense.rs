//! Sense data in fixed format: what the box tells a host after a command, and what the driver makes of it.

use crate::numbers::*;

/// What a command's number means to the host.
#[derive(Clone, Copy, Debug, PartialEq, Eq)]
pub enum Kind {
    /// NO SENSE: the command was accepted.
    Nothing,
    /// ILLEGAL REQUEST, invalid command operation code.
    Operation,
    /// ILLEGAL REQUEST, invalid field in CDB: byte 1, bit 1.
    Field,
    /// HARDWARE ERROR, internal target failure: the box's own trouble.
    Trouble,
}

impl Kind {
    /// The kind of a number; none if no command gives it.
    pub fn of(number: u8) -> Option<Kind> {
        match number {
            ACCEPTED => Some(Kind::Nothing),
            COMMAND_LENGTH | COMMAND_OPCODE => Some(Kind::Operation),
            COMMAND_RT => Some(Kind::Field),
            SHEET_SHORT..=SHEET_END | PERSISTENT_UNCURRENT | BUFFER_SHORT => Some(Kind::Trouble),
            // What import says of an image; a reading of one is with RT 0, and there is no buffer for a sheet.
            RECEIVED_LENGTH..=RESPONSE_ORDER | BEYOND_DATA | CHECK_CUT | CAPTURE_BAD => Some(Kind::Trouble),
            _ => None,
        }
    }

    /// The sense key, the additional sense code and bytes 15 to 17.
    fn fields(self) -> (u8, u8, [u8; 3]) {
        match self {
            Kind::Nothing => (0x00, 0x00, [0; 3]),
            Kind::Operation => (0x05, 0x20, [0; 3]),
            // Valid, in the CDB, bit pointer valid, bit 1; then the byte as a field of two bytes.
            Kind::Field => (0x05, 0x24, [0x80 | 0x40 | 0x08 | 1, 0, 1]),
            Kind::Trouble => (0x04, 0x44, [0; 3]),
        }
    }
}

/// Makes the sense data for a command's number; gives its length, or why it isn't made.
pub fn make(number: u8, out: &mut [u8]) -> Result<usize, u8> {
    let kind = Kind::of(number).ok_or(NOT_A_COMMANDS)?;
    let room = out.get_mut(..SENSE_BYTES).ok_or(SENSE_BUFFER_SHORT)?;
    let (key, code, pointer) = kind.fields();
    room.fill(0);
    room[0] = RESPONSE_CODE;
    room[2] = key;
    room[7] = ADDITIONAL_SENSE_LENGTH;
    room[12] = code;
    room[15..].copy_from_slice(&pointer);
    Ok(SENSE_BYTES)
}

/// What received sense data means, or why it is refused.
pub fn read(sense: &[u8]) -> Result<Kind, u8> {
    if sense.len() != SENSE_BYTES {
        return Err(SENSE_LENGTH);
    }
    // Bit 7 is VALID, which the box never sets: that is no other response code.
    if sense[0] & 0x7F != RESPONSE_CODE {
        return Err(SENSE_RESPONSE_CODE);
    }
    match *sense {
        [RESPONSE_CODE, 0, key, 0, 0, 0, 0, ADDITIONAL_SENSE_LENGTH, 0, 0, 0, 0, code, 0, 0, p, q, r] => {
            let fields = (key, code, [p, q, r]);
            let kinds = [Kind::Nothing, Kind::Operation, Kind::Field, Kind::Trouble];
            kinds.into_iter().find(|kind| kind.fields() == fields).ok_or(SENSE_OTHER)
        }
        _ => Err(SENSE_OTHER),
    }
}
