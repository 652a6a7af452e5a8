//! Turns a captured response into a drive sheet that answers with it.

use crate::checks::read_complete;
use crate::numbers::*;
use crate::reading::whole;
use crate::refusal::Refusal;
use crate::sheet::{check_flags, check_profiles};
use crate::wire::{be16, byte, Descriptors, Feature};

/// Makes the sheet whose full response was captured; gives its length, or why the capture is refused.
/// Places are those that the sheet would have: feature 0 lists the profiles and isn't counted among the entries.
pub fn import(response: &[u8], sheet: &mut [u8]) -> Result<usize, Refusal> {
    let capture = Capture::accept(response)?;
    let length = capture.sheet_length();
    let room = sheet.get_mut(..length).ok_or(SHEET_BUFFER_SHORT)?;
    capture.write(room);
    Ok(length)
}

/// A captured response that a sheet can give.
pub(crate) struct Capture<'a> {
    /// The body of feature 0; the sheet lists its profiles in the same 4 bytes each.
    profiles: &'a [u8],
    /// The descriptors behind feature 0.
    features: Descriptors<'a>,
    feature_count: usize,
}

impl<'a> Capture<'a> {
    /// Checks a response to RT 0 from 0 in the order of the numbers' table, but for the buffer.
    pub(crate) fn accept(response: &'a [u8]) -> Result<Capture<'a>, Refusal> {
        let reading = read_complete(response)?;
        let mut features = whole(response, &reading);
        let list = features.next().ok_or(CAPTURE_BAD)?;
        if list.feature != Feature(0) || list.flags != PERSISTENT | CURRENT {
            return Err(CAPTURE_BAD.into());
        }
        if be16(response, 4) != 0 || reading.profile.0 != first_current(list.body) {
            return Err(CAPTURE_BAD.into());
        }
        check_profiles(list.body)?;
        for (index, descriptor) in features.clone().enumerate() {
            check_flags(descriptor.flags).map_err(|number| Refusal::of_index(number, index))?;
        }
        Ok(Capture { profiles: list.body, features, feature_count: reading.count - 1 })
    }

    /// Where the sheet's bodies start.
    fn bodies_at(&self) -> usize {
        SHEET_HEADER_BYTES + ENTRY_BYTES * self.feature_count + self.profiles.len()
    }

    /// The length of the sheet.
    fn sheet_length(&self) -> usize {
        let bodies = self.features.rest().len() - DESCRIPTOR_BYTES * self.feature_count;
        self.bodies_at() + bodies
    }

    /// Writes the sheet to a room of its length.
    fn write(&self, room: &mut [u8]) {
        let mut offset = self.bodies_at();
        let (header, rest) = room.split_at_mut(SHEET_HEADER_BYTES);
        let (contents, rest) = rest.split_at_mut(ENTRY_BYTES * self.feature_count);
        let (profiles, mut bodies) = rest.split_at_mut(self.profiles.len());
        // A response has room for 16,381 descriptors and feature 0 for 63 profiles, so both counts fit.
        header[..2].copy_from_slice(&(self.feature_count as u16).to_be_bytes());
        header[2..].copy_from_slice(&((self.profiles.len() / PROFILE_BYTES) as u16).to_be_bytes());
        profiles.copy_from_slice(self.profiles);
        for (entry, descriptor) in contents.chunks_exact_mut(ENTRY_BYTES).zip(self.features.clone()) {
            let length = descriptor.body.len();
            entry[..2].copy_from_slice(&descriptor.feature.0.to_be_bytes());
            entry[2] = descriptor.flags;
            entry[3] = length as u8;
            entry[4..].copy_from_slice(&(offset as u32).to_be_bytes());
            offset += length;
            let (body, later) = bodies.split_at_mut(length);
            body.copy_from_slice(descriptor.body);
            bodies = later;
        }
    }
}

/// The number of the first profile with CurrentP in the body of feature 0; 0 if there is none.
fn first_current(list: &[u8]) -> u16 {
    let mut profiles = list.chunks_exact(PROFILE_BYTES);
    profiles.find(|profile| byte(profile, 2) & 0x01 != 0).map_or(0, |profile| be16(profile, 0))
}
