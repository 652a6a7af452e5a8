//! The driver: making a command, reading a response, sweeping a drive, checking what it says.

use crate::numbers::told_by_number;
use crate::{accepted, raw, Feature, Number, Profile, COMMAND_BYTES, DESCRIPTOR_MOST, PACKET_BYTES};

/// The header in front of the descriptors.
const HEADER_BYTES: usize = 8;

/// The Requested Type of a command.
#[derive(Clone, Copy, Debug, PartialEq, Eq, Hash)]
#[repr(u8)]
pub enum Rt {
    /// All features from the start on.
    All = 0,
    /// Of these the current ones.
    Current = 1,
    /// The one feature that is named.
    One = 2,
}

/// The command that asks for `rt` from feature `sfn` on with this allocation length, all other bits 0: `gcf_build_command`.
///
/// ```
/// use gcf::{Feature, Rt};
///
/// assert_eq!(gcf::command(Rt::Current, Feature(0x0105), 300), [0x46, 1, 1, 5, 0, 0, 0, 1, 44, 0]);
/// ```
pub fn command(rt: Rt, sfn: Feature, allocation: u16) -> [u8; COMMAND_BYTES] {
    built(rt as u8, sfn, allocation)
}

/// The same in an ATAPI packet, with two pads behind it. A box answers both alike.
///
/// ```
/// use gcf::{Feature, Rt};
///
/// assert_eq!(gcf::packet(Rt::One, Feature(3), 65_534), [0x46, 2, 0, 3, 0, 0, 0, 0xFF, 0xFE, 0, 0, 0]);
/// ```
///
/// A profile number is no start.
///
/// ```compile_fail
/// gcf::packet(gcf::Rt::All, gcf::Profile(0x0010), 300);
/// ```
pub fn packet(rt: Rt, sfn: Feature, allocation: u16) -> [u8; PACKET_BYTES] {
    built(rt as u8, sfn, allocation)
}

/// Nothing is refused: the two above and a sweep have one of the two lengths, room for it, and an RT of at most 2.
fn built<const LENGTH: usize>(rt: u8, sfn: Feature, allocation: u16) -> [u8; LENGTH] {
    let mut command = [0; LENGTH];
    let number = raw::build_command(LENGTH, rt, sfn, allocation, &mut command, &mut raw::Made::default());
    debug_assert_eq!(number, 0);
    command
}

/// What a response holds.
#[derive(Clone, Copy, Debug, PartialEq, Eq)]
pub struct Reading<'a> {
    /// The Current Profile, 0 if there is none.
    pub profile: Profile,
    /// Data Length, as the header states it.
    pub data_length: u32,
    /// How many descriptors were received whole.
    pub count: usize,
    /// Whether the response is complete; else it is cut.
    pub complete: bool,
    /// The response up to the end of the last of them.
    whole: &'a [u8],
}

impl<'a> Reading<'a> {
    /// The whole descriptors, in their order.
    pub fn descriptors(&self) -> Descriptors<'a> {
        Descriptors { bytes: self.whole, place: HEADER_BYTES }
    }

    /// Their bytes, a part of the response.
    pub fn bytes(&self) -> &'a [u8] {
        &self.whole[HEADER_BYTES..]
    }
}

impl<'a> IntoIterator for &Reading<'a> {
    type Item = Descriptor<'a>;
    type IntoIter = Descriptors<'a>;

    fn into_iter(self) -> Descriptors<'a> {
        self.descriptors()
    }
}

/// Reads a response to Requested Type `rt` from feature `sfn` on: `gcf_read`. Hand over exactly the bytes received.
///
/// ```
/// use gcf::{Feature, Number, Profile, Rt};
///
/// let response = [0, 0, 0, 8, 0, 0, 0, 0x12, 1, 5, 3, 0];
/// let reading = gcf::read(Rt::All, Feature(0x0105), &response).unwrap();
/// assert_eq!((reading.profile, reading.count, reading.complete), (Profile(0x0012), 1, true));
/// assert_eq!(reading.bytes(), [1, 5, 3, 0]);
/// for descriptor in &reading {
///     assert_eq!((descriptor.feature, descriptor.persistent, descriptor.body), (Feature(0x0105), true, &[][..]));
/// }
/// assert_eq!(gcf::read(Rt::All, Feature(0), &response[..7]), Err(Number::ReceivedBad));
/// ```
pub fn read(rt: Rt, sfn: Feature, response: &[u8]) -> Result<Reading<'_>, Number> {
    let mut reading = raw::Reading::default();
    accepted(raw::read(rt as u8, sfn, response, &mut reading))?;
    Ok(Reading {
        profile: Profile(reading.profile as u16),
        data_length: reading.data_length as u32,
        count: reading.count as usize,
        complete: reading.complete != 0,
        whole: &response[..reading.end as usize],
    })
}

/// A descriptor: its fields, and its body as a part of the response.
#[derive(Clone, Copy, Debug, PartialEq, Eq)]
pub struct Descriptor<'a> {
    /// The feature's number.
    pub feature: Feature,
    /// All eight bits of its flags, of which the next three are parts.
    pub flags: u8,
    /// The Version, 0 to 15.
    pub version: u8,
    /// Persistent.
    pub persistent: bool,
    /// Current.
    pub current: bool,
    /// The bytes behind Additional Length.
    pub body: &'a [u8],
}

/// Descriptors that stand one behind the other.
#[derive(Clone, Copy, Debug, PartialEq, Eq)]
pub struct Descriptors<'a> {
    bytes: &'a [u8],
    place: usize,
}

impl<'a> Iterator for Descriptors<'a> {
    type Item = Descriptor<'a>;

    /// The descriptor at the place, if it stands there whole: `gcf_next`.
    fn next(&mut self) -> Option<Descriptor<'a>> {
        let mut told = raw::Descriptor::default();
        if !raw::next(self.place, self.bytes, &mut told) {
            return None;
        }
        self.place = told.next as usize;
        Some(Descriptor {
            feature: Feature(told.feature as u16),
            flags: told.flags as u8,
            version: told.version as u8,
            persistent: told.persistent != 0,
            current: told.current != 0,
            body: &self.bytes[told.body as usize..self.place],
        })
    }
}

/// The descriptors that stand in bytes one behind the other from the first byte on, as a sweep collects them, up to the first that is not whole.
///
/// ```
/// let collected = [0, 3, 3, 4, 0x29, 0, 0, 0, 1, 5, 3, 0, 1, 7];
/// let mut descriptors = gcf::descriptors(&collected);
/// assert_eq!(descriptors.next().unwrap().body, [0x29, 0, 0, 0]);
/// assert_eq!(descriptors.next().unwrap().feature, gcf::Feature(0x0105));
/// assert_eq!(descriptors.next(), None);
/// ```
pub fn descriptors(bytes: &[u8]) -> Descriptors<'_> {
    Descriptors { bytes, place: 0 }
}

/// Where the reading of a response stops: at the first descriptor that is at fault or not whole, or at the end.
#[derive(Clone, Copy, Debug, PartialEq, Eq)]
pub struct Stop {
    /// The place in the response, 0 where its header is refused.
    pub place: usize,
    /// The feature that stands there; none where its four header bytes were not received, or the header is refused.
    pub feature: Option<Feature>,
}

/// Where the reading of a response to Requested Type `rt` from feature `sfn` on stops, which may have at most `most` bytes (65,534, or in a sweep
/// what [`most`](crate::most) gives): `gcf_stops`. With a refusal of 17 to 20 that is the descriptor at fault.
///
/// ```
/// use gcf::{Feature, Number, Rt, Stop};
///
/// let response = [0, 0, 0, 12, 0, 0, 0, 0, 0, 1, 3, 0, 0, 1, 3, 0];
/// assert_eq!(gcf::read(Rt::All, Feature(0), &response), Err(Number::FeatureBad));
/// assert_eq!(gcf::stops(65_534, Rt::All, Feature(0), &response), Stop { place: 12, feature: Some(Feature(1)) });
/// ```
pub fn stops(most: usize, rt: Rt, sfn: Feature, response: &[u8]) -> Stop {
    let mut stop = raw::Stop::default();
    raw::stops(most, rt as u8, sfn, response, &mut stop);
    let place = stop.place as usize;
    let stands = place > 0 && place + 4 <= response.len();
    Stop { place, feature: Some(Feature(stop.feature as u16)).filter(|_| stands) }
}

/// Where a feature's descriptor stands in a response to RT 0 from 0, or would stand: `gcf_place`.
///
/// ```
/// let response = [0, 0, 0, 12, 0, 0, 0, 0, 0, 1, 3, 0, 1, 5, 3, 0];
/// assert_eq!(gcf::place(gcf::Feature(0x0105), &response), 12);
/// ```
pub fn place(feature: Feature, response: &[u8]) -> usize {
    raw::place(feature, response)
}

/// A feature's descriptor out of the fresh response if it is whole there, else out of the kept one: `gcf_held`. Both are responses to RT 0
/// from 0; one that is refused, and so an empty one, holds nothing.
///
/// ```
/// let response = [0, 0, 0, 8, 0, 0, 0, 0x12, 1, 5, 3, 0];
/// let mut descriptor = [0; gcf::DESCRIPTOR_MOST];
/// assert_eq!(gcf::held(gcf::Feature(0x0105), &[], &response, &mut descriptor), Some(&[1, 5, 3, 0][..]));
/// assert_eq!(gcf::held(gcf::Feature(0x0107), &[], &response, &mut descriptor), None);
/// ```
pub fn held<'b>(
    feature: Feature,
    fresh: &[u8],
    kept: &[u8],
    descriptor: &'b mut [u8; DESCRIPTOR_MOST],
) -> Option<&'b [u8]> {
    let count = raw::held(feature, fresh, kept, descriptor);
    Some(&descriptor[..count]).filter(|_| count > 0)
}

/// The listing of a response to RT 0 from 0: `gcf_list`. Gives what was written, the front of the buffer; it stops at the buffer's end, and
/// [`LISTING_MOST`](crate::LISTING_MOST) bytes are always enough.
///
/// ```
/// let mut text = [0; 80];
/// assert_eq!(gcf::list(&[0, 0, 0, 4, 0, 0, 0, 0], &mut text), b"0000 8 0\n");
/// assert_eq!(gcf::list(&[], &mut text), b"refused 14\n");
/// ```
pub fn list<'b>(response: &[u8], text: &'b mut [u8]) -> &'b [u8] {
    let count = raw::list(response, text);
    &text[..count]
}

/// A sweep: collects all features of a drive, or all current ones, with as many commands as it takes. The crate's first page has one.
#[derive(Clone, Copy, Debug, PartialEq, Eq)]
pub struct Sweep(raw::Sweep);

impl Sweep {
    /// Starts a sweep: `gcf_sweep_start`.
    ///
    /// ```
    /// use gcf::{Number, Rt, Sweep};
    ///
    /// assert_eq!(Sweep::start(Rt::Current, 20).unwrap().command(), [0x46, 1, 0, 0, 0, 0, 0, 0, 20, 0]);
    /// assert_eq!(Sweep::start(Rt::One, 20), Err(Number::SweepRtBad));
    /// assert_eq!(Sweep::start(Rt::All, 7), Err(Number::AllocationShort));
    /// ```
    pub fn start(rt: Rt, allocation: u16) -> Result<Sweep, Number> {
        let step = raw::sweep_start(rt as u8, allocation);
        accepted(step.refusal.number).map(|()| Sweep(step.sweep))
    }

    /// The command to send next, while the sweep has not ended. Receive at most [`most`](crate::most) bytes.
    pub fn command(&self) -> [u8; COMMAND_BYTES] {
        built(self.0.rt, self.0.next, self.0.allocation)
    }

    /// The same in an ATAPI packet.
    ///
    /// ```
    /// let sweep = gcf::Sweep::start(gcf::Rt::Current, 20).unwrap();
    /// assert_eq!(sweep.packet(), [0x46, 1, 0, 0, 0, 0, 0, 0, 20, 0, 0, 0]);
    /// ```
    pub fn packet(&self) -> [u8; PACKET_BYTES] {
        built(self.0.rt, self.0.next, self.0.allocation)
    }

    /// Takes the response to that command, exactly the bytes received: `gcf_sweep_take`. The whole descriptors are added to the
    /// collecting buffer; a refusal changes nothing but, where the manual says so, the mark that the sweep has ended.
    ///
    /// ```
    /// use gcf::{Number, Rt, Sweep};
    ///
    /// let mut sweep = Sweep::start(Rt::All, 12).unwrap();
    /// let mut collecting = [0; 8];
    /// assert_eq!(sweep.take(&[0, 0, 0, 2, 0, 0, 0, 0], &mut collecting), Err(Number::StatedBad));
    /// assert!(!sweep.ended());
    /// assert_eq!(sweep.take(&[0, 0, 0, 8, 0, 0, 0, 0, 0, 5, 1, 0], &mut collecting), Ok(()));
    /// assert_eq!((sweep.ended(), sweep.collected(), collecting), (true, 4, [0, 5, 1, 0, 0, 0, 0, 0]));
    /// ```
    pub fn take(&mut self, response: &[u8], collecting: &mut [u8]) -> Result<(), Number> {
        let step = raw::sweep_take(self.0, response, collecting);
        self.0 = step.sweep;
        accepted(step.refusal.number)
    }

    /// Whether the sweep has ended.
    pub fn ended(&self) -> bool {
        self.0.ended
    }

    /// How many responses were accepted.
    pub fn commands(&self) -> u32 {
        self.0.commands
    }

    /// How many bytes of the collecting buffer are descriptors.
    pub fn collected(&self) -> usize {
        self.0.collected as usize
    }

    /// The feature number that the next command starts at.
    pub fn next(&self) -> Feature {
        self.0.next
    }

    /// The Current Profile of the first accepted response, 0 before it. A response with another one is refused and ends the sweep.
    ///
    /// ```
    /// use gcf::{Number, Profile, Rt, Sweep};
    ///
    /// let mut sweep = Sweep::start(Rt::All, 12).unwrap();
    /// let mut collecting = [0; 8];
    /// sweep.take(&[0, 0, 0, 12, 0, 0, 0, 0x12, 0, 5, 1, 0], &mut collecting).unwrap();
    /// assert_eq!(sweep.profile(), Profile(0x0012));
    /// assert_eq!(sweep.take(&[0, 0, 0, 8, 0, 0, 0, 0, 0, 7, 1, 0], &mut collecting), Err(Number::ProfileChanged));
    /// assert!(sweep.ended());
    /// ```
    pub fn profile(&self) -> Profile {
        self.0.profile
    }
}

/// What the check of a response's descriptors finds.
#[derive(Clone, Copy, Debug, PartialEq, Eq, Hash)]
pub enum Finding {
    /// No fault.
    Faultless,
    /// The first fault, 30 to 39, and the feature at fault.
    Fault(Number, Feature),
    /// The response could not be read, or is cut.
    Refused(Number),
}

/// Checks the descriptors of a complete response to RT 0 from 0: `gcf_check_descriptors`.
///
/// ```
/// use gcf::{Feature, Finding, Number};
///
/// let response = [0, 0, 0, 16, 0, 0, 0, 0, 0, 0, 3, 0, 0, 1, 3, 4, 0, 0, 0, 2];
/// assert_eq!(gcf::check_descriptors(&response), Finding::Faultless);
/// assert_eq!(gcf::check_descriptors(&[0, 0, 0, 8, 0, 0, 0, 0, 0, 0, 3, 0]), Finding::Fault(Number::CoreMissing, Feature(1)));
/// assert_eq!(gcf::check_descriptors(&response[..12]), Finding::Refused(Number::ResponseCut));
/// ```
pub fn check_descriptors(response: &[u8]) -> Finding {
    let mut finding = raw::Finding::default();
    match Number::of(raw::check_descriptors(response, &mut finding)) {
        None => Finding::Faultless,
        Some(number) if (30..=39).contains(&number.number()) => {
            Finding::Fault(number, Feature(finding.feature as u16))
        }
        Some(number) => Finding::Refused(number),
    }
}

told_by_number! {
    /// What is wrong with a feature that breaks a profile, the first of these: `enum gcf_wrong`.
    Wrong {
        /// No descriptor has its number.
        1 => Absent,
        /// Its body is shorter than the profile asks.
        2 => TooShort,
        /// A bit that the profile asks for is not set.
        3 => BitClear,
        /// It is not current, and the profile asks for that.
        4 => NotCurrent,
        /// Its descriptor is longer than the profile lets any be.
        5 => TooLong,
    }
}

/// Whether a response has what a profile requires.
#[derive(Clone, Copy, Debug, PartialEq, Eq, Hash)]
pub enum Judgement {
    /// All that the profile requires.
    Conforms,
    /// The lowest feature that breaks the profile, and what is wrong with it.
    Broken(Feature, Wrong),
    /// The response could not be read or is cut, or the profile has no table.
    Refused(Number),
}

/// Whether a complete response to RT 0 from 0 has what a profile requires: `gcf_check_profile`. The archive subset is asked for as [`ARCHIVE`](crate::ARCHIVE).
///
/// ```
/// use gcf::{Feature, Judgement, Number, Profile, Wrong};
///
/// let response = [0, 0, 0, 16, 0, 0, 0, 0, 0, 0, 3, 0, 0, 1, 3, 4, 0, 0, 0, 2];
/// assert_eq!(gcf::check_profile(Profile(0xFFFF), &response), Judgement::Conforms);
/// assert_eq!(gcf::check_profile(Profile(0x0012), &response), Judgement::Broken(Feature(2), Wrong::Absent));
/// assert_eq!(gcf::check_profile(gcf::ARCHIVE, &response), Judgement::Broken(Feature(2), Wrong::Absent));
/// assert_eq!(gcf::check_profile(Profile(0x0009), &response), Judgement::Refused(Number::NoTable));
/// ```
pub fn check_profile(profile: Profile, response: &[u8]) -> Judgement {
    let mut judgement = raw::Judgement::default();
    if let Err(number) = accepted(raw::check_profile(profile, response, &mut judgement)) {
        return Judgement::Refused(number);
    }
    if judgement.wrong == 0 {
        return Judgement::Conforms;
    }
    let wrong = Wrong::of(judgement.wrong).unwrap_or(Wrong::TooLong);
    Judgement::Broken(Feature(judgement.feature as u16), wrong)
}
