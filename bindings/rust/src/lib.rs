//! GET CONFIGURATION, proved: safe functions over those that `libgcf.a` exports. Slices go in, enums and parts of the slices come out.
//!
//! `docs/MANUAL.md` says what each function gives and what each number means; the functions here have the names that it uses for C, without
//! `gcf_`. Nothing has to be checked before a call: any bytes and any numbers may be handed in. What is proved is the archive; what this
//! crate adds is thin enough to be read, and its unsafe code is all in [`raw`].
//!
//! The box answers from a drive sheet:
//!
//! ```
//! use gcf::{Layout, Number, Sheet};
//!
//! let sheet = Sheet::check(Layout::Rows, &gcf::SHEET_E).unwrap();
//! let mut response = [0; 44];
//! let sent = sheet.respond(&[0x46, 0, 0, 0, 0, 0, 0, 0, 44, 0], &mut response).unwrap(); // 10 bytes, or 12 in a packet
//! assert_eq!(sent[..8], [0, 0, 0, 40, 0, 0, 0, 0x12]);
//! assert_eq!(sheet.respond(&[0x46, 3, 0, 0, 0, 0, 0, 0, 44, 0], &mut response), Err(Number::RtReserved));
//! ```
//!
//! Or from an image, a complete response to RT 0 from 0 that stands in its ROM:
//!
//! ```
//! let image = gcf::Image::check(&gcf::IMAGE_E).unwrap();
//! let mut response = [0; 44];
//! let sent = image.respond(&gcf::packet(gcf::Rt::All, gcf::Feature(0), 44), &mut response).unwrap();
//! assert_eq!(sent, gcf::IMAGE_E);
//! ```
//!
//! The driver sweeps it, here with an allocation length of 20 bytes:
//!
//! ```
//! use gcf::{Layout, Rt, Sheet, Sweep};
//!
//! let sheet = Sheet::check(Layout::Rows, &gcf::SHEET_E).unwrap();
//! let (mut response, mut collecting) = ([0; 20], [0; 64]);
//! let mut sweep = Sweep::start(Rt::All, 20).unwrap();
//! while !sweep.ended() {
//!     let received = sheet.respond(&sweep.command(), &mut response).unwrap(); // a transport in its place
//!     sweep.take(received, &mut collecting).unwrap();
//! }
//! assert_eq!((sweep.commands(), sweep.collected()), (4, 36));
//! let features: Vec<u16> = gcf::descriptors(&collecting[..36]).map(|descriptor| descriptor.feature.0).collect();
//! assert_eq!(features, [0, 1, 3, 0x001F, 0x0105]);
//! ```
//!
//! A refusal says why, in the words of the programs:
//!
//! ```
//! use gcf::{Layout, Sheet};
//!
//! let refused = Sheet::check(Layout::Rows, &[0; 3]).unwrap_err();
//! assert_eq!(refused.to_string(), "1: the sheet has under 4 bytes, or under 4 + 8n + 4p");
//! ```
//!
//! With the feature `std`, which is on unless it is turned off, numbers and refusals are errors, `std::error::Error`.
#![no_std]
#![deny(unsafe_code)]
#![warn(missing_docs)]

#[cfg(feature = "std")]
extern crate std;

#[cfg(not(target_pointer_width = "64"))]
compile_error!("these bindings are for targets whose usize has 64 bits, and were tried on no other");

mod drive;
mod driver;
mod image;
mod judge;
mod mend;
mod numbers;
#[allow(unsafe_code, missing_docs)]
pub mod raw;
mod sense;

pub use drive::{bench, convert, import, load, most, respond, Layout, Line, Refused, Sheet, Swept};
pub use driver::{
    check_descriptors, check_profile, command, descriptors, held, list, packet, place, read, stops,
    Descriptor, Descriptors, Finding, Judgement, Reading, Rt, Stop, Sweep, Wrong,
};
pub use image::{respond_image, Image};
pub use judge::{judge, Mistake, Verdict};
pub use mend::{mend, undo, Change, Mended};
pub use numbers::{Number, Words};
pub use sense::{make_sense, read_sense, Kind};

/// A feature number: `gcf_feature`. A profile number does not fit its place.
///
/// ```compile_fail
/// gcf::held(gcf::Profile(0x0010), &[], &[], &mut [0; 256]);
/// ```
#[repr(C)]
#[derive(Clone, Copy, Debug, PartialEq, Eq, PartialOrd, Ord, Hash)]
pub struct Feature(pub u16);

/// A profile number: `gcf_profile`.
#[repr(C)]
#[derive(Clone, Copy, Debug, PartialEq, Eq, PartialOrd, Ord, Hash)]
pub struct Profile(pub u16);

/// What the archive subset is asked for as, a number that no drive may list: `GCF_ARCHIVE`.
pub const ARCHIVE: Profile = Profile(0x0000);

/// A command.
pub const COMMAND_BYTES: usize = 10;
/// The same command with its two pads, as ATAPI sends it.
pub const PACKET_BYTES: usize = 12;
/// One descriptor has at most so many bytes.
pub const DESCRIPTOR_MOST: usize = 256;
/// One response has at most so many bytes.
pub const RESPONSE_MOST: usize = 65_534;
/// The listing of any bytes has at most so many.
pub const LISTING_MOST: usize = 245_736;
/// The longest drive sheet.
pub const SHEET_MOST: usize = 17_039_356;
/// The longest sheet of a captured response.
pub const IMPORT_MOST: usize = 131_044;
/// Sense data in fixed format.
pub const SENSE_BYTES: usize = 18;
/// The sentence of a number has at most so many bytes.
pub const WORDS_MOST: usize = 129;

/// Sheet E, the manual's worked example: a recorder with four features and two profiles.
pub const SHEET_E: [u8; 52] = [
    0x00, 0x04, 0x00, 0x02, // four features, two profiles
    0x00, 0x01, 0x03, 0x04, 0x00, 0x00, 0x00, 0x2C, // 0001h, its body at 44
    0x00, 0x03, 0x03, 0x04, 0x00, 0x00, 0x00, 0x30, // 0003h, its body at 48
    0x00, 0x1F, 0x01, 0x00, 0x00, 0x00, 0x00, 0x34, // 001Fh
    0x01, 0x05, 0x03, 0x00, 0x00, 0x00, 0x00, 0x34, // 0105h
    0x00, 0x12, 0x01, 0x00, // profile 0012h, current
    0x00, 0x10, 0x00, 0x00, // profile 0010h
    0x00, 0x00, 0x00, 0x02, // the body of 0001h
    0x29, 0x00, 0x00, 0x00, // the body of 0003h
];

/// Sheet E with its contents in columns.
pub const COLUMNS_E: [u8; 52] = [
    0x00, 0x04, 0x00, 0x02, // four features, two profiles
    0x00, 0x01, 0x00, 0x03, 0x00, 0x1F, 0x01, 0x05, // their numbers
    0x03, 0x03, 0x01, 0x03, // their flags
    0x04, 0x04, 0x00, 0x00, // the lengths of their bodies
    0x00, 0x00, 0x00, 0x2C, 0x00, 0x00, 0x00, 0x30, 0x00, 0x00, 0x00, 0x34, 0x00, 0x00, 0x00,
    0x34, // and where these are
    0x00, 0x12, 0x01, 0x00, // profile 0012h, current
    0x00, 0x10, 0x00, 0x00, // profile 0010h
    0x00, 0x00, 0x00, 0x02, // the body of 0001h
    0x29, 0x00, 0x00, 0x00, // the body of 0003h
];

/// The response of sheet E to RT 0 from 0: the image of a box that holds one in place of the sheet.
pub const IMAGE_E: [u8; 44] = [
    0x00, 0x00, 0x00, 0x28, 0x00, 0x00, 0x00, 0x12, // Data Length 40, Current Profile 0012h
    0x00, 0x00, 0x03, 0x08, 0x00, 0x12, 0x01, 0x00, 0x00, 0x10, 0x00, 0x00, // 0000h, the profiles
    0x00, 0x01, 0x03, 0x04, 0x00, 0x00, 0x00, 0x02, // 0001h
    0x00, 0x03, 0x03, 0x04, 0x29, 0x00, 0x00, 0x00, // 0003h
    0x00, 0x1F, 0x01, 0x00, // 001Fh
    0x01, 0x05, 0x03, 0x00, // 0105h
];

/// Nothing where the number is 0, else what it says.
fn accepted(number: u8) -> Result<(), Number> {
    match Number::of(number) {
        None => Ok(()),
        Some(number) => Err(number),
    }
}
