//! Every number that a function gives back, and the fixed sizes of the wire formats.

/// Accepted, or a check without findings.
pub const ACCEPTED: u8 = 0;

// The sheet.
/// Sheet under 4 bytes, or under 4 + 8n + 4p.
pub const SHEET_SHORT: u8 = 1;
/// More than 63 profiles.
pub const PROFILE_COUNT: u8 = 2;
/// Profile number 0 or listed before; current byte over 1; last byte not 0.
pub const PROFILE_BAD: u8 = 3;
/// Feature number 0, or not above the one before.
pub const FEATURE_ORDER: u8 = 4;
/// Reserved flag bits not 0.
pub const FLAGS_RESERVED: u8 = 5;
/// Body length no multiple of 4.
pub const BODY_LENGTH: u8 = 6;
/// Offset not the end of the body before.
pub const BODY_OFFSET: u8 = 7;
/// Sheet doesn't end where the last body ends.
pub const SHEET_END: u8 = 8;

// The command.
/// Command of neither 10 nor 12 bytes.
pub const COMMAND_LENGTH: u8 = 9;
/// Byte 0 not 46h.
pub const COMMAND_OPCODE: u8 = 10;
/// RT 3 in a command.
pub const COMMAND_RT: u8 = 11;
/// Response buffer too short.
pub const BUFFER_SHORT: u8 = 12;

// The reading.
/// RT over 2 given to a reading.
pub const READING_RT: u8 = 13;
/// Received under 8 or over 65,534 bytes.
pub const RECEIVED_LENGTH: u8 = 14;
/// Data Length under 4 or no multiple of 4.
pub const DATA_LENGTH: u8 = 15;
/// Received more than Data Length + 4, or, in a sweep, more than C.
pub const RECEIVED_TOO_MUCH: u8 = 16;
/// Additional Length no multiple of 4.
pub const ADDITIONAL_LENGTH: u8 = 17;
/// Feature below SFN, or not above the one before; RT 2: not SFN.
pub const RESPONSE_ORDER: u8 = 18;
/// RT 1: Current is 0.
pub const NOT_CURRENT: u8 = 19;
/// Descriptor ends beyond Data Length + 4.
pub const BEYOND_DATA: u8 = 20;

// The sweep.
/// Sweep with RT over 1.
pub const SWEEP_RT: u8 = 21;
/// Sweep with an allocation length under 8.
pub const SWEEP_ALLOCATION: u8 = 22;
/// Cut response with no whole descriptor.
pub const NOTHING_WHOLE: u8 = 23;
/// No room for collected descriptors.
pub const COLLECTED_FULL: u8 = 24;
/// No room for another start.
pub const STARTS_FULL: u8 = 25;
/// Sweep had ended.
pub const SWEEP_ENDED: u8 = 26;
/// Cut after a whole FFFFh.
pub const CUT_AFTER_LAST: u8 = 27;
/// Cut response of fewer than C bytes.
pub const CUT_SHORT: u8 = 28;

// The checks.
/// Checking or importing a cut response.
pub const CHECK_CUT: u8 = 29;
/// Feature 0 or 1 missing.
pub const FINDING_MISSING: u8 = 30;
/// Wrong length.
pub const FINDING_LENGTH: u8 = 31;
/// Flags not both 1 for 0000h to 0003h.
pub const FINDING_NOT_BOTH: u8 = 32;
/// Reserved flags not 0.
pub const FINDING_FLAGS: u8 = 33;
/// Persistent without Current.
pub const FINDING_PERSISTENT: u8 = 34;
/// Persistent on a medium's feature while 0003h is reported.
pub const FINDING_REMOVABLE: u8 = 35;
/// A reserved body bit or pad byte not 0.
pub const FINDING_RESERVED: u8 = 36;
/// SAO 0 and cue sheet length not 0.
pub const FINDING_CUE_SHEET: u8 = 37;
/// Profile number 0.
pub const FINDING_PROFILE: u8 = 39;
/// No table for the profile.
pub const NO_TABLE: u8 = 40;

// The import.
/// Feature 0 absent or its flags not 03h; header bytes 4-5 not 0; a Current Profile that the profile list doesn't give.
pub const CAPTURE_BAD: u8 = 41;
/// Sheet buffer too short.
pub const SHEET_BUFFER_SHORT: u8 = 42;

// The sheet's flags besides 5. 43, which was for a Version, is withdrawn.
/// Persistent without Current.
pub const PERSISTENT_UNCURRENT: u8 = 44;

// The sweep's other refusal.
/// A Current Profile other than the first accepted response had.
pub const PROFILE_CHANGED: u8 = 45;

// The sense data.
/// Sense data not 18 bytes.
pub const SENSE_LENGTH: u8 = 46;
/// Response code not 70h.
pub const SENSE_RESPONSE_CODE: u8 = 47;
/// Any other content that the box can't write.
pub const SENSE_OTHER: u8 = 48;

// The mender.
/// Buffer for the mended copy too short.
pub const COPY_SHORT: u8 = 49;
/// List of changes too short.
pub const CHANGES_SHORT: u8 = 50;

// Loading a medium.
/// A list out of order or with a repeat.
pub const LIST_ORDER: u8 = 51;
/// A listed feature or profile that the sheet lacks.
pub const SHEET_LACKS: u8 = 52;
/// Buffer for the loaded sheet too short.
pub const LOADED_SHORT: u8 = 53;

// The sense data's maker.
/// A number that no command gives.
pub const NOT_A_COMMANDS: u8 = 54;
/// Buffer under 18 bytes.
pub const SENSE_BUFFER_SHORT: u8 = 55;

// The wire.
/// Operation code of GET CONFIGURATION.
pub const OPCODE: u8 = 0x46;
/// Bytes in a command.
pub const COMMAND_BYTES: usize = 10;
/// A command in an ATAPI packet, with its two pads.
pub const PACKET_BYTES: usize = 12;
/// Bytes in a response's header.
pub const HEADER_BYTES: usize = 8;
/// Bytes in a descriptor before its body.
pub const DESCRIPTOR_BYTES: usize = 4;
/// The most bytes one response may have.
pub const RETURN_LIMIT: usize = 65_534;
/// The Current bit of a descriptor's flags.
pub const CURRENT: u8 = 0x01;
/// The Persistent bit of a descriptor's flags.
pub const PERSISTENT: u8 = 0x02;
/// The reserved bits of a descriptor's flags.
pub const RESERVED: u8 = 0xC0;
/// The Version of a descriptor's flags.
pub const VERSION: u8 = 0x3C;

// The sheet's layout.
/// Bytes before the contents.
pub const SHEET_HEADER_BYTES: usize = 4;
/// Bytes in one entry of the contents.
pub const ENTRY_BYTES: usize = 8;
/// Bytes in one profile.
pub const PROFILE_BYTES: usize = 4;
/// The most profiles a sheet may list, since their list has to fit one descriptor.
pub const PROFILES_MOST: usize = 63;
/// Bytes of sense data in fixed format.
pub const SENSE_BYTES: usize = 18;
/// Response code of sense data: a current error, in fixed format.
pub const RESPONSE_CODE: u8 = 0x70;
/// Additional sense length: the bytes behind byte 7.
pub const ADDITIONAL_SENSE_LENGTH: u8 = 0x0A;
