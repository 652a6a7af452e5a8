//! The exported functions as `include/gcf.h` declares them, over slices: a number comes out, or a count, and further results go to a struct, every field of it; the
//! two of a sweep take its record and give a step. All unsafe code of this crate is here. The functions of the crate's root are easier to use.
//!
//! Every wrapper hands over slices, each as its pointer and its count of elements, and structs, each as its pointer. Such a pointer is never null and is aligned,
//! and what is written overlaps nothing else, which is all that the functions ask of a caller.

use crate::{Feature, Profile};

/// A struct of further results.
pub trait Told: Copy {
    /// One with this number in every field.
    fn filled(number: u64) -> Self;
    /// Its fields, in their order.
    fn numbers(&self) -> &[u64];
}

/// Makes the structs of further results: as in C, each field is a number of 64 bits.
macro_rules! told {
    ($($(#[$words:meta])* $name:ident { $($field:ident),* })*) => {$(
        $(#[$words])*
        #[repr(C)]
        #[derive(Clone, Copy, Debug, Default, PartialEq, Eq)]
        pub struct $name {
            $(pub $field: u64,)*
        }

        impl Told for $name {
            fn filled(number: u64) -> $name {
                $name { $($field: number,)* }
            }

            fn numbers(&self) -> &[u64] {
                let count = core::mem::size_of::<$name>() / core::mem::size_of::<u64>();
                // every field is a u64, one behind the other
                unsafe { core::slice::from_raw_parts((self as *const $name).cast(), count) }
            }
        }
    )*};
}

told! {
    /// A check of a sheet or of an image: `struct gcf_check`.
    Check { place }
    /// Bytes that were made: `struct gcf_made`.
    Made { bytes, place }
    /// What a response holds: `struct gcf_reading`.
    Reading { profile, data_length, count, end, complete }
    /// A descriptor in a response: `struct gcf_descriptor`.
    Descriptor { feature, flags, version, persistent, current, body, body_bytes, next }
    /// Where a reading stops: `struct gcf_stop`.
    Stop { place, feature }
    /// What a bench sweep did: `struct gcf_swept`.
    Swept { commands, collected, place }
    /// What is said of another box's response: `struct gcf_verdict`.
    Verdict { said, differs, mistake, refusal, place }
    /// What a check of descriptors finds: `struct gcf_finding`.
    Finding { feature }
    /// What is said of a profile: `struct gcf_judgement`.
    Judgement { wrong, feature }
    /// What a mending made: `struct gcf_mended`.
    Mended { bytes, changes }
    /// What sense data says: `struct gcf_meaning`.
    Meaning { kind }
}

/// A sweep's record: `struct gcf_sweep`. Any record may be handed in.
#[repr(C)]
#[derive(Clone, Copy, Debug, PartialEq, Eq)]
pub struct Sweep {
    pub rt: u8,
    pub allocation: u16,
    /// The Starting Feature Number to ask for.
    pub next: Feature,
    /// Responses accepted so far.
    pub commands: u32,
    /// Bytes collected so far.
    pub collected: u64,
    pub ended: bool,
    /// The Current Profile of the first accepted response, 0 before it.
    pub profile: Profile,
}

/// A number, and the place of a line of a drive sheet; in a sweep the place is 0: `struct gcf_refusal`.
#[repr(C)]
#[derive(Clone, Copy, Debug, PartialEq, Eq)]
pub struct Refusal {
    pub number: u8,
    pub place: u16,
}

/// What a start, or a response, gives: the number, and the record from then on: `struct gcf_step`.
#[repr(C)]
#[derive(Clone, Copy, Debug, PartialEq, Eq)]
pub struct Step {
    pub refusal: Refusal,
    pub sweep: Sweep,
}

#[link(name = "gcf", kind = "static")]
extern "C" {}

/// Makes, of each line, the declaration of an exported function and the safe function over it. A slice is handed over as its pointer and its count of elements, a
/// struct that is written as its pointer, a count as 64 bits, and all else as it is.
macro_rules! exported {
    ($($(#[$words:meta])* fn $name:ident = $symbol:ident($($taken:tt)*) -> $given:tt;)*) => {$(
        $(#[$words])*
        pub fn $name($($taken)*) -> $given {
            exported!(@over ($symbol $given) [] [] $($taken)*)
        }
    )*};
    // the parameters one by one: how each is declared, and what is handed over for it
    (@over $to:tt [$($c:tt)*] [$($rust:tt)*] $name:ident: &[$of:ty] $(, $($more:tt)*)?) => {
        exported!(@over $to [$($c)* _: *const $of, _: u64,] [$($rust)* $name.as_ptr(), $name.len() as u64,] $($($more)*)?)
    };
    (@over $to:tt [$($c:tt)*] [$($rust:tt)*] $name:ident: &mut [$of:ty] $(, $($more:tt)*)?) => {
        exported!(@over $to [$($c)* _: *mut $of, _: u64,] [$($rust)* $name.as_mut_ptr(), $name.len() as u64,] $($($more)*)?)
    };
    (@over $to:tt [$($c:tt)*] [$($rust:tt)*] $name:ident: &mut $of:ty $(, $($more:tt)*)?) => {
        exported!(@over $to [$($c)* _: *mut $of,] [$($rust)* $name,] $($($more)*)?)
    };
    (@over $to:tt [$($c:tt)*] [$($rust:tt)*] $name:ident: usize $(, $($more:tt)*)?) => {
        exported!(@over $to [$($c)* _: u64,] [$($rust)* $name as u64,] $($($more)*)?)
    };
    (@over $to:tt [$($c:tt)*] [$($rust:tt)*] $name:ident: $of:ty $(, $($more:tt)*)?) => {
        exported!(@over $to [$($c)* _: $of,] [$($rust)* $name,] $($($more)*)?)
    };
    // behind the last one: the call
    (@over ($symbol:ident usize) $c:tt $rust:tt) => {
        exported!(@over ($symbol u64) $c $rust) as usize
    };
    (@over ($symbol:ident $given:tt) [$($c:tt)*] [$($rust:tt)*]) => {{
        extern "C" {
            fn $symbol($($c)*) -> $given;
        }
        unsafe { $symbol($($rust)*) }
    }};
}

exported! {
    /// The sentence of a number: the count of bytes written.
    fn words = gcf_words(number: u8, text: &mut [u8]) -> usize;
    /// Checks a sheet.
    fn check_sheet = gcf_check_sheet(columns: bool, sheet: &[u8], check: &mut Check) -> u8;
    /// Answers a command.
    fn respond = gcf_respond(
        columns: bool, sheet: &[u8], command: &[u8], response: &mut [u8], sent: &mut Made
    ) -> u8;
    /// Answers a command from a sheet that was accepted before.
    fn respond_accepted = gcf_respond_accepted(
        columns: bool, sheet: &[u8], command: &[u8], response: &mut [u8], sent: &mut Made
    ) -> u8;
    /// Lays a sheet out anew.
    fn convert = gcf_convert(
        columns: bool, sheet: &[u8], to_columns: bool, converted: &mut [u8], made: &mut Made
    ) -> u8;
    /// Makes the sheet that a medium leaves.
    fn load = gcf_load(
        columns: bool, sheet: &[u8], features: &[Feature], profiles: &[Profile], loaded: &mut [u8], made: &mut Made
    ) -> u8;
    /// Checks an image.
    fn check_image = gcf_check_image(image: &[u8], check: &mut Check) -> u8;
    /// Answers a command from an image.
    fn respond_image = gcf_respond_image(
        image: &[u8], command: &[u8], response: &mut [u8], sent: &mut Made
    ) -> u8;
    /// Answers a command from an image that was accepted before.
    fn respond_image_accepted = gcf_respond_image_accepted(
        image: &[u8], command: &[u8], response: &mut [u8], sent: &mut Made
    ) -> u8;
    /// Makes a command of so many bytes.
    fn build_command = gcf_build_command(
        length: usize, rt: u8, sfn: Feature, allocation: u16, command: &mut [u8], made: &mut Made
    ) -> u8;
    /// Reads a response.
    fn read = gcf_read(rt: u8, sfn: Feature, response: &[u8], reading: &mut Reading) -> u8;
    /// The descriptor at a place, if it stands there whole.
    fn next = gcf_next(place: usize, response: &[u8], descriptor: &mut Descriptor) -> bool;
    /// Where a reading stops.
    fn stops = gcf_stops(most: usize, rt: u8, sfn: Feature, response: &[u8], stop: &mut Stop) -> ();
    /// Where a feature stands, or would stand.
    fn place = gcf_place(feature: Feature, response: &[u8]) -> usize;
    /// Copies a descriptor: the count of bytes written.
    fn held = gcf_held(feature: Feature, fresh: &[u8], kept: &[u8], descriptor: &mut [u8]) -> usize;
    /// Lists a response: the count of bytes written.
    fn list = gcf_list(response: &[u8], text: &mut [u8]) -> usize;
    /// The most bytes of a response.
    fn most = gcf_most(allocation: u16) -> usize;
    /// Starts a sweep.
    fn sweep_start = gcf_sweep_start(rt: u8, allocation: u16) -> Step;
    /// Takes a response into a sweep.
    fn sweep_take = gcf_sweep_take(sweep: Sweep, response: &[u8], collecting: &mut [u8]) -> Step;
    /// Sweeps a sheet.
    fn bench = gcf_bench(
        columns: bool, sheet: &[u8], rt: u8, allocation: u16, response: &mut [u8], collected: &mut [u8],
        starts: &mut [u16], swept: &mut Swept
    ) -> u8;
    /// Judges what another box sent.
    fn judge = gcf_judge(
        columns: bool, sheet: &[u8], command: &[u8], response: &[u8], due: &mut [u8], verdict: &mut Verdict
    ) -> u8;
    /// Checks the descriptors of a response.
    fn check_descriptors = gcf_check_descriptors(response: &[u8], finding: &mut Finding) -> u8;
    /// Whether a response has what a profile requires.
    fn check_profile = gcf_check_profile(profile: Profile, response: &[u8], judgement: &mut Judgement) -> u8;
    /// Mends a response in a copy.
    fn mend = gcf_mend(response: &[u8], copy: &mut [u8], changes: &mut [u32], mended: &mut Mended) -> u8;
    /// Makes a sheet of a captured response.
    fn import = gcf_import(response: &[u8], sheet: &mut [u8], made: &mut Made) -> u8;
    /// Makes sense data.
    fn make_sense = gcf_make_sense(number: u8, sense: &mut [u8], made: &mut Made) -> u8;
    /// What sense data means.
    fn read_sense = gcf_read_sense(sense: &[u8], meaning: &mut Meaning) -> u8;
}
