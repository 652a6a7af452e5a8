//! The box, the medium, the bench and import: what has to do with a drive sheet.

use core::fmt::{Display, Formatter, Result as Written};

use crate::{accepted, raw, Feature, Number, Profile, Rt};

/// How the contents of a drive sheet stand. Both layouts of one sheet get the same numbers, the same lines and the same bytes sent.
#[derive(Clone, Copy, Debug, PartialEq, Eq, Hash)]
pub enum Layout {
    /// Entry by entry.
    Rows,
    /// All feature numbers, then all flags, all body lengths, all offsets.
    Columns,
}

impl Layout {
    /// As the functions take it.
    pub(crate) fn columns(self) -> bool {
        self == Layout::Columns
    }
}

/// Which line of a drive sheet is refused, counted from 1.
#[derive(Clone, Copy, Debug, PartialEq, Eq, Hash)]
pub enum Line {
    /// A profile of the list.
    Profile(u16),
    /// An entry of the contents.
    Entry(u16),
}

/// A refusal, and the line of the sheet that it is about, if it is about one.
#[derive(Clone, Copy, Debug, PartialEq, Eq, Hash)]
pub struct Refused {
    /// Why.
    pub number: Number,
    /// Where in the sheet.
    pub line: Option<Line>,
}

impl Display for Refused {
    fn fmt(&self, to: &mut Formatter<'_>) -> Written {
        match self.line {
            None => {}
            Some(Line::Profile(place)) => write!(to, "profile {place}: ")?,
            Some(Line::Entry(place)) => write!(to, "entry {place}: ")?,
        }
        self.number.fmt(to)
    }
}

#[cfg(feature = "std")]
impl std::error::Error for Refused {}

/// Nothing where the number is 0, else the refusal with its place.
pub(crate) fn placed(number: u8, place: u64) -> Result<(), Refused> {
    accepted(number).map_err(|number| {
        let line = match (number, place as u16) {
            (_, 0) => None,
            (Number::ProfileBad, place) => Some(Line::Profile(place)),
            (_, place) => Some(Line::Entry(place)),
        };
        Refused { number, line }
    })
}

/// The bytes that were made, the front of the buffer, or the refusal with its place.
pub(crate) fn made(number: u8, made: raw::Made, buffer: &[u8]) -> Result<&[u8], Refused> {
    placed(number, made.place).map(|()| &buffer[..made.bytes as usize])
}

/// A drive sheet that was accepted, of either layout. Its bytes are borrowed, so that they stay what was checked.
#[derive(Clone, Copy, Debug, PartialEq, Eq)]
pub struct Sheet<'a> {
    layout: Layout,
    bytes: &'a [u8],
}

impl<'a> Sheet<'a> {
    /// The check of a drive sheet: `gcf_check_sheet`.
    ///
    /// ```
    /// use gcf::{Layout, Line, Number, Refused, Sheet};
    ///
    /// assert!(Sheet::check(Layout::Rows, &gcf::SHEET_E).is_ok());
    /// assert!(Sheet::check(Layout::Columns, &gcf::COLUMNS_E).is_ok());
    /// let mut mistyped = gcf::SHEET_E;
    /// mistyped[14] = 0x02; // the flags of the second entry: Persistent and not Current
    /// let refused = Refused { number: Number::PersistentUncurrent, line: Some(Line::Entry(2)) };
    /// assert_eq!(Sheet::check(Layout::Rows, &mistyped), Err(refused));
    /// assert_eq!(refused.to_string(), "entry 2: 44: a feature is Persistent and not Current");
    /// let mut mistyped = gcf::COLUMNS_E;
    /// mistyped[13] = 0x02; // the same flags in columns
    /// assert_eq!(Sheet::check(Layout::Columns, &mistyped), Err(refused));
    /// ```
    pub fn check(layout: Layout, bytes: &'a [u8]) -> Result<Sheet<'a>, Refused> {
        let mut check = raw::Check::default();
        let number = raw::check_sheet(layout.columns(), bytes, &mut check);
        placed(number, check.place).map(|()| Sheet { layout, bytes })
    }

    /// Answers a command's bytes: `gcf_respond_accepted`. Gives the bytes to send, the front of the buffer; nothing else of it changed.
    ///
    /// ```
    /// use gcf::{Layout, Number, Sheet};
    ///
    /// let sheet = Sheet::check(Layout::Rows, &gcf::SHEET_E).unwrap();
    /// let columns = Sheet::check(Layout::Columns, &gcf::COLUMNS_E).unwrap();
    /// let (mut response, mut other) = ([0; 20], [0; 20]);
    /// let command = [0x46, 2, 0, 2, 0, 0, 0, 0, 20, 0];
    /// assert_eq!(sheet.respond(&command, &mut response), Ok(&[0, 0, 0, 4, 0, 0, 0, 0x12][..]));
    /// assert_eq!(sheet.respond(&command, &mut response), columns.respond(&command, &mut other));
    /// assert_eq!(sheet.respond(&[0x46, 0], &mut response), Err(Number::CommandLength));
    /// ```
    pub fn respond<'b>(&self, command: &[u8], response: &'b mut [u8]) -> Result<&'b [u8], Number> {
        let mut sent = raw::Made::default();
        accepted(raw::respond_accepted(self.layout.columns(), self.bytes, command, response, &mut sent))?;
        Ok(&response[..sent.bytes as usize])
    }

    /// How its contents stand.
    pub fn layout(&self) -> Layout {
        self.layout
    }

    /// The sheet's bytes.
    pub fn bytes(&self) -> &'a [u8] {
        self.bytes
    }
}

/// Answers a command from a sheet that is checked each time: `gcf_respond`.
///
/// ```
/// use gcf::{Layout, Number, Refused};
///
/// let command = [0x46, 0, 1, 5, 0, 0, 0, 0, 255, 0]; // from feature 0105h on
/// let mut response = [0; 255];
/// let sent = gcf::respond(Layout::Rows, &gcf::SHEET_E, &command, &mut response);
/// assert_eq!(sent, Ok(&[0, 0, 0, 8, 0, 0, 0, 0x12, 1, 5, 3, 0][..]));
/// let refused = Refused { number: Number::SheetShort, line: None };
/// assert_eq!(gcf::respond(Layout::Columns, &[0; 3], &command, &mut response), Err(refused));
/// ```
pub fn respond<'b>(
    layout: Layout,
    sheet: &[u8],
    command: &[u8],
    response: &'b mut [u8],
) -> Result<&'b [u8], Refused> {
    let mut sent = raw::Made::default();
    let number = raw::respond(layout.columns(), sheet, command, response, &mut sent);
    made(number, sent, response)
}

/// Lays a drive sheet out anew: `gcf_convert`. Gives it, the front of the buffer, of which as many bytes as the sheet has are enough. It is
/// accepted, which is proved, and so is not checked here.
///
/// ```
/// use gcf::{Layout, Number};
///
/// let (mut columns, mut rows) = ([0; 52], [0; 52]);
/// let laid = gcf::convert(Layout::Rows, &gcf::SHEET_E, Layout::Columns, &mut columns).unwrap();
/// assert_eq!(laid.bytes(), gcf::COLUMNS_E);
/// let back = gcf::convert(laid.layout(), laid.bytes(), Layout::Rows, &mut rows).unwrap();
/// assert_eq!(back.bytes(), gcf::SHEET_E);
/// let short = gcf::convert(Layout::Rows, &gcf::SHEET_E, Layout::Columns, &mut rows[..51]);
/// assert_eq!(short.unwrap_err().number, Number::SheetBufferShort);
/// ```
pub fn convert<'b>(
    layout: Layout,
    sheet: &[u8],
    to: Layout,
    converted: &'b mut [u8],
) -> Result<Sheet<'b>, Refused> {
    let mut told = raw::Made::default();
    let number = raw::convert(layout.columns(), sheet, to.columns(), converted, &mut told);
    made(number, told, converted).map(|bytes| Sheet { layout: to, bytes })
}

/// Makes a drive sheet as a medium leaves it, in the layout that it has: `gcf_load`. A Persistent feature stays current, each other one is
/// current exactly if it is listed, each profile exactly if it is listed, and nothing else changes; with both lists empty the tray is empty.
/// Each list ascends. Gives the sheet, the front of the buffer, of which as many bytes as the sheet has are enough. It is accepted, which is
/// proved, and so is not checked here.
///
/// ```
/// use gcf::{Feature, Layout, Number, Profile};
///
/// let (mut empty, mut with_disc) = ([0; 52], [0; 52]);
/// let ejected = gcf::load(Layout::Rows, &gcf::SHEET_E, &[], &[], &mut empty).unwrap();
/// let (features, profiles) = ([Feature(0x001F)], [Profile(0x0012)]);
/// let loaded = gcf::load(Layout::Rows, ejected.bytes(), &features, &profiles, &mut with_disc).unwrap();
/// assert_eq!(loaded.bytes(), gcf::SHEET_E);
/// let other = gcf::load(Layout::Columns, &gcf::COLUMNS_E, &[Feature(0x0020)], &[], &mut empty);
/// assert_eq!(other.unwrap_err().number, Number::SheetLacks);
/// ```
///
/// A list of profiles does not fit the place of the features:
///
/// ```compile_fail
/// gcf::load(gcf::Layout::Rows, &gcf::SHEET_E, &[gcf::Profile(0x0010)], &[], &mut [0; 52]);
/// ```
pub fn load<'b>(
    layout: Layout,
    sheet: &[u8],
    features: &[Feature],
    profiles: &[Profile],
    loaded: &'b mut [u8],
) -> Result<Sheet<'b>, Refused> {
    let mut told = raw::Made::default();
    let number = raw::load(layout.columns(), sheet, features, profiles, loaded, &mut told);
    made(number, told, loaded).map(|bytes| Sheet { layout, bytes })
}

/// The most bytes that a response has with this allocation length: `gcf_most`.
///
/// ```
/// assert_eq!((gcf::most(20), gcf::most(65_535)), (20, 65_534));
/// ```
pub fn most(allocation: u16) -> usize {
    raw::most(allocation)
}

/// What a bench sweep did.
#[derive(Clone, Copy, Debug, PartialEq, Eq)]
pub struct Swept<'a> {
    /// The starting feature numbers, one for each command.
    pub starts: &'a [u16],
    /// The descriptors that were collected.
    pub collected: &'a [u8],
}

/// Sweeps a sheet from end to end: `gcf_bench`. A refusal leaves all three buffers zero throughout.
///
/// ```
/// use gcf::{Layout, Number, Refused, Rt};
///
/// let (mut response, mut collected, mut starts) = ([0; 43], [0; 64], [0; 8]);
/// let sheet = (Layout::Rows, &gcf::SHEET_E);
/// let swept = gcf::bench(sheet.0, sheet.1, Rt::All, 20, &mut response, &mut collected, &mut starts).unwrap();
/// assert_eq!((swept.starts, swept.collected.len()), (&[0, 1, 2, 0x20][..], 36));
/// let refused = gcf::bench(sheet.0, sheet.1, Rt::All, 19, &mut response, &mut collected, &mut starts);
/// assert_eq!(refused, Err(Refused { number: Number::NoneWhole, line: None }));
/// ```
pub fn bench<'a>(
    layout: Layout,
    sheet: &[u8],
    rt: Rt,
    allocation: u16,
    response: &mut [u8],
    collected: &'a mut [u8],
    starts: &'a mut [u16],
) -> Result<Swept<'a>, Refused> {
    let (columns, mut swept) = (layout.columns(), raw::Swept::default());
    let number = raw::bench(columns, sheet, rt as u8, allocation, response, collected, starts, &mut swept);
    placed(number, swept.place)?;
    Ok(Swept {
        starts: &starts[..swept.commands as usize],
        collected: &collected[..swept.collected as usize],
    })
}

/// Makes a drive sheet, in rows, of a captured response to RT 0 from 0: `gcf_import`. Gives the sheet, the front of the buffer, of which
/// [`IMPORT_MOST`](crate::IMPORT_MOST) bytes are always enough. It is accepted, which is proved, and so is not checked here.
///
/// ```
/// let mut sheet = [0; 100];
/// assert_eq!(gcf::import(&gcf::IMAGE_E, &mut sheet).unwrap().bytes(), gcf::SHEET_E);
/// assert_eq!(gcf::import(&gcf::IMAGE_E, &mut [0; 51]).unwrap_err().number, gcf::Number::SheetBufferShort);
/// ```
pub fn import<'b>(response: &[u8], sheet: &'b mut [u8]) -> Result<Sheet<'b>, Refused> {
    let mut told = raw::Made::default();
    let number = raw::import(response, sheet, &mut told);
    made(number, told, sheet).map(|bytes| Sheet { layout: Layout::Rows, bytes })
}
