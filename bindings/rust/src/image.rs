//! The box that holds an image in place of a sheet.

use crate::drive::{made, placed};
use crate::{accepted, raw, Number, Refused};

/// An image that was accepted: a complete response to RT 0 from 0 that [`import`](crate::import) takes. Its bytes are borrowed, so that they
/// stay what was checked.
#[derive(Clone, Copy, Debug)]
pub struct Image<'a>(&'a [u8]);

impl<'a> Image<'a> {
    /// The check of an image: `gcf_check_image`. The line is that of the sheet which `import` would make.
    ///
    /// ```
    /// use gcf::{Image, Line, Number, Refused};
    ///
    /// assert!(Image::check(&gcf::IMAGE_E).is_ok());
    /// let mut spoilt = gcf::IMAGE_E;
    /// spoilt[30] = 0x02; // the flags of 0003h: Persistent and not Current
    /// let refused = Refused { number: Number::PersistentUncurrent, line: Some(Line::Entry(2)) };
    /// assert_eq!(Image::check(&spoilt).err(), Some(refused));
    /// assert_eq!(Image::check(&gcf::IMAGE_E[..40]).unwrap_err().number, Number::ResponseCut);
    /// ```
    pub fn check(bytes: &'a [u8]) -> Result<Image<'a>, Refused> {
        let mut check = raw::Check::default();
        let number = raw::check_image(bytes, &mut check);
        placed(number, check.place).map(|()| Image(bytes))
    }

    /// Answers a command's bytes: `gcf_respond_image_accepted`. Gives the bytes to send, the front of the buffer; nothing else of it changed.
    /// They are those that the imported sheet gives.
    ///
    /// ```
    /// let image = gcf::Image::check(&gcf::IMAGE_E).unwrap();
    /// let (mut sheet, mut response, mut other) = ([0; 52], [0; 20], [0; 20]);
    /// let sheet = gcf::import(image.bytes(), &mut sheet).unwrap();
    /// let command = [0x46, 1, 0, 3, 0, 0, 0, 0, 20, 0]; // the current ones from 0003h on
    /// assert_eq!(image.respond(&command, &mut response), sheet.respond(&command, &mut other));
    /// assert_eq!(image.respond(&[0x46, 0], &mut response), Err(gcf::Number::CommandLength));
    /// ```
    pub fn respond<'b>(&self, command: &[u8], response: &'b mut [u8]) -> Result<&'b [u8], Number> {
        let mut sent = raw::Made::default();
        accepted(raw::respond_image_accepted(self.0, command, response, &mut sent))?;
        Ok(&response[..sent.bytes as usize])
    }

    /// The image's bytes.
    pub fn bytes(&self) -> &'a [u8] {
        self.0
    }
}

/// Answers a command from an image that is checked each time: `gcf_respond_image`.
///
/// ```
/// use gcf::{Number, Refused};
///
/// let command = [0x46, 0, 1, 5, 0, 0, 0, 0, 255, 0]; // from feature 0105h on
/// let mut response = [0; 255];
/// assert_eq!(gcf::respond_image(&gcf::IMAGE_E, &command, &mut response), Ok(&[0, 0, 0, 8, 0, 0, 0, 0x12, 1, 5, 3, 0][..]));
/// assert_eq!(gcf::respond_image(&[0; 7], &command, &mut response), Err(Refused { number: Number::ReceivedBad, line: None }));
/// ```
pub fn respond_image<'b>(image: &[u8], command: &[u8], response: &'b mut [u8]) -> Result<&'b [u8], Refused> {
    let mut sent = raw::Made::default();
    let number = raw::respond_image(image, command, response, &mut sent);
    made(number, sent, response)
}
