//! The lister: each line is put together in a few bytes and copied in one go.

use super::reading::read;
use super::wire::Header;
use crate::numbers::*;
use crate::wire::Feature;

/// The longest line.
const LINE: usize = 20;

/// Writes the listing of a response to RT 0 from 0, as far as there is room; gives how many bytes.
pub fn list(received: &[u8], out: &mut [u8]) -> usize {
    let reading = read(0, Feature(0), received, None);
    let mut at = 0;
    if reading.number != ACCEPTED {
        at = put(out, at, b"refused ");
        at = put_number(out, at, usize::from(reading.number));
        return put(out, at, b"\n");
    }
    at = put(out, at, &hex(reading.profile.0));
    at = put(out, at, b" ");
    at = put_number(out, at, received.len());
    at = put(out, at, b" ");
    at = put_number(out, at, reading.count);
    at = put(out, at, b"\n");
    let mut rest = &received[HEADER_BYTES..reading.end];
    while let Some((header, behind)) = Header::split(rest) {
        at = put_line(out, at, header);
        rest = behind.get(header.length()..).unwrap_or(&[]);
    }
    if !reading.complete {
        at = put(out, at, b"cut\n");
    }
    at
}

/// Writes the line of one descriptor.
fn put_line(out: &mut [u8], at: usize, header: Header) -> usize {
    let mut line = [b' '; LINE];
    line[..4].copy_from_slice(&hex(header.feature()));
    line[5] = if header.flags() & PERSISTENT != 0 { b'P' } else { b'-' };
    line[6] = if header.flags() & CURRENT != 0 { b'C' } else { b'-' };
    let behind = decimal(&mut line, 8, usize::from(header.flags() >> 2 & 0x0F));
    let behind = decimal(&mut line, behind + 1, header.length());
    line[behind] = b'\n';
    put(out, at, &line[..=behind])
}

/// Four hexadecimal digits.
fn hex(number: u16) -> [u8; 4] {
    const DIGITS: &[u8; 16] = b"0123456789ABCDEF";
    [number >> 12, number >> 8 & 15, number >> 4 & 15, number & 15].map(|digit| DIGITS[usize::from(digit)])
}

/// Writes a number below 100,000 to a line; gives the place behind it.
fn decimal(line: &mut [u8; LINE], at: usize, number: usize) -> usize {
    let mut behind = at;
    for power in [10_000, 1_000, 100, 10, 1] {
        if number >= power || power == 1 {
            line[behind] = b'0' + (number / power % 10) as u8;
            behind += 1;
        }
    }
    behind
}

/// Writes a number below 100,000.
fn put_number(out: &mut [u8], at: usize, number: usize) -> usize {
    let mut line = [0; LINE];
    let behind = decimal(&mut line, 0, number);
    put(out, at, &line[..behind])
}

/// Writes as many of the bytes as there is room for behind a place; gives the place behind them.
fn put(out: &mut [u8], at: usize, bytes: &[u8]) -> usize {
    let count = bytes.len().min(out.len() - at);
    out[at..at + count].copy_from_slice(&bytes[..count]);
    at + count
}
