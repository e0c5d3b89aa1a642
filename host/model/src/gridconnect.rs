//! Holds the GridConnect lines: a frame read from a line, and a line printed from a frame.

use crate::frame::{Frame, FRAME_DATA};

/// The most bytes of a line, without its newline.
pub const LONGEST_LINE: usize = 2 + 8 + 1 + 2 * FRAME_DATA + 1;

/// Reads a line, given without its newline: `:X`, eight header digits, `N`, 0 to 16 data digits
/// in pairs, `;`. Digits are 0–9 and A–F. `None` for any other line.
#[must_use]
pub fn parse_line(line: &[u8]) -> Option<Frame> {
    let (header_digits, rest) = line.strip_prefix(b":X")?.split_first_chunk::<8>()?;
    let digits = rest.strip_prefix(b"N")?.strip_suffix(b";")?;
    if digits.len() > 2 * FRAME_DATA || digits.len() % 2 != 0 {
        return None;
    }
    let mut header = 0;
    for &digit in header_digits {
        header = header << 4 | u32::from(value(digit)?);
    }
    let mut data = [0; FRAME_DATA];
    for (byte, pair) in data.iter_mut().zip(digits.chunks_exact(2)) {
        *byte = value(pair[0])? << 4 | value(pair[1])?;
    }
    Frame::new(header, &data[..digits.len() / 2])
}

/// Prints a frame as a line without its newline; gives the part of the buffer that holds it.
pub fn print_line<'l>(frame: &Frame, line: &'l mut [u8; LONGEST_LINE]) -> &'l [u8] {
    line[..2].copy_from_slice(b":X");
    let mut at = 2;
    for byte in frame.header().to_be_bytes() {
        line[at..at + 2].copy_from_slice(&digits(byte));
        at += 2;
    }
    line[at] = b'N';
    at += 1;
    for &byte in frame.data() {
        line[at..at + 2].copy_from_slice(&digits(byte));
        at += 2;
    }
    line[at] = b';';
    &line[..=at]
}

fn value(digit: u8) -> Option<u8> {
    match digit {
        b'0'..=b'9' => Some(digit - b'0'),
        b'A'..=b'F' => Some(digit - b'A' + 10),
        _ => None,
    }
}

fn digits(byte: u8) -> [u8; 2] {
    const DIGITS: &[u8; 16] = b"0123456789ABCDEF";
    [
        DIGITS[usize::from(byte >> 4)],
        DIGITS[usize::from(byte & 0x0F)],
    ]
}
