//! Document 02's files ('One'), plainly: a canvas as P4 or as P5, and a file read into a canvas. Written from the paper,
//! not from the library. A file is cut into pieces from its front, and no place in it is counted; a number is judged by its
//! digits, however many there are. Sentences of the paper are quoted at the code that says them.

use crate::reference::canvas_refusal;
use std::iter::successors;

#[derive(Clone, Copy, PartialEq, Eq, Debug)]
pub enum Format {
    P4,
    P5,
}

use Format::{P4, P5};

/// What a header says, and the bytes behind it: the raster, and whatever follows.
#[derive(Clone, Copy, PartialEq, Eq, Debug)]
pub struct Header<'a> {
    pub format: Format,
    pub width: i64,
    pub height: i64,
    pub rest: &'a [u8],
}

/// A picture as it is read, a byte a pixel.
#[derive(PartialEq, Eq, Debug)]
pub struct Picture {
    pub width: i64,
    pub height: i64,
    pub pixels: Vec<u8>,
}

// ---- written ----

/// "`P4`, LF, W, space, H, LF, then its rows"
pub fn p4(width: u32, height: u32, canvas: &[u8]) -> Vec<u8> {
    let mut file = format!("P4\n{width} {height}\n").into_bytes();
    for row in canvas.chunks(width.max(1) as usize) {
        file.extend(row.chunks(8).map(packed));
    }
    file
}

/// "a nonzero byte is a 1 bit, high bit first, each row filled up with 0 bits to a whole byte": up to eight pixels.
fn packed(pixels: &[u8]) -> u8 {
    let bits = [128, 64, 32, 16, 8, 4, 2, 1];
    pixels.iter().zip(bits).filter(|(pixel, _)| **pixel != 0).map(|(_, bit)| bit).sum()
}

/// `P5`, LF, W, space, H, LF, `255`, LF, then a byte a pixel.
pub fn p5(width: u32, height: u32, canvas: &[u8]) -> Vec<u8> {
    [format!("P5\n{width} {height}\n255\n").as_bytes(), canvas].concat()
}

// ---- read ----

/// "whitespace (space, TAB, CR, LF)"
fn is_white(byte: &u8) -> bool {
    matches!(byte, b' ' | b'\t' | b'\r' | b'\n')
}

/// What follows one whitespace byte, or one comment: "a comment runs from # through the next CR or LF".
fn after_one(text: &[u8]) -> Option<&[u8]> {
    match text.split_first()? {
        (b'#', comment) => comment.splitn(2, |byte| matches!(byte, b'\r' | b'\n')).nth(1),
        (byte, rest) => is_white(byte).then_some(rest),
    }
}

/// "each number is one or more decimal digits and follows whitespace (space, TAB, CR, LF) or comments": the digits, and what
/// follows them.
fn number(text: &[u8]) -> Option<(&[u8], &[u8])> {
    let text = successors(after_one(text), |rest| after_one(rest)).last()?;
    let rest = text.iter().position(|byte| !byte.is_ascii_digit()).unwrap_or(text.len());
    (rest > 0).then(|| text.split_at(rest))
}

/// Stands for every number of more than four digits, zeros in front left out: above all that is asked of one.
const MANY: i64 = 10_000;

fn value(digits: &[u8]) -> i64 {
    let text = std::str::from_utf8(digits).expect("digits are text").trim_start_matches('0');
    match text.len() {
        0 => 0,
        1..=4 => text.parse().expect("digits are a number"),
        _ => MANY,
    }
}

/// The header of a file; none if it "is not one of P4 or P5 as said here".
pub fn header(file: &[u8]) -> Option<Header<'_>> {
    let (format, text) = match file {
        [b'P', b'4', text @ ..] => (P4, text),
        [b'P', b'5', text @ ..] => (P5, text),
        _ => return None,
    };
    let (width, text) = number(text)?;
    let (height, text) = number(text)?;
    let text = match format {
        P4 => text,
        P5 => after_maximum(text)?,
    };
    // "one whitespace byte, right after the last number, precedes the raster"
    let (last, rest) = text.split_first()?;
    is_white(last).then_some(Header { format, width: value(width), height: value(height), rest })
}

/// "maximum 255", "another maximum is 14"
fn after_maximum(text: &[u8]) -> Option<&[u8]> {
    let (maximum, text) = number(text)?;
    (value(maximum) == 255).then_some(text)
}

/// A byte's eight pixels: "a 1 bit becomes 1", "high bit first".
fn unpacked(byte: &u8) -> [u8; 8] {
    [7, 6, 5, 4, 3, 2, 1, 0].map(|bit| byte >> bit & 1)
}

impl Header<'_> {
    /// The pixels, if the file has all bytes of them; "bytes after the raster are not read", and neither are the bits that
    /// fill up a row.
    fn pixels(&self) -> Option<Vec<u8>> {
        let (width, height) = (self.width as usize, self.height as usize);
        match self.format {
            P5 => Some(self.rest.get(..width * height)?.to_vec()),
            P4 => {
                let row = width.div_ceil(8);
                let rows = self.rest.get(..row * height)?.chunks(row);
                Some(rows.flat_map(|row| row.iter().flat_map(unpacked).take(width)).collect())
            }
        }
    }
}

/// A file read into a canvas of so many bytes, its sides into so many places. "The read gives W and H from the header, and
/// numbers 6 and 8 test those." 14 "is looked for before all others; 15, raster bytes missing, after all others".
pub fn read(file: &[u8], canvas: usize, places: usize) -> Result<Picture, u32> {
    let header = header(file).ok_or(14u32)?;
    let (width, height) = (header.width, header.height);
    if let Some(number) = canvas_refusal(width, height) {
        return Err(number);
    }
    if width * height != canvas as i64 {
        return Err(8);
    }
    if places < 2 {
        return Err(13);
    }
    let pixels = header.pixels().ok_or(15u32)?;
    Ok(Picture { width, height, pixels })
}
