//! Files for the comparison at scale: canvases written as P4 and P5 and read back, good files with headers of every form,
//! the same files damaged, and headers made of the few bytes that matter. Each is held by held.rs against netpbm.rs.

use crate::{
    compare::Rng,
    held::{By, Held, Writer, WRITE_P4, WRITE_P5},
    netpbm::{self, Format, Header, Picture},
    wunqaber::DONE,
};

/// The bytes that a header has or may not have: its letters and neighbours, digits, whitespace and what looks like it, signs.
const MATTER: &[u8] = b"P456p01289 \t\r\n\x0b\x0c\x00\x85\xa0\xff#-+.,x";

/// What may stand between numbers: whitespace, and comments that hold what would matter outside.
#[rustfmt::skip]
const BETWEEN: &[&[u8]] = &[
    b" ", b" ", b" ", b"\t", b"\r", b"\n", b"\n", b"\r\n",
    b"#\n", b"#\r", b"# a\n", b"# 7 7\r", b"##\n", b"#\t#P4\n", b"#255\r\n", b"#\x0b\x0c\xff\x00\n",
];

/// Comments, closed and cut off, that are put into a file at each place.
const COMMENTS: &[&[u8]] = &[b"#\n", b"#\r", b"# 12\n", b"#P5 3\r", b"##\r\n", b"#", b"# 1 1 255 "];

/// Sides at the limits and past them, and such as a number of 8, 16, 32, 64 or 128 bits wraps to 1, 4 or 255.
#[rustfmt::skip]
const NUMBERS: &[&str] = &[
    "0", "1", "4", "00", "01", "000000000000000000000000000000000000004", "255", "0255", "00000000000000000000000255",
    "254", "256", "257", "260", "511", "1023", "1024", "0001024", "1025", "9999", "10000", "65535", "65537", "65540", "65791",
    "2147483648", "2147483649", "4294967295", "4294967297", "4294967300", "4294967551", "9223372036854775809",
    "18446744073709551617", "18446744073709551620", "18446744073709551871",
    "340282366920938463463374607431768211457", "340282366920938463463374607431768211711",
    "1000000000000000000000000000000000000000",
];

/// The largest canvas that is lent for a file whose header is not known beforehand.
const LARGEST: i64 = 4096;

impl Rng {
    fn byte(&mut self) -> u8 {
        self.within(0, 255) as u8
    }

    fn matter(&mut self) -> u8 {
        MATTER[self.within(0, MATTER.len() as i64 - 1) as usize]
    }

    /// Pixels of which half are 0, some 1 and the others anything.
    fn pixels(&mut self, count: usize) -> Vec<u8> {
        let pixel = |rng: &mut Rng| match rng.within(0, 7) {
            0..=3 => 0,
            4 => 1,
            _ => rng.byte(),
        };
        (0..count).map(|_| pixel(self)).collect()
    }

    /// What stands before a number.
    fn gap(&mut self) -> Vec<u8> {
        let count = self.of(&[1, 1, 1, 2, 3, 5]);
        let one = |rng: &mut Rng| BETWEEN[rng.within(0, BETWEEN.len() as i64 - 1) as usize];
        (0..count).flat_map(|_| one(self).to_vec()).collect()
    }

    /// A number in digits, now and then with zeros before it.
    fn digits(&mut self, value: i64) -> Vec<u8> {
        let zeros = self.of(&[0, 0, 0, 0, 0, 1, 3, 40]) as usize;
        format!("{}{value}", "0".repeat(zeros)).into_bytes()
    }

    fn format(&mut self) -> Format {
        [Format::P4, Format::P5][self.within(0, 1) as usize]
    }

    /// A good file of a picture with these sides, and what it reads as.
    fn good_file(&mut self, format: Format, width: i64, height: i64) -> (Vec<u8>, Picture) {
        let mut file = if format == Format::P4 { b"P4".to_vec() } else { b"P5".to_vec() };
        let numbers = if format == Format::P4 { vec![width, height] } else { vec![width, height, 255] };
        for number in numbers {
            file.extend(self.gap());
            file.extend(self.digits(number));
        }
        file.push(self.of(&[b' ', b'\t', b'\r', b'\n'].map(i64::from)) as u8);
        let pixels = self.raster(format, width as usize, height as usize, &mut file);
        let after = self.of(&[0, 0, 1, 3]);
        file.extend((0..after).map(|_| self.matter()));
        (file, Picture { width, height, pixels })
    }

    /// Puts a raster at a file's end, the bits that fill up a row of P4 at random: its pixels.
    fn raster(&mut self, format: Format, width: usize, height: usize, file: &mut Vec<u8>) -> Vec<u8> {
        if format == Format::P5 {
            let pixels: Vec<u8> = (0..width * height).map(|_| self.byte()).collect();
            file.extend(&pixels);
            return pixels;
        }
        let mut pixels = Vec::new();
        for _ in 0..height {
            let row: Vec<u8> = (0..width.div_ceil(8)).map(|_| self.byte()).collect();
            pixels.extend((0..width).map(|x| (row[x / 8] & 128 >> x % 8 != 0) as u8));
            file.extend(row);
        }
        pixels
    }

    /// A header whose parts are mostly as they must be; each may be something else.
    fn loose_header(&mut self) -> Vec<u8> {
        let mut file: Vec<u8> = match self.within(0, 15) {
            0 => vec![b'P', self.matter()],
            1 => vec![self.matter(), b'4'],
            2 => Vec::new(),
            n if n % 2 == 0 => b"P4".to_vec(),
            _ => b"P5".to_vec(),
        };
        for _ in 0..self.of(&[1, 2, 2, 3, 3, 3, 4]) {
            file.extend(self.loose_gap());
            file.extend(self.loose_number());
        }
        file.extend(self.loose_gap());
        let raster = self.of(&[0, 1, 2, 9, 40]);
        file.extend((0..raster).map(|_| self.byte()));
        file
    }

    fn loose_gap(&mut self) -> Vec<u8> {
        match self.within(0, 9) {
            0 => Vec::new(),
            1 => vec![self.matter()],
            2 => vec![b' ', self.matter()],
            3 => vec![b'#', self.matter(), self.matter(), self.of(&[10, 13, 32]) as u8],
            4 | 5 => self.gap(),
            _ => vec![self.of(&[32, 32, 9, 10, 13]) as u8],
        }
    }

    fn loose_number(&mut self) -> Vec<u8> {
        match self.within(0, 9) {
            0 => Vec::new(),
            1 => vec![self.matter()],
            2 => NUMBERS[self.within(0, NUMBERS.len() as i64 - 1) as usize].as_bytes().to_vec(),
            3 | 4 => b"255".to_vec(),
            _ => {
                let value = self.of(&[1, 2, 3, 7, 8, 9, 12]);
                self.digits(value)
            }
        }
    }
}

impl Held {
    /// A canvas written by one of the two calls and read back, each call held by itself too: "A picture that we wrote reads
    /// back as the same canvas, for P4 with each nonzero byte as 1."
    fn read_back(&mut self, writer: &Writer, width: u32, height: u32, canvas: &[u8]) {
        let file = self.write(writer, width, height, canvas, 3, 1);
        let (answer, read) = self.read_netpbm(&file, canvas.len(), 2);
        let wanted: Vec<u8> = match writer.call {
            "write_p4" => canvas.iter().map(|pixel| (*pixel != 0) as u8).collect(),
            _ => canvas.to_vec(),
        };
        let asked = || format!("the file of {} {width} {height} read back: {file:?}", writer.call);
        self.hold("files read back", Ok(By::Reference), &wanted[..], (answer, &read[..]), asked);
    }

    /// A file of any bytes, into a canvas that mostly has the length its header asks for, its sides mostly into two places.
    fn read_any(&mut self, file: &[u8], rng: &mut Rng) {
        let asked = netpbm::header(file).map_or(5, |header| header.width * header.height);
        let length = match rng.within(0, 15) {
            0 => asked + 1,
            1 => asked - 1,
            2 => rng.within(0, 40),
            _ => asked,
        };
        self.read_netpbm(file, length.clamp(0, LARGEST) as usize, rng.of(&[2, 2, 2, 2, 2, 2, 3, 1, 0]) as usize);
    }

    /// A file cut at every byte; each byte changed to each one that matters and to others, taken out and doubled; each one
    /// that matters put in at every place, and comments too.
    fn damaged(&mut self, file: &[u8], rng: &mut Rng) {
        for at in 0..=file.len() {
            let (front, back) = file.split_at(at);
            self.read_any(front, rng);
            self.read_any(back, rng);
            for put in MATTER {
                self.read_any(&[front, &[*put], back].concat(), rng);
            }
            for comment in COMMENTS {
                self.read_any(&[front, comment, back].concat(), rng);
            }
            let Some((byte, rest)) = back.split_first() else { return };
            self.read_any(&[front, rest].concat(), rng);
            self.read_any(&[front, &[*byte], back].concat(), rng);
            let others = [rng.byte(), rng.byte(), byte ^ 1, byte ^ 128, byte.wrapping_add(1)];
            for put in MATTER.iter().chain(&others) {
                self.read_any(&[front, &[*put], rest].concat(), rng);
            }
        }
    }

    /// All lists of up to so many words, with a byte behind them as a raster.
    fn all_lists(&mut self, file: &mut Vec<u8>, words: &[&[u8]], most: usize, rng: &mut Rng) {
        file.push(0xb1);
        self.read_any(file, rng);
        file.pop();
        if most == 0 {
            return;
        }
        for word in words {
            file.extend(*word);
            self.all_lists(file, words, most - 1, rng);
            file.truncate(file.len() - word.len());
        }
    }
}

// ---- the parts ----

/// Canvases of every width, and every row of up to ten pixels; both kinds, written and read back.
pub fn written(r: &mut Held, rng: &mut Rng) {
    for width in 1..=1024 {
        for height in 1..=if width <= 40 { 20 } else { 2 } {
            let canvas = rng.pixels((width * height) as usize);
            r.read_back(&WRITE_P4, width, height, &canvas);
            r.read_back(&WRITE_P5, width, height, &canvas);
        }
    }
    for width in 1..=10 {
        for bits in 0..1 << width {
            let canvas: Vec<u8> = (0..width).map(|x| (bits >> x & 1) as u8 * rng.within(1, 255) as u8).collect();
            r.read_back(&WRITE_P4, width, 1, &canvas);
        }
    }
    for (width, height) in [(1024, 1024), (1023, 1024), (1, 1024), (1017, 9)] {
        let canvas = rng.pixels((width * height) as usize);
        r.read_back(&WRITE_P4, width, height, &canvas);
        r.read_back(&WRITE_P5, width, height, &canvas);
    }
}

/// Sides that may be none, canvases of a wrong length, buffers that are too short.
pub fn written_or_refused(r: &mut Held, rng: &mut Rng, count: u64) {
    let side = |rng: &mut Rng| match rng.within(0, 11) {
        0 => rng.of(&[0, 1025, 1 << 16, 1 << 31, u32::MAX as i64]),
        1 => rng.of(&[1, 1023, 1024]),
        _ => rng.within(1, 40),
    };
    for _ in 0..count {
        let (width, height) = (side(rng), side(rng));
        let fits = width.saturating_mul(height).min(1 << 13);
        let length = if rng.within(0, 7) == 0 { rng.of(&[0, 7, fits - 1, fits + 1]).max(0) } else { fits };
        let canvas = rng.pixels(length as usize);
        let (spare, room) = (rng.of(&[0, 0, 0, 1, 5, -1, -2, -9999]), rng.of(&[1, 1, 1, 1, 2, 3, 0]) as usize);
        r.write(&WRITE_P4, width as u32, height as u32, &canvas, spare, room);
        r.write(&WRITE_P5, width as u32, height as u32, &canvas, spare, room);
    }
}

/// Good files: what they read as is known from how they were made, and that the second wording says so too is held as well.
pub fn good(r: &mut Held, rng: &mut Rng, count: u64) {
    for n in 0..count {
        let most = if n % 64 == 0 { 200 } else { 20 };
        let (format, width, height) = (rng.format(), rng.within(1, most), rng.within(1, most));
        let (file, picture) = rng.good_file(format, width, height);
        let length = (width * height) as usize;
        let said = netpbm::read(&file, length, 2);
        r.hold("good files as made", Ok(By::Reference), Ok(picture), (DONE, said), || format!("{file:?} read"));
        r.read_netpbm(&file, length, rng.of(&[2, 2, 3]) as usize);
        r.read_any(&file, rng);
    }
}

/// The largest pictures, with their last byte, without it and with more; canvases of a wrong length; sides past the limit.
pub fn large(r: &mut Held, rng: &mut Rng) {
    for (width, height) in
        [(1024, 1024), (1023, 1024), (1024, 1), (1, 1024), (1021, 3), (1024, 1025), (1025, 1), (1, 1025)]
    {
        for format in [Format::P4, Format::P5] {
            let (file, _) = rng.good_file(format, width, height);
            let length = (width * height) as usize;
            let behind = netpbm::header(&file).map_or(0, |Header { rest, .. }| rest.len());
            let raster = if format == Format::P4 { (width as usize).div_ceil(8) * height as usize } else { length };
            let end = file.len() - behind + raster;
            for file in [&file[..], &file[..end], &file[..end - 1], &file[..end - raster]] {
                r.read_netpbm(file, length, 2);
                r.read_netpbm(file, length - 1, 2);
                r.read_netpbm(file, length + 1, 1);
                r.read_netpbm(file, length, 1);
            }
        }
    }
}

pub fn damaged(r: &mut Held, rng: &mut Rng, count: u64) {
    for n in 0..count {
        let most = if n % 8 == 0 { 20 } else { 4 };
        let (format, width, height) = (rng.format(), rng.within(1, most), rng.within(1, 4));
        let (file, _) = rng.good_file(format, width, height);
        r.damaged(&file, rng);
    }
    // as we write them ourselves
    for (width, height) in [(1, 1), (4, 4), (9, 2), (12, 3)] {
        let canvas = rng.pixels((width * height) as usize);
        r.damaged(&netpbm::p4(width, height, &canvas), rng);
        r.damaged(&netpbm::p5(width, height, &canvas), rng);
    }
}

/// All headers of P4 that have up to seven bytes behind their letter and digit, of those that decide; and of P5 with up to
/// eight words.
pub fn short_headers(r: &mut Held, rng: &mut Rng) {
    let bytes: &[&[u8]] = &[b"0", b"1", b" ", b"\r", b"\n", b"#", b"x"];
    r.all_lists(&mut b"P4".to_vec(), bytes, 7, rng);
    let words: &[&[u8]] = &[b"1", b"255", b" ", b"\n", b"#", b"x"];
    r.all_lists(&mut b"P5".to_vec(), words, 8, rng);
}

/// Every number of a header in each of its forms, and headers at random: of parts, and of bytes alone.
pub fn headers(r: &mut Held, rng: &mut Rng, count: u64) {
    let raster = [0xb1; 24];
    for first in NUMBERS {
        for second in NUMBERS {
            r.read_any(&[format!("P4\n{first} {second}\n").as_bytes(), &raster].concat(), rng);
            r.read_any(&[format!("P5 {first} {second} 255\n").as_bytes(), &raster].concat(), rng);
            r.read_any(&[format!("P5 {first} 4 {second} ").as_bytes(), &raster].concat(), rng);
            r.read_any(&[format!("P5\t4\t{first}\t{second}\r").as_bytes(), &raster].concat(), rng);
        }
    }
    for n in 0..count {
        let file = match n % 4 {
            0 => (0..rng.within(0, 24)).map(|_| rng.matter()).collect(),
            _ => rng.loose_header(),
        };
        r.read_any(&file, rng);
    }
}
