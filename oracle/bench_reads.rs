//! The speed of reading a file, in the same process as that of painting: `read_netpbm` beside the plainest way to bring the
//! same raster onto a canvas, which tests nothing. That is a copy for P5, and for P4 unpack.c, compiled by the C compiler
//! with -O2. Both must leave the pixels that netpbm.rs reads, else nothing is timed.

use crate::{
    bench::{must, times, Way},
    netpbm::{self, Format},
    wunqaber as library,
};
use std::{hint::black_box, process::exit};

extern "C" {
    fn oracle_unpack_p4(raster: *const u8, width: usize, height: usize, canvas: *mut u8);
}

/// The pixels of a P4 raster, which has all bytes of them.
fn unpack(raster: &[u8], width: usize, height: usize, canvas: &mut [u8]) {
    assert!(raster.len() == width.div_ceil(8) * height && canvas.len() == width * height);
    // within both buffers, by their lengths
    unsafe { oracle_unpack_p4(raster.as_ptr(), width, height, canvas.as_mut_ptr()) }
}

/// A file as the library writes it.
struct File {
    name: &'static str,
    format: Format,
    width: usize,
    height: usize,
    bytes: Vec<u8>,
}

fn file(name: &'static str, format: Format, width: u32, height: u32) -> File {
    // neighbours differ, and so do the bits of most bytes
    let canvas: Vec<u8> = (0..width * height).map(|i| (i.wrapping_mul(0x9e37_79b1) >> 24) as u8 & 0xf1).collect();
    let bytes = match format {
        Format::P4 => netpbm::p4(width, height, &canvas.iter().map(|pixel| pixel & 1).collect::<Vec<_>>()),
        Format::P5 => netpbm::p5(width, height, &canvas),
    };
    File { name, format, width: width as usize, height: height as usize, bytes }
}

fn files() -> [File; 3] {
    [
        file("P5 1024 x 1024", Format::P5, 1024, 1024),
        file("P4 1024 x 1024", Format::P4, 1024, 1024),
        file("P4 1023 x 1024", Format::P4, 1023, 1024),
    ]
}

fn read(file: &File, canvas: &mut [u8]) {
    let mut sides = [0; 2];
    must(library::read_netpbm(black_box(&file.bytes), canvas, &mut sides), "read_netpbm");
    if sides != [file.width as i32, file.height as i32] {
        eprintln!("bench: {}: read_netpbm gave the sides {sides:?}", file.name);
        exit(1);
    }
}

/// The library first, and then the plain way.
fn ways(file: &File) -> [Way<'_>; 2] {
    let raster = netpbm::header(&file.bytes).expect("a file of ours has a header").rest;
    let plain: Way = match file.format {
        Format::P5 => ("copy", Box::new(move |canvas| canvas.copy_from_slice(black_box(raster)))),
        Format::P4 => ("unpack.c", Box::new(move |canvas| unpack(black_box(raster), file.width, file.height, canvas))),
    };
    [("read_netpbm", Box::new(move |canvas| read(file, canvas))), plain]
}

/// The name of the first way that leaves other pixels than netpbm.rs reads, on a canvas of 90s.
fn differs(file: &File) -> Option<&'static str> {
    let length = file.width * file.height;
    let picture = netpbm::read(&file.bytes, length, 2).expect("a file of ours can be read");
    let leaves_others = |way: &mut Way| {
        let mut canvas = vec![90; length];
        way.1(&mut canvas);
        canvas != picture.pixels
    };
    ways(file).iter_mut().find_map(|way| leaves_others(way).then_some(way.0))
}

/// Ends the program where bytes differ; how many files were read.
pub fn check() -> usize {
    let files = files();
    for file in &files {
        if let Some(way) = differs(file) {
            eprintln!("bench: {}: the pixels by {way} are not those of the file", file.name);
            exit(1);
        }
    }
    files.len()
}

/// The table.
pub fn table() {
    println!("| file | read_netpbm, µs | plain way | µs | read_netpbm / plain way |");
    println!("|---|---|---|---|---|");
    for file in files() {
        let times = times(ways(&file).into(), file.width * file.height);
        let ((_, read), (plain, floor)) = (times[0], times[1]);
        println!("| {} | {read:.2} | {plain} | {floor:.2} | {:.2} |", file.name, read / floor);
    }
}
