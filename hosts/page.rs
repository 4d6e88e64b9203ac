//! Draws the page of crates/cafe from Rust, as page.c does from C: six tiles, a row of each layer
//! painted in turn, and a seventh that is painted with them and then leaves; written as a Netpbm P5 file
//! to standard output. Any other answer than the expected one ends the program with status 1.

#[allow(dead_code)]
mod wunqaber;

use std::io::{self, Write};
use wunqaber::{ABSENT, DONE, ELLIPSE, INSIDE, NO_ROW_LEFT, ROW_OWED, SHEET_LENGTH, W3C_BOX};

const WIDTH: u32 = 232;
const HEIGHT: u32 = 120;
const CANVAS_LENGTH: usize = WIDTH as usize * HEIGHT as usize;
const HEADER_LENGTH: usize = b"P5\n232 120\n255\n".len();
const TILES: u32 = 7;
const LAYERS: u32 = 2 * TILES;
/// The box of the tile that leaves, and its oval behind it.
const LEAVING: u32 = 4;
/// More rounds than the page has rows: a layer waits for the rows that lower ones owe.
const ROUNDS: u32 = 128;
/// What comes of the calls: each box has 48 rows, each oval 24.
const PAINTED: u32 = TILES * (48 + 24);
const OWED: u32 = 554;
const WITHOUT_ROW: u32 = ROUNDS * LAYERS - PAINTED - OWED;

fn expect(what: &str, expected: u32, found: u32) {
    if found != expected {
        eprintln!("page: {what}: expected {expected}, found {found}");
        std::process::exit(1);
    }
}

/// Puts a figure on top, in a border of 2 pixels.
fn add(sheet: &mut [i32], figure: [i32; 13], fill: i32) {
    expect(
        "sheet_add",
        DONE,
        wunqaber::sheet_add(sheet, &figure, &[40, fill, 2, INSIDE]),
    );
}

/// A box 64 by 48 with corners of radius 12, and an oval 24 by 24 in its middle: filled for a person
/// who is clocked in, else hollow.
fn add_tile(sheet: &mut [i32], x: i32, y: i32, clocked_in: bool) {
    let tile = [W3C_BOX, x, y, 64, 48, 12, 12, 12, 12, 12, 12, 12, 12];
    let oval = [ELLIPSE, x + 20, y + 12, 24, 24, 0, 0, 0, 0, 0, 0, 0, 0];
    add(sheet, tile, 220);
    add(sheet, oval, if clocked_in { 40 } else { ABSENT });
}

/// Paints a row of each layer in every round, the uppermost first.
fn paint(sheet: &mut [i32], canvas: &mut [u8]) {
    let (mut painted, mut without_row, mut owed) = (0, 0, 0);
    for _ in 0..ROUNDS {
        for layer in (0..LAYERS).rev() {
            match wunqaber::sheet_paint(sheet, layer, canvas) {
                DONE => painted += 1,
                NO_ROW_LEFT => without_row += 1,
                ROW_OWED => owed += 1,
                answer => expect("sheet_paint", DONE, answer),
            }
        }
    }
    expect("calls accepted", PAINTED, painted);
    expect("calls refused by 11", WITHOUT_ROW, without_row);
    expect("calls refused by 12", OWED, owed);
}

fn main() -> io::Result<()> {
    let mut sheet = [0; SHEET_LENGTH];
    let background = vec![255; CANVAS_LENGTH];
    let mut canvas = background.clone();
    expect("sheet_open", DONE, wunqaber::sheet_open(WIDTH, HEIGHT, &mut sheet));
    add_tile(&mut sheet, 8, 8, true);
    add_tile(&mut sheet, 84, 8, false);
    add_tile(&mut sheet, 122, 36, true);
    add_tile(&mut sheet, 160, 8, true);
    add_tile(&mut sheet, 8, 64, false);
    add_tile(&mut sheet, 84, 64, false);
    add_tile(&mut sheet, 160, 64, true);
    paint(&mut sheet, &mut canvas);
    // later layers move down one number
    for layer in [LEAVING + 1, LEAVING] {
        expect(
            "sheet_remove",
            DONE,
            wunqaber::sheet_remove(&mut sheet, layer, &mut canvas, &background),
        );
    }
    let mut file = vec![0; HEADER_LENGTH + CANVAS_LENGTH];
    let mut length = [0];
    expect(
        "write_p5",
        DONE,
        wunqaber::write_p5(WIDTH, HEIGHT, &canvas, &mut file, &mut length),
    );
    expect("length of the file", file.len() as u32, length[0] as u32);
    io::stdout().write_all(&file)
}
