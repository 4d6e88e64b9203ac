//! `oracle stored FOLDER`: the stored calls and answers of the program `replay`, FOLDER/stdin and FOLDER/stdout. Each call is
//! held against the library as in `scale`; its answer is what it must be, the original's where it finishes, else the
//! reference's, and never what the library said. The seeds are fixed, so the files come out the same every time.

use crate::{
    asked::Ask,
    compare::{self, crate_box, ellipse, styles, Rng, FIXED, FRACTIONS, NOTHING_TO_TEST},
    held::{given_room, By, Held, BYTE_MARK, LENT, MARK, WRITE_P4, WRITE_P5},
    lines::{
        self,
        Argument::{self, Bytes, Number, Numbers},
    },
    netpbm,
    numbers::{call_numbers, figure_numbers, place_of, style_numbers},
    original::Original,
    records::{first_lent, Answers, Figure, Kind, Plain, Style},
    reference::{plain_refusal, Call, Reference},
    scale::{each_number_of_a_sheet, round},
    wunqaber::{CALL_LENGTH, CONFINED_LENGTH, DONE, FIGURE_LENGTH, NO_RECORD, SHEET_LENGTH},
};
use std::{collections::BTreeMap, fs, process::exit};

/// The calls in the order in which they are stored: what each is, the numbers that it can answer, of which each is to be
/// there, and how many lines of a class are stored at most, twice as many of an accepted one.
#[rustfmt::skip]
pub const CALLS: &[(&str, &str, &[u32], usize)] = &[
    ("contains", "whether a point is inside: x, y, figure, out", &[0, 1, 2, 3, 4, 13, 100], 7),
    ("row", "the y and the run of a row: y, figure, out", &[0, 1, 2, 3, 4, 13, 100, 101], 7),
    ("points", "all points as pairs: figure, list, out", &[0, 1, 2, 3, 13, 100], 4),
    ("offset", "the figure offset by k: k, figure, out", &[0, 1, 2, 3, 5, 13, 100], 7),
    ("confined_radii", "the radii as confined to the box, and L and S: figure, out", &[0, 1, 2, 3, 13, 100, 101], 7),
    ("ellipse_with_center", "the ellipse about a centre: x, y, width, height, out", &[0, 1, 3, 13], 16),
    ("styled_row", "the y, left stroke, fill and right stroke of a row: y, figure, style, out", &[0, 1, 2, 3, 4, 5, 13, 100, 101], 7),
    ("styled_bounding_box", "what a styled figure keeps to: figure, style, out", &[0, 1, 2, 3, 5, 13, 100], 7),
    ("paint_figure", "a figure painted: width, height, figure, style, canvas", &[0, 1, 2, 3, 5, 6, 8, 100], 10),
    ("sheet_open", "a sheet without layers: width, height, sheet", &[0, 6, 13], 8),
    ("sheet_add", "a figure more on top of a sheet: sheet, figure, style", &[0, 1, 2, 3, 5, 7, 9, 100], 3),
    ("sheet_paint", "the next row of a layer painted: layer, sheet, canvas", &[0, 7, 8, 10, 11, 12, 100], 6),
    ("sheet_remove", "a layer removed: layer, sheet, canvas, background", &[0, 7, 8, 10, 100], 6),
    ("run_calls", "a list of add, paint and remove calls: width, height, calls, answers, canvas, background", &[0, 6, 8, 13, 100], 7),
    ("write_p5", "the canvas as a P5 file: width, height, out, canvas, file", &[0, 6, 8, 13], 10),
    ("write_p4", "the canvas as a P4 file: width, height, out, canvas, file", &[0, 6, 8, 13], 10),
    ("read_netpbm", "the picture of a P4 or P5 file, and its width and height: out, file, canvas", &[0, 6, 8, 13, 14, 15], 10),
    ("center", "the centre of a rectangle: x, y, width, height, out", &[0, 1, 3, 13], 8),
    ("with_center", "the rectangle about a centre: x, y, width, height, out", &[0, 1, 3, 13], 8),
    ("rows", "the rows of a rectangle: x, y, width, height, out", &[0, 1, 3, 13], 8),
    ("columns", "the columns of a rectangle: x, y, width, height, out", &[0, 1, 3, 13], 8),
    ("rectangle_offset", "the rectangle offset by k: x, y, width, height, k, out", &[0, 1, 3, 5, 13], 8),
    ("range", "whether a range contains a number, and whether it is empty: start, end, number, out", &[0, 13], 20),
    ("widths", "the outside and the inside part of a stroke: width, alignment, out", &[0, 5, 13, 100], 8),
];

/// So many of them, the first, are calls of include/wunqaber.h.
pub const CALLS_OF_C: usize = 17;

/// Calls in other words than lines.rs has, and what is answered, worked out by hand.
const OTHER_WORDS: &[(&str, &str)] = &[
    ("row 0 [0 0 0 4 4 0+0*8] [5+1*4]", "0 [0*3 4*2 0*8] [0 1 3 8]"),
    ("row 0 [0*1 0*2 4*2 0*8] [1*1 2+3*2]", "0 [0*3 4*2 0*8] [0 1 3]"),
    ("row 0 [0*3 4*2 0*8] []", "13 [0*3 4*2 0*8]"),
    ("row 0 [] []", "100"),
    ("contains -1 0 [1 4294967295 0 1+0*2 0*8] [0]", "0 [1 -1 0 1*2 0*8] [1]"),
    ("contains 4294967295 0 [1 -1 0 1+0*2 0*8] [0]", "0 [1 -1 0 1*2 0*8] [1]"),
    ("confined_radii [1 0*2 9*2 1+1*8] [4294967290+3*11]", "0 [1 0*2 9*2 1 2 3 4 5 6 7 8] [0 1 2 3*2 4 5 6 9 12 24]"),
    ("run_calls 8 7 [] [5*200] {0*56} {}", "0 [5*200] #3670017"),
    ("run_calls 8 7 [] [5*2] {0*56} {0+0*55 0*1}", "0 [5*2] #3670017 #3670017"),
    ("write_p5 2 2 [0] {250+4*3 255*1} {1+0*15}", "0 [15] #132711162 #444925117"),
    ("write_p4 3 2 [0] {0+1*3 255*1 0*2} {9*9}", "0 [9] #51380483 #146211326"),
    ("read_netpbm [7*3] {80 52 10 49 32 49 10 128*1} {9+0*1}", "0 [1*2 7] #114033051 #131074"),
];

/// Lines that are no calls, and what is answered.
const NO_CALLS: &[(&str, &str)] = &[
    ("", "error: no such call"),
    (" ", "error: no such call"),
    ("ro 0 [0*3 4*2 0*8] [0*2]", "error: no such call"),
    ("rows0 0 4 4 [0*2]", "error: no such call"),
    ("nothing [1]", "error: no such call"),
    ("row", NOT_TAKEN),
    ("row ", NOT_TAKEN),
    ("row 0", NOT_TAKEN),
    ("row [0*3 4*2 0*8] [0*2]", NOT_TAKEN),
    ("row 0 [0*3 4*2 0*8]", NOT_TAKEN),
    ("row 0 [0*3 4*2 0*8] [0*2] [0]", NOT_TAKEN),
    ("row 0 [0*3 4*2 0*8] [0*2] {0}", NOT_TAKEN),
    ("row 0 0 [0*3 4*2 0*8] [0*2]", NOT_TAKEN),
    ("row 0 [0*3 4*2 0*8] [0*2] 7", NOT_TAKEN),
    ("row 0 [0*3 4*2 0*8] [0*2] [] []", NOT_TAKEN),
    ("row 0  [0*3 4*2 0*8] [0*2]", NOT_TAKEN),
    ("row 0 [0*3  4*2 0*8] [0*2]", NOT_TAKEN),
    ("row 0 [ 0*3 4*2 0*8] [0*2]", NOT_TAKEN),
    ("row 0 [0*3 4*2 0*8 ] [0*2]", NOT_TAKEN),
    ("row 0 [0*3 4*2 0*8] [0*2", NOT_TAKEN),
    ("row 0 [0*3 4*2 0*8] [0*0]", NOT_TAKEN),
    ("row 0 [0*3 4*2 0*8 5*0 [0*2]", NOT_TAKEN),
    ("row 0 [0*3 4*2 x*8] [0*2]", NOT_TAKEN),
    ("row 0 [0*3 4*2 0*] [0*2]", NOT_TAKEN),
    ("row 0 [0*3 4*2 0*8] [1+2 7]", NOT_TAKEN),
    ("row 0 [0*3 4*2 0+*8] [0*2]", NOT_TAKEN),
    ("row 0 [0*3 4*2 -*8] [0*2]", NOT_TAKEN),
    ("row 0 [0*2147483648] [0*2]", NOT_TAKEN),
    ("row 0x0 [0*3 4*2 0*8] [0*2]", NOT_TAKEN),
    ("row 4294967296 [0*3 4*2 0*8] [0*2]", NOT_TAKEN),
    ("row -2147483649 [0*3 4*2 0*8] [0*2]", NOT_TAKEN),
    ("row 99999999999999999999999999 [0*3 4*2 0*8] [0*2]", NOT_TAKEN),
    ("row 0 [0*2048] [0*2049]", NOT_TAKEN),
    ("run_calls 8 7 [] [5*2] {0*56}", NOT_TAKEN),
    ("run_calls 8 7 [] [5*2] {0*56} {} {}", NOT_TAKEN),
    ("sheet_remove 0 [0*291] {0*56}", NOT_TAKEN),
    ("sheet_remove [0*291] {0*56} {0*56}", NOT_TAKEN),
    ("write_p5 1 1 [0] [0] {0*20}", NOT_TAKEN),
    ("write_p5 1 1 [0] {0} {0*12353}", NOT_TAKEN),
    ("write_p4 1 1 {0} {0*20}", NOT_TAKEN),
    ("read_netpbm [0*2] {80 52 10 49 32 49 10 128}", NOT_TAKEN),
    ("read_netpbm 1 1 [0*2] {80 52 10 49 32 49 10 128} {0}", NOT_TAKEN),
    ("widths 1 2 3 [0*2]", NOT_TAKEN),
];

const NOT_TAKEN: &str = "error: not what this call takes";

/// Of each class the first ones are stored, whatever comes after them.
const FIRST: usize = 3;
/// A call and its answer that are longer than this together are long; of those only the first ones of each class are stored.
const LONG: usize = 500;

// ---- the choice ----

/// Calls that are alike: of one name, with one answer, by one side, with one kind of figure, with room to spare in the same
/// buffers, and long or not.
#[derive(PartialEq, Eq, PartialOrd, Ord)]
struct Class {
    call: usize,
    number: u32,
    kind: i32,
    by_reference: bool,
    spare: Vec<bool>,
    long: bool,
}

/// A call and its answer.
type Line = (String, String);

/// What is stored of a class: lines that are stored in any case, the first ones of the others, and then every so many-th.
#[derive(Default)]
struct Kept {
    always: Vec<Line>,
    first: Vec<Line>,
    thinned: Vec<Line>,
    seen: u64,
    /// how often every second of the thinned ones was dropped
    halved: u32,
}

impl Kept {
    fn lines(&self) -> impl Iterator<Item = &Line> {
        self.always.iter().chain(&self.first).chain(&self.thinned)
    }

    fn offer(&mut self, line: Line, always: bool, most: usize) {
        if self.lines().any(|kept| kept.0 == line.0) {
            return;
        }
        if always {
            return self.always.push(line);
        }
        if self.first.len() < FIRST {
            return self.first.push(line);
        }
        if most > FIRST && self.seen % (1 << self.halved) == 0 {
            self.thinned.push(line);
        }
        self.seen += 1;
        if self.thinned.len() > most - FIRST {
            let mut kept = false;
            self.thinned.retain(|_| {
                kept = !kept;
                kept
            });
            self.halved += 1;
        }
    }
}

/// The calls that are stored.
#[derive(Default)]
pub struct Chosen {
    classes: BTreeMap<Class, Kept>,
    /// every call is stored, not only some of each class
    always: bool,
}

impl Chosen {
    /// A call, and what its lists must hold then.
    pub fn offer(&mut self, call: &'static str, by: Result<By, u32>, asked: &[Argument], after: &[Argument]) {
        if !lines::fits(call, asked) {
            return;
        }
        let number = by.err().unwrap_or(DONE);
        let line = (lines::query(call, asked), lines::answer(number, after));
        let at = CALLS.iter().position(|c| c.0 == call).expect("oracle: a call that is not listed");
        let long = line.0.len() + line.1.len() > LONG;
        let spare = after.iter().map(ends_in_mark).collect();
        let class = Class { call: at, number, kind: kind(asked), by_reference: by == Ok(By::Reference), spare, long };
        let most = match (long, number) {
            (true, _) => FIRST,
            (false, DONE) => 2 * CALLS[at].3,
            _ => CALLS[at].3,
        };
        self.classes.entry(class).or_default().offer(line, self.always, most);
    }

    /// A call that C does not have: nothing is linked to hold it against, but the two sides must agree.
    fn plain(&mut self, plain: &Plain, room: usize) {
        let (call, asked) = plain_arguments(plain);
        let wanted = plain_refused(plain).map_or(Ok(()), Err).map(|()| {
            let values = Original.plain(plain);
            assert_eq!(values, Reference.plain(plain), "oracle: the two sides differ on {plain:?}");
            (values.iter().map(|v| *v as i32).collect::<Vec<_>>(), By::Original)
        });
        let (by, all) = given_room(wanted, room);
        let asked = [&asked[..], &[Numbers(&LENT[..room])]].concat();
        self.offer(call, by, &asked, &[Numbers(&all[..room])]);
    }
}

/// Whether what is lent goes beyond what is written there.
fn ends_in_mark(argument: &Argument) -> bool {
    match argument {
        Numbers(list) => list.last() == Some(&MARK),
        Bytes(list) => list.last() == Some(&BYTE_MARK),
        Number(_) => false,
    }
}

/// The kind of the figure that is asked about; -1 where there is none, -2 where it is no figure.
fn kind(asked: &[Argument]) -> i32 {
    let figure = asked.iter().find_map(|a| match a {
        Numbers(list) if list.len() == FIGURE_LENGTH => Some(list[0]),
        _ => None,
    });
    figure.map_or(-1, |kind| if (0..3).contains(&kind) { kind } else { -2 })
}

/// By 100 or the lowest number.
fn plain_refused(plain: &Plain) -> Option<u32> {
    match plain {
        Plain::Widths(_, 3..) => Some(NO_RECORD),
        _ => plain_refusal(plain),
    }
}

fn plain_arguments(plain: &Plain) -> (&'static str, Vec<Argument<'static>>) {
    let (call, numbers) = match *plain {
        Plain::Center(r) => ("center", r.to_vec()),
        Plain::WithCenter(r) => ("with_center", r.to_vec()),
        Plain::Rows(r) => ("rows", r.to_vec()),
        Plain::Columns(r) => ("columns", r.to_vec()),
        Plain::Offset(r, k) => ("rectangle_offset", [&r[..], &[k]].concat()),
        Plain::Range(start, end, v) => ("range", vec![start, end, v]),
        Plain::Widths(width, align) => ("widths", vec![width, align]),
    };
    (call, numbers.into_iter().map(Number).collect())
}

// ---- calls that are stored in any case ----

const ENDS: [i32; 2] = [i32::MIN, i32::MAX];

/// A figure of each kind, small, with corners that are not all the same.
fn one_of_each() -> [Figure; 3] {
    let f = crate_box(-3, 2, 7, 5, [(1, 2), (3, 1), (0, 0), (2, 2)]);
    [ellipse(-3, 2, 7, 5), f, Figure { kind: Kind::W3c, ..f }]
}

/// As asked in `compare`.
fn ask(r: &mut Held, f: &Figure, ask: &Ask) {
    let n = figure_numbers(f);
    match *ask {
        Ask::Contains(x, y) => r.contains(&n, x as i32, y as i32, 1),
        Ask::Row(y) => r.row(&n, y as i32, 3),
        Ask::Points => r.points(&n, 0, 1),
        Ask::Offset(k) => r.offset(&n, k as i32, FIGURE_LENGTH),
        Ask::Confine => r.confined_radii(&n, CONFINED_LENGTH),
        Ask::StyledRow(s, y) => r.styled_row(&n, &style_numbers(&s), y as i32, 7),
        Ask::StyledBox(s) => r.styled_bounding_box(&n, &style_numbers(&s), 4),
        // on zeros, and 8 bytes that are not lent
        Ask::Paint(s, w, h) => r.paint_on(&n, &style_numbers(&s), w as u32, h as u32, &vec![0; (w * h + 8) as usize]),
    }
}

/// How many calls there are on a figure, with a style or without.
const FIGURE_CALLS: usize = 9;

/// The at-th of them.
fn any_call(r: &mut Held, at: usize, n: &[i32], s: &[i32]) {
    match at % FIGURE_CALLS {
        0 => r.contains(n, -2, 3, 1),
        1 => r.row(n, 3, 3),
        2 => r.points(n, 0, 1),
        3 => r.offset(n, 1, FIGURE_LENGTH),
        4 => r.confined_radii(n, CONFINED_LENGTH),
        styled => styled_call(r, styled, n, s),
    }
}

fn styled_call(r: &mut Held, at: usize, n: &[i32], s: &[i32]) {
    match at % 4 {
        0 => r.paint_figure(n, s, 5, 7, 35),
        1 => r.styled_row(n, s, 3, 7),
        2 => r.styled_bounding_box(n, s, 4),
        _ => {
            r.sheet_add(&mut blank(6, 5), n, s);
        }
    }
}

/// A sheet without layers whose unused places are zeros.
fn blank(width: i32, height: i32) -> Vec<i32> {
    let mut sheet = vec![0; SHEET_LENGTH];
    sheet[..2].copy_from_slice(&[width, height]);
    sheet
}

/// What the at-th number of a figure may be and may not.
fn figure_limits(at: usize) -> &'static [i32] {
    match at {
        0 => &[-1, 0, 1, 2, 3],
        1 | 2 => &[-4097, -4096, 4096, 4097],
        _ => &[-1, 0, 1024, 1025],
    }
}

/// And of a style.
fn style_limits(at: usize) -> &'static [i32] {
    match at {
        0 | 1 => &[-2, -1, 0, 255, 256],
        2 => &[-1, 0, 1, 256, 257],
        _ => &[-1, 0, 1, 2, 3],
    }
}

/// Each number of a figure and of a style at each of its limits and one past it, and at the type's ends; by one call after
/// another. Lengths that are none.
fn limits(r: &mut Held) {
    let mut turn = 0;
    let style = [7, 9, 2, 1];
    for f in one_of_each() {
        let n = figure_numbers(&f);
        for at in 0..n.len() {
            for limit in figure_limits(at).iter().chain(&ENDS) {
                let mut changed = n;
                changed[at] = *limit;
                any_call(r, turn, &changed, &style);
                turn += 1;
            }
        }
        for at in 0..style.len() {
            for limit in style_limits(at).iter().chain(&ENDS) {
                let mut changed = style;
                changed[at] = *limit;
                styled_call(r, turn, &n, &changed);
                turn += 1;
            }
        }
        let asked = [-8193, -8192, 8192, 8193, i32::MIN, i32::MAX];
        for v in asked {
            r.contains(&n, v, 3, 1);
            r.contains(&n, 0, v, 1);
            r.row(&n, v, 3);
            r.styled_row(&n, &style, v, 7);
        }
        for k in [-257, -256, -3, 0, 256, 257, i32::MIN, i32::MAX] {
            r.offset(&n, k, FIGURE_LENGTH);
        }
    }
    let n = figure_numbers(&one_of_each()[1]);
    let longer = [&n[..], &[0]].concat();
    for call in 0..FIGURE_CALLS {
        for n in [&n[..12], &longer, &[]] {
            any_call(r, call, n, &style);
        }
        for s in [&style[..3], &[7, 9, 2, 1, 0], &[]] {
            styled_call(r, call, &n, s);
        }
    }
}

/// Every call with one number too few to write to, with as many as needed, with one more, and with none.
fn rooms(r: &mut Held) {
    let style = [7, 9, 2, 1];
    for f in one_of_each() {
        let n = figure_numbers(&f);
        let offset = if f.kind == Kind::Ellipse { 5 } else { FIGURE_LENGTH };
        for (spare, more) in [(-1, 0), (0, 0), (0, 1), (1, 1), (-9999, 1), (-2, 2)] {
            r.points(&n, spare, more);
        }
        for more in 0..4 {
            let room = |needed: usize| if more == 3 { 0 } else { needed - 1 + more };
            r.contains(&n, -2, 3, room(1));
            r.row(&n, 3, room(3));
            r.row(&n, 99, room(3));
            r.offset(&n, -1, room(offset));
            r.confined_radii(&n, room(CONFINED_LENGTH));
            r.styled_row(&n, &style, 3, room(7));
            r.styled_bounding_box(&n, &style, room(4));
            r.ellipse_with_center(-2, 3, f.w as u32 + more as u32, 6, room(5));
        }
        // the radii alone are not given
        r.confined_radii(&n, 8);
    }
    // as many points as `replay` has room for
    for (w, h, spare) in [(32, 32, 0), (32, 32, -1), (31, 33, 2), (1, 1024, 0)] {
        r.points(&figure_numbers(&crate_box(0, 0, w, h, [(0, 0); 4])), spare, 1);
    }
    for (w, h) in [(1, 1), (1024, 1024), (7, 1024), (0, 4), (4, 0), (1025, 4), (4, 1025), (u32::MAX, 1), (1, 1 << 31)] {
        for length in [0, 290, 291, 292] {
            r.sheet_open(w, h, length);
        }
    }
    // the largest canvases that `replay` lends, and the smallest
    for (w, h, seed) in [(1024, 12, 5), (12, 1024, 6), (96, 128, 7), (64, 1, 8), (65, 1, 9), (1, 1, 10)] {
        for (spare, room) in [(-1, 1), (0, 1), (1, 2), (3, 0), (40, 1), (-9999, 0)] {
            r.write(&WRITE_P5, w, h, &first_lent(w as i64, h as i64, Some(seed)), spare, room);
        }
        let seen = crate_box(-4, -2, w as i64 + 2, h as i64 + 9, [(9, 5), (30, 8), (2, 60), (300, 400)]);
        for kind in [Kind::Ellipse, Kind::Crate, Kind::W3c] {
            let n = figure_numbers(&Figure { kind, ..seen });
            r.paint_figure(&n, &[200, 100, 9, 1], w, h, (w * h) as usize);
            // other refusals come before that of the length, the side before both
            for length in [0, w * h - 1, w * h + 1] {
                r.paint_figure(&n, &[200, 100, 9, 1], w, h, length as usize);
                r.paint_figure(&n, &[200, 100, 257, 1], w, h, length as usize);
                r.paint_figure(&n, &[200, 100, 9, 1], w, 1025, length as usize);
            }
        }
    }
}

/// Three layers that share rows, some of them painted; and a canvas for them.
fn three_layers(r: &mut Held) -> (Vec<i32>, Vec<u8>) {
    let mut sheet = blank(6, 5);
    let mut canvas = first_lent(6, 5, Some(3));
    let figures = [ellipse(-1, 0, 5, 4), crate_box(1, 1, 4, 3, [(1, 1), (2, 1), (0, 0), (1, 2)])];
    let w3c = Figure { kind: Kind::W3c, ..crate_box(0, -1, 3, 6, [(3, 3), (1, 1), (0, 2), (1, 0)]) };
    for (i, f) in figures.iter().chain(&[w3c]).enumerate() {
        let style = Style { stroke: Some(7 + i as u8), fill: Some(40), width: 1, align: 0 };
        r.sheet_add(&mut sheet, &figure_numbers(f), &style_numbers(&style));
    }
    // the second waits for the first, and the third for both
    for layer in [1, 2, 2, 0, 2, 0, 0, 1, 1, 2, 3] {
        r.sheet_paint(&mut sheet, layer, &mut canvas);
    }
    (sheet, vec![77; 6 * 5])
}

/// Sheets that break each rule: each number of a used place at its limits and past them, the sides and the count, next rows,
/// the order of layers, the length.
fn sheets(r: &mut Held) {
    let (sheet, canvas) = three_layers(r);
    let mut given = |at: &[(usize, i32)], by_add: bool| {
        let mut changed = sheet.clone();
        at.iter().for_each(|(i, v)| changed[*i] = *v);
        if by_add {
            r.sheet_add(&mut changed, &figure_numbers(&ellipse(0, 0, 2, 2)), &[-1, 9, 0, 1]);
        } else {
            r.sheet_paint(&mut changed, 0, &mut canvas.clone());
        }
    };
    for layer in 0..3 {
        let place = place_of(layer);
        let ends = if layer == 0 { &ENDS[..] } else { &[] };
        let turn = |at: usize, i: usize| (at + i + layer) % 2 == 0;
        for at in 0..FIGURE_LENGTH {
            for (i, limit) in figure_limits(at).iter().chain(ends).enumerate() {
                given(&[(place + at, *limit)], turn(at, i));
                if at == 2 {
                    // with the next row that belongs to it
                    given(&[(place + at, *limit), (place + 17, *limit)], !turn(at, i));
                }
            }
        }
        for at in 0..4 {
            for (i, limit) in style_limits(at).iter().chain(ends).enumerate() {
                given(&[(place + 13 + at, *limit)], turn(at, i));
            }
        }
        for next in (-3..=7).chain(ENDS) {
            given(&[(place + 17, next)], true);
            given(&[(place + 17, next)], false);
        }
    }
    for v in [-1, 0, 1, 2, 3, 4, 15, 16, 17, 1024, 1025].into_iter().chain(ENDS) {
        for at in 0..3 {
            given(&[(at, v)], true);
            given(&[(at, v)], false);
        }
    }
    sheets_as_wholes(r, &sheet, &canvas);
}

fn sheets_as_wholes(r: &mut Held, sheet: &[i32], canvas: &[u8]) {
    let n = figure_numbers(&ellipse(0, 0, 2, 2));
    let style = [-1, 9, 0, 1];
    let longer = [sheet, &[0]].concat();
    // two layers in the other order: what one has painted the other owes
    let mut turned = sheet.to_vec();
    let (first, second) = (place_of(0)..place_of(1), place_of(1)..place_of(2));
    turned[first.clone()].copy_from_slice(&sheet[second.clone()]);
    turned[second].copy_from_slice(&sheet[first]);
    for given in [&sheet[..SHEET_LENGTH - 1], &longer, &[], &turned, sheet] {
        r.sheet_add(&mut given.to_vec(), &n, &style);
        r.sheet_paint(&mut given.to_vec(), 0, &mut canvas.to_vec());
    }
    for layer in [0, 1, 2, 3, 15, 16, 17, u32::MAX] {
        r.sheet_paint(&mut sheet.to_vec(), layer, &mut canvas.to_vec());
        // the length is looked at before the layer
        r.sheet_paint(&mut sheet.to_vec(), layer, &mut canvas[1..].to_vec());
    }
    // painted to the end, each call by one that comes too early or too late
    let (mut rest, mut bytes) = (sheet.to_vec(), canvas.to_vec());
    for layer in [1, 2, 2, 1, 0, 0, 2, 1, 2, 1, 2, 2, 2, 0, 1] {
        r.sheet_paint(&mut rest, layer, &mut bytes);
    }
    // the figure is refused before the sheet, and the sheet before its being full
    for count in [16, 17] {
        let mut full = sheet.to_vec();
        full[2] = count;
        for at in [3, 5, 1] {
            let mut beyond = n;
            (beyond[0], beyond[at]) = (1, 5000);
            r.sheet_add(&mut full.clone(), &beyond, &style);
        }
        r.sheet_add(&mut full.clone(), &n, &[-1, 9, 257, 1]);
        r.sheet_add(&mut full.clone(), &n, &[-1, 9, 0, 3]);
        r.sheet_paint(&mut full, 0, &mut canvas[1..].to_vec());
    }
}

/// Lists of calls: none, accepted and refused ones among each other, what is no call, and room for one answer too few.
fn lists(r: &mut Held) {
    let style = Style { stroke: Some(7), fill: Some(9), width: 1, align: 1 };
    let [e, c, w] = one_of_each().map(|f| Call::Add(Figure { x: 0, y: 1, ..f }, style));
    let too_wide = Call::Add(ellipse(0, 0, 1025, 1), style);
    let calls = [
        e,
        Call::Paint(0),
        c,
        too_wide,
        Call::Paint(1),
        Call::Paint(1),
        Call::Paint(0),
        w,
        Call::Paint(2),
        Call::Paint(3),
    ];
    let numbers: Vec<i32> = calls.iter().flat_map(|c| call_numbers(c, -7)).collect();
    let count = calls.len();
    let zeros = vec![0; 8 * 7];
    for room in [0, count - 1, count, count + 1, 128] {
        r.run_calls(8, 7, &numbers, &zeros, &[], room);
    }
    r.run_calls(8, 7, &[], &zeros, &[], 0);
    r.run_calls(8, 7, &[], &zeros, &[], 2);
    for (w, h, length) in [(0, 7, 56), (8, 1025, 56), (8, 7, 55), (8, 7, 57), (8, 7, 0)] {
        // these come before that it is no list of calls
        r.run_calls(w, h, &numbers, &vec![0; length], &[], count);
        r.run_calls(w, h, &numbers[1..], &vec![0; length], &[], 0);
    }
    for length in [1, 19, 21, 199] {
        r.run_calls(8, 7, &numbers[..length], &zeros, &[], count);
    }
    for (at, v) in
        [(0, 2), (0, 3), (0, -1), (1, 3), (4, -1), (14, 256), (17, 3), (20, 2), (20, 3), (21, -1), (21, 16), (21, i32::MAX), (22, 5)]
    {
        let mut changed = numbers.clone();
        changed[at] = v;
        r.run_calls(8, 7, &changed, &zeros, &[], count);
    }
    // as many as `replay` has room for; 17 are added, of which one is refused
    let added = (0..17).map(|i| Call::Add(Figure { x: i, y: i % 5, ..one_of_each()[i as usize % 3] }, style));
    let painted = (0..85).map(|i| Call::Paint(i * i % 17));
    let many: Vec<i32> = added.chain(painted).flat_map(|c| call_numbers(&c, 0)).collect();
    r.run_calls(8, 7, &many[..17 * CALL_LENGTH], &zeros, &[], 17);
    r.run_calls(8, 7, &many, &zeros, &[], 102);
    r.run_calls(8, 7, &many, &zeros, &[], 128);
}

/// Layers removed from the sheet of three: each of them, one after another, such as are not there; canvas, background or both of
/// another length, and that together with a layer that is not there; full sheets, layers without rows and off the canvas.
fn removals(r: &mut Held) {
    let (sheet, _) = three_layers(r);
    let (canvas, background) = (vec![77; 6 * 5], vec![12; 6 * 5]);
    for layer in [0, 1, 2, 3, 15, 16, 17, 1 << 31, u32::MAX] {
        r.sheet_remove(&mut sheet.to_vec(), layer, &mut canvas.clone(), &background);
    }
    // either length is looked at before the layer
    for (of_canvas, of_background) in [(29, 30), (30, 29), (30, 31), (31, 30), (29, 29), (30, 0), (0, 30), (0, 0)] {
        for layer in [1, 3] {
            let mut other = vec![77; of_canvas];
            r.sheet_remove(&mut sheet.to_vec(), layer, &mut other, &vec![12; of_background]);
        }
    }
    // until none is left, in each order; then there is no layer 0
    for order in [[0, 0, 0], [0, 1, 0], [1, 0, 0], [1, 1, 0], [2, 0, 0], [2, 1, 0]] {
        let (mut rest, mut bytes) = (sheet.to_vec(), canvas.clone());
        for layer in order.into_iter().chain([0]) {
            r.sheet_remove(&mut rest, layer, &mut bytes, &background);
            // one that waited for the layer need not wait any longer
            r.sheet_paint(&mut rest, 1, &mut bytes);
        }
    }
    removals_from_broken_sheets(r, &sheet, &canvas, &background);
    removals_from_full_sheets(r);
}

/// The sheet is looked at before the lengths, and the lengths before the layer.
fn removals_from_broken_sheets(r: &mut Held, sheet: &[i32], canvas: &[u8], background: &[u8]) {
    let longer = [sheet, &[0]].concat();
    for given in [&sheet[..SHEET_LENGTH - 1], &longer, &[]] {
        r.sheet_remove(&mut given.to_vec(), 0, &mut canvas.to_vec(), background);
        r.sheet_remove(&mut given.to_vec(), 99, &mut canvas[1..].to_vec(), &[]);
    }
    let at = |layer: usize, number: usize| place_of(layer) + number;
    for (at, v) in [
        (0, 0),
        (0, 1025),
        (1, -1),
        (2, -1),
        (2, 0),
        (2, 1),
        (2, 17),
        (2, i32::MAX),
        (at(0, 0), 3),
        (at(1, 3), 1025),
        (at(2, 5), 1025),
        (at(0, 1), -4097),
        (at(1, 13), 256),
        (at(2, 15), 257),
        (at(0, 16), 3),
        (at(0, 17), -1),
        (at(0, 17), 5),
        // what a later layer has painted, an earlier one owes
        (at(0, 17), 0),
        (at(1, 17), 1),
        // one that does not matter
        (at(3, 0), 9),
        (at(15, 17), i32::MIN),
    ] {
        let mut changed = sheet.to_vec();
        changed[at] = v;
        r.sheet_remove(&mut changed.clone(), 1, &mut canvas.to_vec(), background);
        r.sheet_remove(&mut changed, 99, &mut canvas.to_vec(), &background[1..]);
    }
}

/// Sixteen layers, finished, in the middle of their rows or before them, among them such as have no row or none on the canvas; some
/// of them removed. The places that are not used move down as well, with whatever stands in them.
fn removals_from_full_sheets(r: &mut Held) {
    // what leads to the sheet is held, and not stored
    let chosen = r.chosen.take();
    let mut sheet = blank(7, 6);
    let (lent, mut canvas) = (first_lent(7, 6, Some(40)), first_lent(7, 6, Some(40)));
    for i in 0..16 {
        let f = match i % 8 {
            3 => ellipse(i, 1, 2, 8),
            4 => crate_box(1, -9, 5, 4, [(0, 0); 4]),
            5 => crate_box(2, 6, 5, 4, [(1, 1); 4]),
            6 => crate_box(-20, 1, 5, 4, [(1, 1); 4]),
            _ => Figure { x: i % 5 - 1, y: i % 4 - 1, ..one_of_each()[i as usize % 3] },
        };
        let style = Style { stroke: Some(20 + i as u8), fill: (i % 3 > 0).then_some(i as u8), width: i % 2, align: i % 3 };
        r.sheet_add(&mut sheet, &figure_numbers(&f), &style_numbers(&style));
    }
    for turn in 0..9 {
        for layer in 0..16 {
            if (layer + turn) % 5 < 3 {
                r.sheet_paint(&mut sheet, layer, &mut canvas);
            }
        }
    }
    r.chosen = chosen;
    for layer in 0..17 {
        r.sheet_remove(&mut sheet.clone(), layer, &mut canvas.clone(), &lent);
    }
    for layer in [15, 0, 3, 3, 3, 3, 7] {
        r.sheet_remove(&mut sheet, layer, &mut canvas, &lent);
        sheet[place_of(15)..].fill(-99);
    }
    // none of its rows on the canvas, the largest there are
    let mut tall = blank(1, 1);
    r.sheet_add(&mut tall, &figure_numbers(&crate_box(0, -4096, 1024, 1024, [(0, 0); 4])), &[1, 2, 256, 2]);
    for next in [-4352, -4351, -2816] {
        tall[place_of(0) + 17] = next;
        r.sheet_remove(&mut tall.clone(), 0, &mut [9], &[8]);
    }
}

/// Lists with removals: of each layer, of such as are not there, in the middle of painting and after it; backgrounds that are the
/// canvas as lent, others, of another length, and none; what is no call.
fn removing_lists(r: &mut Held) {
    let style = Style { stroke: Some(7), fill: Some(9), width: 1, align: 1 };
    let [e, c, w] = one_of_each().map(|f| Call::Add(Figure { x: 0, y: 1, ..f }, style));
    let paint = |layers: &[usize]| layers.iter().map(|i| Call::Paint(*i)).collect::<Vec<_>>();
    let lent = first_lent(8, 7, Some(60));
    let others = [vec![5; 56], vec![5; 55], vec![5; 57], Vec::new()];
    for (turn, removed) in
        [[0, 0, 0], [1, 0, 0], [2, 1, 0], [0, 1, 2], [3, 2, 2], [0, i32::MAX as usize, 16]].into_iter().enumerate()
    {
        let mut calls = vec![e.clone(), c.clone(), w.clone()];
        calls.extend(paint(&[0, 0, 1, 2, 0, 1]));
        calls.push(Call::Remove(removed[0]));
        calls.extend(paint(&[0, 1, 0, 1, 2]));
        calls.push(Call::Remove(removed[1]));
        calls.push(c.clone());
        calls.extend(paint(&[0, 0, 0, 0, 0, 1, 1]));
        calls.push(Call::Remove(removed[2]));
        calls.extend(paint(&[0, 1]));
        let numbers: Vec<i32> = calls.iter().flat_map(|c| call_numbers(c, -7)).collect();
        for background in [&lent, &others[turn % 4]] {
            r.run_calls(8, 7, &numbers, &lent, background, calls.len());
        }
    }
    // one layer, removed before, in the middle of and after its rows, and twice; and from an empty sheet
    for rows in [0, 2, 5] {
        let painted = (0..rows).map(|_| Call::Paint(0));
        let calls: Vec<Call> = [e.clone()].into_iter().chain(painted).chain([Call::Remove(0), Call::Remove(0)]).collect();
        let numbers: Vec<i32> = calls.iter().flat_map(|c| call_numbers(c, 0)).collect();
        r.run_calls(8, 7, &numbers, &lent, &lent, calls.len());
        r.run_calls(8, 7, &numbers, &lent, &lent, calls.len() - 1);
        r.run_calls(8, 7, &numbers[CALL_LENGTH..], &lent, &lent, calls.len());
    }
    // what is no removal and what is, and the refusals that come before that
    for (at, v) in [(0, 3), (0, -1), (1, -1), (1, i32::MIN), (1, 1), (1, i32::MAX), (2, 77), (19, -1)] {
        let mut numbers = [call_numbers(&e, 0), call_numbers(&Call::Remove(0), 0)].concat();
        numbers[CALL_LENGTH + at] = v;
        for background in [&lent[..], &[]] {
            r.run_calls(8, 7, &numbers, &lent, background, 2);
        }
        r.run_calls(8, 7, &numbers, &lent[1..], &lent[1..], 2);
        r.run_calls(8, 7, &numbers, &lent, &lent, 1);
    }
    // as many as `replay` has room for: full, and two of three removed and added again
    let added = (0..17).map(|i| Call::Add(Figure { x: i % 6, y: i % 5, ..one_of_each()[i as usize % 3] }, style));
    let turn = |i: usize| match i % 4 {
        0 => Call::Remove(i * i % 19),
        1 => w.clone(),
        _ => Call::Paint(i * i % 17),
    };
    let many: Vec<i32> = added.chain((0..85).map(turn)).flat_map(|c| call_numbers(&c, 0)).collect();
    r.run_calls(8, 7, &many, &lent, &lent, 102);
    r.run_calls(8, 7, &many, &lent, &[], 102);
}

/// Canvases as P4 files: rows that end at each bit of a byte, buffers too short, sides and lengths that are none, the
/// largest canvases that `replay` lends.
fn packed(r: &mut Held) {
    let spotted = |count: u32| [0, 255, 1, 0, 128, 0, 0].into_iter().cycle().take(count as usize).collect::<Vec<u8>>();
    for (w, h) in (1..=9).map(|w| (w, 2)).chain([(16, 1), (17, 3), (1, 9)]) {
        r.write(&WRITE_P4, w, h, &spotted(w * h), 0, 1);
    }
    for (spare, room) in [(-1, 1), (1, 2), (40, 1), (3, 0), (-1, 0), (-9999, 1)] {
        r.write(&WRITE_P4, 9, 2, &spotted(18), spare, room);
    }
    for (w, h) in [(0, 2), (9, 0), (0, 0), (1025, 1), (1, 1025), (u32::MAX, 1), (1 << 31, 1 << 31)] {
        r.write(&WRITE_P4, w, h, &spotted(18), 0, 1);
        // before a wrong length, and a list or buffer that is too short
        r.write(&WRITE_P4, w, h, &spotted(3), -9999, 0);
    }
    for length in [0, 17, 19, 24] {
        r.write(&WRITE_P4, 9, 2, &spotted(length), 0, 1);
        r.write(&WRITE_P4, 9, 2, &spotted(length), -9999, 0);
    }
    for (w, h, step) in [(1024, 12, 128), (12, 1024, 64), (1023, 12, 32), (96, 128, 0)] {
        let canvas: Vec<u8> = (0..w * h).map(|i| (i * step) as u8).collect();
        r.write(&WRITE_P4, w, h, &canvas, 0, 1);
    }
}

/// Files of a picture, each with how many bytes of canvas and how many places for its sides are lent.
#[rustfmt::skip]
const FILES: &[(&[u8], usize, usize)] = &[
    // both kinds, as they are written by us, with bytes after the raster, with bits that fill up a row
    (b"P4\n1 1\n\x80", 1, 2),
    (b"P4\n1 1\n\x7f", 1, 3),
    (b"P4\n9 2\n\xff\x80\x01\x7f", 18, 2),
    (b"P4\n8 1\n\xa5\xff\xff", 8, 2),
    (b"P5\n2 2\n255\n\x00\x01\x80\xff", 4, 2),
    (b"P5\n3 1\n255\n\n#7P5", 3, 3),
    // whitespace and comments
    (b"P4 3\t2\r\xa0\x40", 6, 2),
    (b"P5\r\n3\r\n1\r\n255\r\n01", 3, 2),
    (b"P4#\n3#c\r2\n\xa0\x40", 6, 2),
    (b"P5 #4 4\n #\r2##\n\t1#P4\r255 #\n", 2, 2),
    (b"P5\n1 1 #255\n255\t\t", 1, 2),
    // P4 has no maximum: what could be one is the raster
    (b"P4 1 1 255 \x80", 1, 2),
    (b"P4 4 255 1", 16, 2),
    // zeros in front of numbers
    (b"P4 00000000000000000000004 01 \x90", 4, 2),
    (b"P5 1 1 0255 9", 1, 2),
    // 14: the letter and the digit
    (b"", 1, 2), (b"P", 1, 2), (b"P4", 1, 2), (b"P6\n1 1\n255\n123", 1, 2), (b"P2\n1 1\n255\n1", 1, 2),
    (b"p4\n1 1\n1", 1, 2), (b" P4\n1 1\n1", 1, 2), (b"P54 4 255 1", 16, 2),
    // 14: numbers that are none or not enough
    (b"P4\n1 \n\x80", 1, 2), (b"P4\n-1 1\n\x80", 1, 2), (b"P4\n+1 1\n\x80", 1, 2), (b"P4\n1,1\n\x80", 1, 2),
    (b"P5\n1 1\n\x80", 1, 2),
    // 14: what stands between
    (b"P4\x0b1 1\n\x80", 1, 2), (b"P4\n1\x0c1\n\x80", 1, 2), (b"P4\n1 1\x0c\x80", 1, 2), (b"P4\n1 1", 1, 2),
    (b"P4\n1 1x\x80", 1, 2), (b"P4\n1 1#c\n\x80", 1, 2), (b"P4 #1 1 ", 1, 2), (b"P4 1#", 1, 2),
    // 14: another maximum
    (b"P5 1 1 0 1", 1, 2), (b"P5 1 1 254 1", 1, 2), (b"P5 1 1 256 1", 1, 2), (b"P5 1 1 65535 11", 1, 2),
    (b"P5 1 1 4294967551 1", 1, 2), (b"P5 1 1 18446744073709551871 1", 1, 2), (b"P5 1 1 255#\n1", 1, 2),
    // 6, after 14 and before all others
    (b"P4 0 1 ", 0, 2), (b"P4 1 0 ", 0, 2), (b"P4 1025 1 ", 1025, 2), (b"P5 1 1025 255 ", 7, 0), (b"P5 0 1 256 ", 0, 2),
    (b"P4 4294967297 1 \x80", 1, 2), (b"P4 1 18446744073709551617 \x80", 1, 2),
    (b"P5 1000000000000000000000000000000000000000 1 255 1", 1, 2),
    // 8, before 13 and 15
    (b"P4\n9 2\n\xff\x80\x01\x7f", 17, 2), (b"P4\n9 2\n\xff\x80\x01\x7f", 19, 2),
    (b"P4\n9 2\n\xff\x80\x01\x7f", 0, 2), (b"P5\n2 2\n255\n", 3, 2), (b"P5\n2 2\n255\n1234", 5, 1),
    // 13, before 15
    (b"P4\n1 1\n\x80", 1, 0), (b"P4\n1 1\n\x80", 1, 1), (b"P5\n2 2\n255\n1234", 4, 1), (b"P5\n2 2\n255\n123", 4, 0),
    // 15
    (b"P4\n1 1\n", 1, 2), (b"P4\n9 2\n\xff\x80\x01", 18, 2), (b"P5\n2 2\n255\n", 4, 2), (b"P5\n2 2\n255\n123", 4, 3),
];

/// And the largest that `replay` has room for, and both without their last byte.
fn read(r: &mut Held) {
    for (file, length, room) in FILES {
        r.read_netpbm(file, *length, *room);
    }
    let p4 = netpbm::p4(1024, 12, &[1; 12288]);
    let p5 = netpbm::p5(1024, 11, &first_lent(1024, 11, Some(4)));
    r.read_netpbm(&p4, 12288, 2);
    r.read_netpbm(&p5, 11264, 2);
    r.read_netpbm(&p4[..p4.len() - 1], 12288, 2);
    r.read_netpbm(&p5[..p5.len() - 1], 11264, 2);
}

const PLACES: [i64; 12] = [-4608, -4607, -4097, -4096, -7, 0, 5, 4096, 4097, 4607, i32::MIN as i64, i32::MAX as i64];
const SIDES: [i64; 11] = [0, 1, 2, 3, 4, 255, 1023, 1024, 1025, 1 << 31, u32::MAX as i64];
const OFFSETS: [i64; 10] = [-257, -256, -5, -1, 0, 1, 256, 257, i32::MIN as i64, i32::MAX as i64];

fn on_rectangle(at: usize, r: [i64; 4], k: i64) -> Plain {
    [Plain::Center(r), Plain::WithCenter(r), Plain::Rows(r), Plain::Columns(r), Plain::Offset(r, k)][at]
}

/// What C does not have: one number after the other at each limit and past it.
fn plain_limits(chosen: &mut Chosen) {
    for call in 0..5 {
        let rectangle = [-7, 5, 9, 4];
        for at in 0..4 {
            for v in if at < 2 { &PLACES[..] } else { &SIDES[..] } {
                let mut changed = rectangle;
                changed[at] = *v;
                chosen.plain(&on_rectangle(call, changed, -2), 4);
            }
        }
        for room in 0..6 {
            chosen.plain(&on_rectangle(call, rectangle, 3), room);
            chosen.plain(&on_rectangle(call, [0, 0, 1025, 0], 3), room);
        }
    }
    for k in OFFSETS {
        chosen.plain(&Plain::Offset([-7, 5, 9, 4], k), 4);
        chosen.plain(&Plain::Offset([-4096, 4096, 1024, 0], k), 4);
    }
    for width in [0, 1, 2, 3, 4, 7, 255, 256, 257, 1 << 31, u32::MAX as i64] {
        for align in [0, 1, 2, 3, u32::MAX as i64] {
            chosen.plain(&Plain::Widths(width, align), 2);
        }
    }
    for room in 0..4 {
        chosen.plain(&Plain::Widths(5, 1), room);
        chosen.plain(&Plain::Widths(257, 1), room);
        chosen.plain(&Plain::Range(-3, 4, 0), room);
    }
    for (start, end) in
        [(-3, 4), (4, -3), (0, 0), (5, 6), (i32::MIN as i64, i32::MAX as i64), (i32::MAX as i64, i32::MIN as i64)]
    {
        for v in [start - 1, start, start + 1, end - 1, end, end + 1, 0] {
            if i32::try_from(v).is_ok() {
                chosen.plain(&Plain::Range(start, end, v), 2);
            }
        }
    }
}

/// The same at random.
fn plain_at_random(chosen: &mut Chosen, rng: &mut Rng) {
    for n in 0..3000 {
        let place = |rng: &mut Rng| if rng.within(0, 1) == 0 { rng.of(&PLACES) } else { rng.within(-4096, 4096) };
        let side = |rng: &mut Rng| if rng.within(0, 2) == 0 { rng.of(&SIDES) } else { rng.side() };
        let r = [place(rng), place(rng), side(rng), side(rng)];
        let k = if rng.within(0, 1) == 0 { rng.of(&OFFSETS) } else { rng.within(-256, 256) };
        chosen.plain(&on_rectangle(n % 5, r, k), 4);
        chosen.plain(&Plain::Range(place(rng), place(rng), place(rng)), 2);
        chosen.plain(&Plain::Widths(rng.within(0, 256), rng.within(0, 2)), 2);
    }
}

// ---- calls of which some are stored ----

/// The generators of the comparison at scale, the exhaustive ones thinned.
fn thinned(r: &mut Held, rng: &mut Rng) {
    let styles = styles();
    let mut at = 0;
    let mut every = move |n: usize| {
        at += 1;
        at % n == 0
    };
    compare::small_ellipses(|f| {
        if every(31) {
            r.small_figure(f)
        }
    });
    compare::small_equal_boxes(|f| {
        if every(823) {
            r.small_figure(f)
        }
    });
    let mut at = 0;
    let mut both = |r: &mut Held, f: &Figure, n: usize| {
        at += 1;
        if at % n == 0 {
            r.both_rules(f, at, &styles);
        }
    };
    compare::small_equal_boxes(|f| both(r, f, 211));
    compare::tiny_boxes(|f| both(r, f, 2003));
    compare::small_pairs(|_, f| both(r, f, 30011));
    for w in (0..=1024).step_by(73) {
        for h in (0..=1024).step_by(61) {
            r.first_row(&ellipse(-7, 11, w, h));
            r.first_row(&crate_box(3, -5, w, h, [(w, h), (0, 0), (0, 0), (0, 0)]));
        }
    }
    each_number_of_a_sheet(r, rng, 11);
    for at in 0..ROUNDS {
        round(r, rng, at);
    }
}

/// How many random rounds are made.
const ROUNDS: u64 = 12;

pub fn run(folder: &str) {
    let mut r = Held::default();
    r.chosen = Some(Chosen { always: true, ..Chosen::default() });
    let mut rng = Rng(1);
    assert!(compare::fixed_as_said(), "oracle: a fixed case does not come out as it stands in compare.rs");
    FIXED.iter().for_each(|(f, asked, _)| ask(&mut r, f, asked));
    for (f, ..) in FRACTIONS {
        for kind in [Kind::Crate, Kind::W3c] {
            ask(&mut r, &Figure { kind, ..*f }, &Ask::Confine);
        }
    }
    NOTHING_TO_TEST.iter().for_each(|f| r.row(&figure_numbers(f), f.y as i32, 2));
    limits(&mut r);
    rooms(&mut r);
    sheets(&mut r);
    lists(&mut r);
    removals(&mut r);
    removing_lists(&mut r);
    packed(&mut r);
    read(&mut r);
    plain_limits(r.chosen.as_mut().unwrap());
    r.chosen.as_mut().unwrap().always = false;
    thinned(&mut r, &mut rng);
    let mut chosen = r.chosen.take().unwrap();
    plain_at_random(&mut chosen, &mut rng);
    write(&chosen, folder);
    r.print();
}

// ---- what is written ----

const REMARKS: [&str; 2] = [
    "# Calls and what each must answer, made by `sh oracle/stored.sh`: the original Rust's own answer where it finishes,",
    "# else the reference's, never the library's. oracle/README.md has the form of a line and how these were chosen.",
];

/// The distinct lines of a call, by class; how many there are is printed, and each number that it can answer must be there.
fn lines_of(chosen: &Chosen, at: usize) -> Vec<Line> {
    let (call, _, numbers, _) = CALLS[at];
    let mut told: BTreeMap<&str, &str> = BTreeMap::new();
    let mut counts: BTreeMap<u32, usize> = BTreeMap::new();
    let mut by_original = 0;
    let mut lines = Vec::new();
    for (class, kept) in chosen.classes.iter().filter(|(class, _)| class.call == at) {
        for line in kept.lines() {
            if let Some(other) = told.insert(&line.0, &line.1) {
                assert_eq!(other, line.1, "oracle: two answers to {}", line.0);
                continue;
            }
            *counts.entry(class.number).or_default() += 1;
            by_original += (class.number == DONE && !class.by_reference) as usize;
            lines.push(line.clone());
        }
    }
    println!("{call:<20} {:>5} stored, {by_original:>4} by the original, by answer {counts:?}", lines.len());
    if !counts.keys().eq(numbers) {
        println!("DIFFERENT: {call} is to be stored with the answers {numbers:?}");
        exit(1);
    }
    lines
}

fn write(chosen: &Chosen, folder: &str) {
    let remark = |text: &str| (text.to_string(), text.to_string());
    let mut lines: Vec<Line> = REMARKS.map(remark).to_vec();
    for (at, (call, what, ..)) in CALLS.iter().enumerate() {
        lines.push(remark(&format!("# {call}: {what}")));
        lines.extend(lines_of(chosen, at));
    }
    for (what, table) in [("# calls in other words", OTHER_WORDS), ("# lines that are no calls", NO_CALLS)] {
        lines.push(remark(what));
        lines.extend(table.iter().map(|(line, answer)| (line.to_string(), answer.to_string())));
    }
    let long = "row 0".to_string() + &"0".repeat(lines::LONGEST);
    lines.push((long, format!("error: a line of more than {} bytes", lines::LONGEST)));
    let file = |name: &str, side: fn(&Line) -> &String| {
        let text: String = lines.iter().map(|line| side(line).clone() + "\n").collect();
        println!("{folder}/{name}: {} lines, {} bytes", lines.len(), text.len());
        fs::write(format!("{folder}/{name}"), text).unwrap_or_else(|e| panic!("oracle: {folder}/{name}: {e}"));
    };
    file("stdin", |line| &line.0);
    file("stdout", |line| &line.1);
}
