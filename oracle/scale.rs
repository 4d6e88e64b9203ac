//! `oracle scale [SEED [EFFORT [SECONDS]]]`: the library that C and Rust programs link, held against the
//! original and the reference (held.rs) on millions of calls: exhaustive over small figures, random up to
//! the limits and beyond. EFFORT is the number of random rounds, 400 the standard run; after SECONDS no other
//! round is begun.

use crate::{
    asked::Ask,
    compare::{self, crate_box, ellipse, painted, styles, w3c_box, Rng, Script},
    files, findings,
    held::{By, Held, WRITE_P5},
    lines::{
        numbers,
        Argument::{Number, Numbers},
    },
    numbers::{call_numbers, figure_numbers, given_figure, opened, place_of, style_numbers, styled_numbers},
    original::Original,
    records::{first_lent, Answers, Figure, Kind, Style},
    reference::{self, area, stroke_area, Book, Call, Page, Reference},
    wunqaber::{self as library, CALL_LENGTH, CONFINED_LENGTH, FIGURE_LENGTH, NOTHING, SHEET_LENGTH},
};
use std::time::Instant;

impl Held {
    // ---- whole figures within the limits ----

    /// Every row, and one above and below.
    fn rows(&mut self, f: &Figure) {
        let n = figure_numbers(f);
        let a = area(f, 0);
        let reference = || a.rows().map(|y| a.row(y).map(|(start, end)| (y, start, end)).unwrap()).collect();
        let (rows, by): (Vec<_>, By) = self.by(f, Ask::Row(f.y + f.h - 1), || Original.rows(f), reference);
        for y in f.y - 1..=f.y + f.h {
            let row = rows.get((y - f.y) as usize).filter(|_| y >= f.y);
            let wanted = row.map(|(at, start, end)| ([*at as i32, *start as i32, *end as i32], by)).ok_or(NOTHING);
            self.values("row", 4, wanted, |out| library::row(&n, y as i32, out), &[Numbers(&n), Number(y)]);
        }
    }

    /// Every point of the rectangle and of a margin.
    fn contains_all(&mut self, f: &Figure, margin: i64) {
        let n = figure_numbers(f);
        for y in f.y - margin..f.y + f.h + margin {
            for x in f.x - margin..f.x + f.w + margin {
                self.contains(&n, x as i32, y as i32, 1);
            }
        }
    }

    /// Every styled row, one above and below, and the styled bounding box.
    fn styled(&mut self, f: &Figure, s: &Style) {
        let (n, sn) = (figure_numbers(f), style_numbers(s));
        self.styled_bounding_box(&n, &sn, 4);
        let (stroke, fill) = (stroke_area(f, s), reference::fill_area(f, s));
        let (top, bottom) = (stroke.top_left().1, stroke.top_left().1 + stroke.sides().1);
        let reference = || {
            let runs = |y| reference::styled_row(&stroke, &fill, y).map(|runs| (y, runs)).unwrap();
            stroke.rows().map(runs).collect()
        };
        let last = Ask::StyledRow(*s, bottom - 1);
        let (rows, by): (Vec<_>, By) = self.by(f, last, || Original.srows(f, s), reference);
        for y in top - 1..=bottom {
            let row = rows.get((y - top) as usize).filter(|_| y >= top);
            let wanted = row.map(|(at, runs)| (styled_numbers(*at, runs), by)).ok_or(NOTHING);
            let make = |out: &mut [i32]| library::styled_row(&n, &sn, y as i32, out);
            self.values("styled_row", 8, wanted, make, &[Numbers(&n), Numbers(&sn), Number(y)]);
        }
    }

    /// The first row. The original is not asked where it is known to fail (findings.rs, which `compare`
    /// holds against it for every one of these figures).
    pub fn first_row(&mut self, f: &Figure) {
        let n = figure_numbers(f);
        let a = area(f, 0);
        let (row, by) = match findings::rows(&a) {
            true => (a.row(f.y).map(|(start, end)| (f.y, start, end)), By::Reference),
            false => (Original.first_row(f), By::Original),
        };
        let wanted = row.map(|(at, start, end)| ([at as i32, start as i32, end as i32], by)).ok_or(NOTHING);
        self.values("row", 3, wanted, |out| library::row(&n, f.y as i32, out), &[Numbers(&n), Number(f.y)]);
    }

    fn paint(&mut self, f: &Figure, s: &Style, w: i64, h: i64) {
        self.paint_figure(&figure_numbers(f), &style_numbers(s), w as u32, h as u32, (w * h) as usize);
    }

    /// All that is asked of a small figure: rows, tests, points, radii, every offset −8..8, every style,
    /// paints.
    pub fn small_figure(&mut self, f: &Figure) {
        let n = figure_numbers(f);
        self.rows(f);
        self.contains_all(f, 2);
        self.points(&n, 3, 1);
        self.points(&n, -1, 2);
        self.confined_radii(&n, CONFINED_LENGTH);
        for k in -8..=8 {
            self.offset(&n, k, FIGURE_LENGTH);
        }
        for s in styles() {
            self.styled(f, &s);
            for s in painted(&s) {
                self.paint(f, &s, 14, 13);
            }
        }
    }

    /// Less of it, with one offset and one style.
    fn quick_figure(&mut self, f: &Figure, k: i32, s: &Style) {
        let n = figure_numbers(f);
        self.rows(f);
        self.points(&n, 0, 1);
        self.confined_radii(&n, CONFINED_LENGTH);
        self.offset(&n, k, FIGURE_LENGTH);
        self.styled(f, s);
    }

    /// A W3C box offset by k, by the reference and by the second wording.
    fn w3c_offset(&mut self, f: &Figure, k: i64) {
        let n = figure_numbers(f);
        self.offset(&n, k as i32, FIGURE_LENGTH);
        let wanted = Ok((given_figure(&compare::offset_in_other_words(f, k)), By::Reference));
        let make = |out: &mut [i32]| library::offset(&n, k as i32, out);
        self.values("offset", FIGURE_LENGTH, wanted, make, &[Numbers(&n), Number(k)]);
    }

    /// A box by the crate's rule and by the W3C's, with the at-th offset and style.
    pub fn both_rules(&mut self, f: &Figure, at: usize, styles: &[Style]) {
        for kind in [Kind::Crate, Kind::W3c] {
            self.quick_figure(&Figure { kind, ..*f }, at as i32 % 9 - 4, &styles[at % styles.len()]);
        }
    }

    // ---- sheets ----

    /// A list of calls, one by one on a sheet and then as one list; the sheet as it stands in between
    /// with one number changed; and the same when all is painted.
    fn script(&mut self, mut script: Script, rng: &mut Rng) {
        let (w, h) = (script.w as u32, script.h as u32);
        let mut sheet = self.sheet_open(w, h, SHEET_LENGTH);
        let mut canvas = script.lent.clone();
        let mut done = 0;
        self.calls(&script, &mut done, &mut sheet, &mut canvas);
        for _ in 0..12 {
            self.changed_sheet(&sheet, &canvas, rng);
        }
        while let Some(answer) = script.paint_earliest() {
            assert_eq!(answer, 0, "oracle: the earliest figure with rows left is refused");
        }
        self.calls(&script, &mut done, &mut sheet, &mut canvas);
        self.changed_sheet(&sheet, &canvas, rng);
    }

    /// A list with removals, likewise; of every second all is painted then. Then layers are removed until none is left, and
    /// what lies under them is all that shows.
    fn removing_script(&mut self, mut script: Script, rng: &mut Rng) {
        let (w, h) = (script.w as u32, script.h as u32);
        let mut sheet = self.sheet_open(w, h, SHEET_LENGTH);
        let mut canvas = script.lent.clone();
        let mut done = 0;
        self.calls(&script, &mut done, &mut sheet, &mut canvas);
        self.changed_sheet(&sheet, &canvas, rng);
        if rng.within(0, 1) == 0 {
            while let Some(answer) = script.paint_earliest() {
                assert_eq!(answer, 0, "oracle: the earliest figure with rows left is refused");
            }
        }
        for _ in 0..script.removable() {
            let layer = script.any_layer(rng);
            script.note(Call::Remove(layer));
            self.calls(&script, &mut done, &mut sheet, &mut canvas);
        }
        if script.background.len() == script.lent.len() {
            let asked = || format!("the canvas without layers after {:?}", script.calls);
            let (wanted, found) = (&script.page.ground[..], &canvas[..]);
            self.hold("canvas without layers", Ok(By::Reference), wanted, (library::DONE, found), asked);
        }
    }

    /// The calls of a script that are not made yet, the answers those of the book; then the canvas by
    /// the original's pixels, layer by layer; then all calls as one list.
    fn calls(&mut self, script: &Script, done: &mut usize, sheet: &mut [i32], canvas: &mut [u8]) {
        let (w, h) = (script.w as u32, script.h as u32);
        for (call, noted) in script.calls.iter().zip(&script.answers).skip(*done) {
            let answer = match call {
                Call::Add(f, s) => self.sheet_add(sheet, &figure_numbers(f), &style_numbers(s)),
                Call::Paint(layer) => self.sheet_paint(sheet, *layer as u32, canvas),
                Call::Remove(layer) => self.sheet_remove(sheet, *layer as u32, canvas, &script.background),
            };
            let asked = || format!("the book's answer to the last of {:?}", script.calls);
            self.hold("sheet calls by book", Ok(By::Reference), *noted, (library::DONE, answer), asked);
        }
        *done = script.calls.len();
        self.canvas_by_pixels(&script.page, script.w, script.h, canvas);
        let numbers: Vec<i32> = script.calls.iter().flat_map(|c| call_numbers(c, -7)).collect();
        self.run_calls(w, h, &numbers, &script.lent, &script.background, script.calls.len());
    }

    /// The canvas of a sheet and as the book has it: over what lies under them the figures in the order of
    /// adding, of each the original's pixels (the reference's for a W3C box, and where the original fails) on
    /// the rows that it has painted.
    fn canvas_by_pixels(&mut self, page: &Page, w: i64, h: i64, canvas: &[u8]) {
        let (book, mut bytes) = (&page.book, page.ground.clone());
        let mut all_by = By::Original;
        for (i, (f, s)) in book.figures().enumerate() {
            let on = |by: &dyn Answers| {
                let mut whole = bytes.clone();
                by.paint(f, s, w, h, &mut whole);
                whole
            };
            let (whole, by) = self.by(f, Ask::Paint(*s, w, h), || on(&Original), || on(&Reference));
            if by == By::Reference {
                all_by = by;
            }
            let seen = book.painted(i);
            for y in seen.start.max(0)..seen.end.min(h) {
                let row = (y * w) as usize..(y * w + w) as usize;
                bytes[row.clone()].copy_from_slice(&whole[row]);
            }
        }
        let figures = || book.figures().collect::<Vec<_>>();
        let asked = || format!("canvas {w} {h} {:?} painted with {:?}", page.ground, figures());
        self.hold("canvas by pixels", Ok(all_by), &bytes[..], (library::DONE, canvas), asked);
    }

    /// A sheet with one of its numbers changed, or its length: added to, painted, and a layer removed.
    fn changed_sheet(&mut self, sheet: &[i32], canvas: &[u8], rng: &mut Rng) {
        let mut changed = sheet.to_vec();
        let used = place_of(sheet[2].max(1) as usize) as i64;
        let at = match rng.within(0, 6) {
            0 => rng.within(0, 2),
            1 => rng.within(0, SHEET_LENGTH as i64 - 1),
            // a next row
            2 | 3 => place_of(rng.within(0, sheet[2].max(1) as i64 - 1) as usize) as i64 + 17,
            _ => rng.within(3, used - 1),
        } as usize;
        changed[at] = if rng.within(0, 1) == 0 { odd(rng) } else { changed[at].wrapping_add(rng.within(-3, 3) as i32) };
        match rng.within(0, 40) {
            0 => changed.truncate(SHEET_LENGTH - 1),
            1 => changed.push(0),
            _ => {}
        }
        self.given_sheet(&changed, canvas, rng);
    }

    fn given_sheet(&mut self, sheet: &[i32], canvas: &[u8], rng: &mut Rng) {
        let (f, s) = rng.layer(true);
        self.sheet_add(&mut sheet.to_vec(), &figure_numbers(&f), &style_numbers(&s));
        let layer = if rng.within(0, 9) == 0 { odd(rng) } else { rng.within(0, 7) as i32 };
        self.sheet_paint(&mut sheet.to_vec(), layer as u32, &mut canvas.to_vec());
        self.any_removal(sheet, canvas, &mut rng.apart());
    }

    /// Canvas and background may have another length, and the layer need not be there.
    fn any_removal(&mut self, sheet: &[i32], canvas: &[u8], rng: &mut Rng) {
        let length = |rng: &mut Rng| {
            let fits = canvas.len() as i64;
            if rng.within(0, 11) == 0 { rng.of(&[0, 1, fits - 1, fits + 1, 2 * fits]) } else { fits }
        };
        let mut canvas = canvas.to_vec();
        canvas.resize(length(rng) as usize, 7);
        let under = length(rng);
        let background = rng.pattern(under);
        let layer = if rng.within(0, 9) == 0 { odd(rng) } else { rng.within(0, 7) as i32 };
        self.sheet_remove(&mut sheet.to_vec(), layer as u32, &mut canvas, &background);
    }
}

/// How many lists with removals are made before the random rounds.
const LISTS_WITH_REMOVALS: u64 = 2000;

/// How many random rounds are made at least.
const LEAST_ROUNDS: u64 = 20;

/// At limits, one past them, and at the type's ends.
#[rustfmt::skip]
const LIMITS: [i64; 30] = [
    -8193, -8192, -4097, -4096, -257, -256, -2, -1, 0, 1, 2, 3, 4, 15, 16, 17, 255, 256, 257, 1023, 1024, 1025, 4095,
    4096, 4097, 8192, 8193, i32::MAX as i64, i32::MIN as i64, i32::MIN as i64 + 1,
];

/// One of these, or any number.
fn odd(rng: &mut Rng) -> i32 {
    let v = match rng.within(0, 5) {
        0 => rng.within(i32::MIN as i64, i32::MAX as i64),
        1 => rng.within(-20, 20),
        2 => rng.within(-9000, 9000),
        _ => rng.of(&LIMITS),
    };
    v as i32
}

/// A figure up to the limits, of any kind.
fn any_figure(rng: &mut Rng) -> Figure {
    let f = rng.figure(7);
    match f.kind {
        Kind::Crate if rng.within(0, 2) == 0 => Figure { kind: Kind::W3c, ..f },
        _ => f,
    }
}

/// Numbers with some changed, and now and then one too few or too many.
fn spoilt(rng: &mut Rng, numbers: &[i32]) -> Vec<i32> {
    let mut n = numbers.to_vec();
    for _ in 0..rng.of(&[0, 0, 1, 1, 1, 2, 3]) {
        let at = rng.within(0, n.len() as i64 - 1) as usize;
        n[at] = odd(rng);
    }
    match rng.within(0, 60) {
        0 => n.truncate(n.len() - 1),
        1 => n.push(0),
        2 => n.clear(),
        _ => {}
    }
    n
}

/// Mostly a length that does, else one too short or none at all.
fn some_room(rng: &mut Rng, needed: i64) -> usize {
    rng.of(&[needed, needed, needed, needed + 1, 20, needed - 1, 0]) as usize
}

/// Every call on numbers that may be beyond the limits or no record.
fn any_numbers(r: &mut Held, rng: &mut Rng) {
    let f = figure_numbers(&any_figure(rng));
    let s = style_numbers(&rng.style());
    let (n, s) = (spoilt(rng, &f), spoilt(rng, &s));
    let near = |rng: &mut Rng, at: usize| match rng.within(0, 2) {
        0 => odd(rng),
        _ => rng.near(f[at] as i64, f[at + 2] as i64) as i32,
    };
    let (x, y, k) = (near(rng, 1), near(rng, 2), odd(rng));
    r.contains(&n, x, y, some_room(rng, 1));
    r.row(&n, y, some_room(rng, 3));
    r.offset(&n, k, some_room(rng, 13));
    r.offset(&n, rng.within(-256, 256) as i32, some_room(rng, 5));
    r.confined_radii(&n, some_room(rng, CONFINED_LENGTH as i64));
    r.ellipse_with_center(x, y, side(rng), side(rng), some_room(rng, 5));
    r.styled_row(&n, &s, y, some_room(rng, 7));
    r.styled_bounding_box(&n, &s, some_room(rng, 4));
}

/// A side that need not be one.
fn side(rng: &mut Rng) -> u32 {
    match rng.within(0, 3) {
        0 => odd(rng) as u32,
        _ => rng.side() as u32,
    }
}

/// A canvas side and length that need not fit.
fn any_canvas(rng: &mut Rng) -> (u32, u32, usize) {
    let one = |rng: &mut Rng| match rng.within(0, 9) {
        0 => rng.of(&[0, 1024, 1025, u32::MAX as i64, 1 << 31, 1 << 16]) as u32,
        _ => rng.within(1, 40) as u32,
    };
    let (w, h) = (one(rng), one(rng));
    let fits = (w as u64 * h as u64).min(1 << 20) as i64;
    let length = match rng.within(0, 9) {
        0 => rng.of(&[0, fits - 1, fits + 1, 7]).max(0),
        _ => fits,
    };
    (w, h, length as usize)
}

/// Canvases, sheets, lists and files that may be refused.
fn any_buffers(r: &mut Held, rng: &mut Rng) {
    let (w, h, length) = any_canvas(rng);
    let f = Figure { x: rng.within(-30, 40), y: rng.within(-30, 40), ..any_figure(rng) };
    let (n, s) = (spoilt(rng, &figure_numbers(&f)), style_numbers(&rng.style()));
    let s = spoilt(rng, &s);
    r.paint_figure(&n, &s, w, h, length);
    r.sheet_open(w, h, rng.of(&[291, 291, 292, 290, 0, 400]) as usize);
    let seed = rng.within(0, 255);
    let canvas = first_lent(length as i64, 1, Some(seed));
    r.write(&WRITE_P5, w, h, &canvas, rng.of(&[0, 0, 0, 5, -1, -20]), some_room(rng, 1).min(4));
    let small = match rng.within(0, 2) {
        0 => figure_numbers(&rng.small_box()),
        1 => figure_numbers(&rng.narrow_box(seed as u64)),
        _ => figure_numbers(&ellipse(rng.within(-9, 9), 0, rng.within(0, 40), rng.within(0, 40))),
    };
    let small = spoilt(rng, &small);
    r.points(&small, rng.of(&[0, 0, 3, -1, -2, -9999]), some_room(rng, 1).min(4));
    let script = rng.script(seed as u64);
    let mut numbers: Vec<i32> = script.calls.iter().flat_map(|c| call_numbers(c, odd(rng))).collect();
    for _ in 0..rng.of(&[0, 1, 1, 2]) {
        if !numbers.is_empty() {
            let at = rng.within(0, numbers.len() as i64 - 1) as usize;
            numbers[at] = odd(rng);
        }
    }
    if rng.within(0, 9) == 0 {
        numbers.truncate(rng.within(0, numbers.len() as i64) as usize);
    }
    let room = script.calls.len() + rng.of(&[0, 0, 0, 2]) as usize;
    let room = if rng.within(0, 9) == 0 { rng.within(0, room as i64) as usize } else { room };
    // a list without removals needs no background
    match rng.within(0, 4) {
        0 => r.run_calls(w, h, &numbers, &canvas, &[], room),
        _ => r.run_calls(script.w as u32, script.h as u32, &numbers, &script.lent, &[], room),
    }
    any_removing_list(r, &mut rng.apart(), seed as u64);
}

/// A list with removals that may be refused, or have something in it that is no call.
fn any_removing_list(r: &mut Held, rng: &mut Rng, n: u64) {
    let script = rng.removing_script(n);
    let mut numbers: Vec<i32> = script.calls.iter().flat_map(|c| call_numbers(c, odd(rng))).collect();
    for _ in 0..rng.of(&[0, 0, 1, 2]) {
        let at = rng.within(0, script.calls.len() as i64 - 1) as usize * CALL_LENGTH;
        match rng.within(0, 2) {
            0 => numbers[at] = rng.of(&[-1, 0, 1, 2, 2, 2, 3, 4]) as i32,
            1 => numbers[at + 1] = odd(rng),
            _ => numbers[at + rng.within(0, 19) as usize] = odd(rng),
        }
    }
    let (w, h) = (script.w as u32, script.h as u32);
    let mut lent = script.lent.clone();
    if rng.within(0, 9) == 0 {
        // 8 for the canvas, also where the background has its length
        lent.push(0);
    }
    let background = match rng.within(0, 3) {
        0 => &lent,
        _ => &script.background,
    };
    let room = script.calls.len() as i64 + rng.of(&[0, 0, 0, 0, 1, -1]);
    r.run_calls(w, h, &numbers, &lent, background, room as usize);
}

/// A sheet with 16 layers, some rows of them painted, and each of its numbers, or every so many-th, changed to each limit.
pub fn each_number_of_a_sheet(r: &mut Held, rng: &mut Rng, step: usize) {
    let mut sheet = opened(20, 20).to_vec();
    let mut canvas = first_lent(20, 20, Some(3));
    for i in 0..16 {
        let f = match i % 3 {
            0 => ellipse(i, i, 7, 5),
            1 => crate_box(i - 4, 12 - i, 6, 8, [(2, 3); 4]),
            _ => w3c_box(3, i, 9, 4, [(1, 1), (2, 2), (9, 9), (0, 0)]),
        };
        let style = Style { stroke: Some(i as u8), fill: (i % 2 == 0).then_some(200), width: i % 4, align: i % 3 };
        r.sheet_add(&mut sheet, &figure_numbers(&f), &style_numbers(&style));
    }
    for _ in 0..60 {
        r.sheet_paint(&mut sheet, rng.within(0, 15) as u32, &mut canvas);
    }
    for count in [16, 7] {
        sheet[2] = count;
        for at in (0..SHEET_LENGTH).step_by(step) {
            for limit in LIMITS {
                let mut changed = sheet.clone();
                changed[at] = limit as i32;
                r.given_sheet(&changed, &canvas, rng);
            }
        }
    }
}

/// Every sheet of three small boxes with rows on, above and below a canvas 3 by 3, each with every next row, and each of their
/// layers removed. Some break the rules.
fn small_sheets(r: &mut Held) {
    let boxes: Vec<(i64, i64)> = (-1..=2).flat_map(|y| (0..=2).map(move |h| (y, h))).collect();
    let (canvas, background) = (first_lent(3, 3, Some(50)), first_lent(3, 3, Some(101)));
    let mut sheet = opened(3, 3).to_vec();
    sheet[2] = 3;
    let put = |sheet: &mut [i32], layer: usize, (y, h): (i64, i64), next: i64| {
        let f = crate_box(layer as i64 - 1, y, 2, h, [(0, 0); 4]);
        let s = Style { stroke: None, fill: Some(layer as u8 + 1), width: 0, align: 1 };
        let place = &mut sheet[place_of(layer)..place_of(layer + 1)];
        place[..13].copy_from_slice(&figure_numbers(&f));
        place[13..17].copy_from_slice(&style_numbers(&s));
        place[17] = next as i32;
    };
    for first in &boxes {
        for second in &boxes {
            for third in &boxes {
                let rows = |(y, h): &(i64, i64)| *y..=y + h;
                for (a, b) in rows(first).flat_map(|a| rows(second).map(move |b| (a, b))) {
                    for c in rows(third) {
                        put(&mut sheet, 0, *first, a);
                        put(&mut sheet, 1, *second, b);
                        put(&mut sheet, 2, *third, c);
                        for layer in 0..4 {
                            r.sheet_remove(&mut sheet.clone(), layer, &mut canvas.clone(), &background);
                        }
                    }
                }
            }
        }
    }
}

/// Figures up to the limits.
fn large(r: &mut Held, rng: &mut Rng, n: u64) {
    let f = any_figure(rng);
    let s = rng.style();
    let numbers = figure_numbers(&f);
    r.rows(&f);
    r.confined_radii(&numbers, CONFINED_LENGTH);
    r.styled(&f, &s);
    for k in [rng.within(-256, 256), rng.within(-6, 6), 256, -256] {
        r.offset(&numbers, k as i32, FIGURE_LENGTH);
    }
    for _ in 0..24 {
        r.contains(&numbers, rng.near(f.x, f.w) as i32, rng.near(f.y, f.h) as i32, 1);
    }
    if n % 8 == 0 {
        r.points(&numbers, rng.of(&[0, 1, -1]), 1);
    }
    if n % 2 == 1 {
        let (w, h) = if n % 32 == 1 { (1024, rng.within(1, 1024)) } else { (rng.within(1, 90), rng.within(1, 90)) };
        // so that the canvas shows some of it
        let seen = Figure { x: rng.within(-f.w, w).max(-4096), y: rng.within(-f.h, h).max(-4096), ..f };
        r.paint(&seen, &s, w, h);
    }
}

/// Boxes of which some edges are equal, by both rules: the radii with L and S, into a list that may be too short; of every
/// eighth, which are small, the rest too.
fn equal_edges(r: &mut Held, rng: &mut Rng, styles: &[Style], count: usize) {
    for n in 0..count {
        if n % 8 == 0 {
            r.both_rules(&rng.equal_edges(20), n / 8, styles);
            continue;
        }
        let f = rng.equal_edges(1024);
        for kind in [Kind::Crate, Kind::W3c] {
            let room = CONFINED_LENGTH as i64 + rng.of(&[0, 0, 0, 0, 1, 2, -1, -2]);
            r.confined_radii(&figure_numbers(&Figure { kind, ..f }), room as usize);
        }
    }
}

/// W3C boxes grown by every k from 0 to 256, with every radius number from 0 to 256, eight at a time and none reduced; and at
/// random up to the limits, outward and inward, with corners that collide too.
fn w3c_offsets(r: &mut Held, rng: &mut Rng, count: usize) {
    for k in 0..=256 {
        for first in (0..=256).step_by(8) {
            let pair = |at: i64| ((first + at).min(256), (first + at + 1).min(256));
            r.w3c_offset(&w3c_box(-5, 7, 1024, 1000, [pair(0), pair(2), pair(4), pair(6)]), k);
        }
    }
    for n in 0..count {
        let f = match n % 4 {
            0 => crate_box(0, 0, 1024, 1024, [(); 4].map(|()| (rng.within(0, 512), rng.within(0, 512)))),
            1 => rng.small_box(),
            _ => rng.figure(10),
        };
        r.w3c_offset(&Figure { kind: Kind::W3c, ..f }, rng.within(-64, 256));
    }
}

/// A sheet with a few figures up to the limits, painted to the end in random order.
fn large_sheet(r: &mut Held, rng: &mut Rng) {
    let (w, h) = (rng.within(1, 300), rng.within(1, 200));
    let mut sheet = opened(w as u32, h as u32).to_vec();
    let lent = first_lent(w, h, Some(77));
    let mut page = Page::open(w, h, &lent);
    let mut canvas = lent.clone();
    for _ in 0..3 {
        add_large(r, rng, &mut sheet, &mut page);
    }
    while page.book.earliest().is_some() {
        // some rows of one layer after another
        let layer = rng.within(0, 2) as usize;
        paint_rows(r, &mut sheet, &mut page.book, layer, rng.within(1, 40), &mut canvas);
    }
    r.canvas_by_pixels(&page, w, h, &canvas);
}

fn add_large(r: &mut Held, rng: &mut Rng, sheet: &mut [i32], page: &mut Page) {
    let (w, h) = (sheet[0] as i64, sheet[1] as i64);
    let f = any_figure(rng);
    let f = Figure { x: rng.within(-f.w, w), y: rng.within(-f.h, h), ..f };
    let s = rng.style();
    let answer = r.sheet_add(sheet, &figure_numbers(&f), &style_numbers(&s));
    assert_eq!(answer, page.book.call(&Call::Add(f, s)), "a figure within the limits is added");
}

/// So many calls for one layer, some of which may be refused; each answer also by the book.
fn paint_rows(r: &mut Held, sheet: &mut [i32], book: &mut Book, layer: usize, count: i64, canvas: &mut [u8]) {
    for _ in 0..count {
        let answer = r.sheet_paint(sheet, layer as u32, canvas);
        let noted = book.call(&Call::Paint(layer));
        r.hold("sheet calls by book", Ok(By::Reference), noted, (library::DONE, answer), || {
            format!("the book's answer to layer {layer} painted on {}", numbers(sheet))
        });
    }
}

/// A sheet with a few figures up to the limits, from which layers are removed in the middle of painting until none is left.
fn large_removals(r: &mut Held, rng: &mut Rng) {
    let (w, h) = (rng.within(1, 300), rng.within(1, 200));
    let mut sheet = opened(w as u32, h as u32).to_vec();
    let lent = rng.pattern(w * h);
    let mut page = Page::open(w, h, &lent);
    let mut canvas = lent.clone();
    for _ in 0..3 {
        add_large(r, rng, &mut sheet, &mut page);
    }
    while sheet[2] > 0 {
        let last = sheet[2] as i64 - 1;
        for _ in 0..rng.within(0, 6) {
            let layer = rng.within(0, last) as usize;
            paint_rows(r, &mut sheet, &mut page.book, layer, rng.within(1, 400), &mut canvas);
        }
        let layer = rng.within(0, last) as usize;
        let answer = r.sheet_remove(&mut sheet, layer as u32, &mut canvas, &lent);
        assert_eq!(answer, page.call(&Call::Remove(layer), &lent), "a layer that is there is removed");
        r.canvas_by_pixels(&page, w, h, &canvas);
    }
}

/// One round of the random parts.
pub fn round(r: &mut Held, rng: &mut Rng, at: u64) {
    for n in 0..150 {
        let (f, s) = (rng.small_box(), rng.small_style(4));
        for f in [f, Figure { kind: Kind::W3c, ..f }] {
            r.quick_figure(&f, rng.within(-8, 8) as i32, &s);
            r.paint(&f, &s, 12, 11);
            if n % 4 == 0 {
                r.contains_all(&f, 1);
            }
        }
    }
    for n in 0..20 {
        let (f, s) = (rng.narrow_box(n), rng.small_style(5));
        for f in [f, Figure { kind: Kind::W3c, ..f }] {
            r.quick_figure(&f, rng.within(-8, 8) as i32, &s);
            r.paint(&f, &s, 30, 40);
            if n % 4 < 2 {
                r.contains_all(&f, 0);
            }
        }
    }
    for _ in 0..300 {
        let f = figure_numbers(&any_figure(rng));
        r.confined_radii(&f, CONFINED_LENGTH);
        r.offset(&f, rng.within(-256, 256) as i32, FIGURE_LENGTH);
        r.ellipse_with_center(rng.within(-5000, 5000) as i32, rng.within(-20, 20) as i32, side(rng), side(rng), 5);
    }
    for n in 0..16 {
        large(r, rng, 16 * at + n);
    }
    for _ in 0..300 {
        any_numbers(r, rng);
    }
    for _ in 0..40 {
        any_buffers(r, rng);
    }
    for n in 0..10 {
        let script = rng.script(10 * at + n);
        r.script(script, rng);
    }
    if at % 4 == 0 {
        large_sheet(r, rng);
    }
    let mut apart = rng.apart();
    for n in 0..4 {
        let script = apart.removing_script(4 * at + n);
        r.removing_script(script, &mut apart);
    }
    if at % 4 == 0 {
        large_removals(r, &mut apart);
    }
}

pub fn run(seed: u64, effort: u64, seconds: u64) {
    let start = Instant::now();
    let mut r = Held::default();
    let mut rng = Rng(seed);
    let mut part = |name: &str, run: &mut dyn FnMut(&mut Held)| {
        let (at, before) = (Instant::now(), r.compared());
        run(&mut r);
        let count = r.compared() - before;
        let (all, own) = (start.elapsed().as_secs_f64(), at.elapsed().as_secs_f64());
        println!("[{all:6.1} s] {name}: {own:.1} s, {count} comparisons");
        assert!(count > 0, "oracle: nothing was compared in '{name}'");
    };
    let styles = styles();
    part("ellipses, sides 0..12, all styles", &mut |r| compare::small_ellipses(|f| r.small_figure(f)));
    part("boxes, sides 0..12, equal corners 0..6, all styles", &mut |r| {
        compare::small_equal_boxes(|f| r.small_figure(f))
    });
    part("boxes, sides 0..12, equal corners 0..6, both rules", &mut |r| {
        let mut at = 0;
        compare::small_equal_boxes(|f| {
            at += 1;
            r.both_rules(f, at, &styles);
        })
    });
    part("boxes, sides 0..4, all radii 0..2, both rules", &mut |r| {
        let mut at = 0;
        compare::tiny_boxes(|f| {
            at += 1;
            r.both_rules(f, at, &styles);
        })
    });
    part("boxes, sides 0..12, any two corners 0..6, both rules, every 13th", &mut |r| {
        compare::small_pairs(|at, f| {
            if at % 13 == 0 {
                r.both_rules(f, at / 13, &styles);
            }
        })
    });
    part("boxes with equal edges, both rules", &mut |r| equal_edges(r, &mut Rng(seed), &styles, 100_000));
    part("W3C boxes grown, radii and k 0..256, and at random", &mut |r| w3c_offsets(r, &mut Rng(seed), 200_000));
    part("first row of all ellipse sizes and of all top-left corners", &mut |r| {
        for w in 0..=reference::MAX_SIDE {
            for h in 0..=reference::MAX_SIDE {
                r.first_row(&ellipse(-7, 11, w, h));
                r.first_row(&crate_box(3, -5, w, h, [(w, h), (0, 0), (0, 0), (0, 0)]));
            }
        }
    });
    part("a sheet, each of its numbers at each limit", &mut |r| each_number_of_a_sheet(r, &mut rng, 1));
    part("every sheet of three small boxes, each layer removed", &mut small_sheets);
    part("lists with removals", &mut |r| {
        let mut rng = Rng(seed).apart();
        for n in 0..LISTS_WITH_REMOVALS {
            let script = rng.removing_script(n);
            r.removing_script(script, &mut rng);
        }
    });
    let mut of_files = Rng(seed);
    part("canvases of every width as files, read back", &mut |r| files::written(r, &mut of_files));
    part("canvases as files, some refused", &mut |r| files::written_or_refused(r, &mut of_files, 50_000));
    part("good files", &mut |r| files::good(r, &mut of_files, 100_000));
    part("files with the largest sides", &mut |r| files::large(r, &mut of_files));
    part("files damaged at each byte", &mut |r| files::damaged(r, &mut of_files, 600));
    part("files with all short headers", &mut |r| files::short_headers(r, &mut of_files));
    part("files with headers at random", &mut |r| files::headers(r, &mut of_files, 1_000_000));
    let mut rounds = 0;
    let first_round = Instant::now();
    part("random rounds", &mut |r| {
        // some rounds are made however slow the machine is
        while rounds < effort && (rounds < LEAST_ROUNDS || first_round.elapsed().as_secs() < seconds) {
            round(r, &mut rng, rounds);
            rounds += 1;
        }
    });
    println!("seed {seed}, {rounds} random rounds of {effort}");
    // the parts with files, and those with removals, are as long however slow the machine is
    r.each_answer_met(|call| match call {
        "write_p4" | "read_netpbm" => 1000,
        "sheet_remove" => 100,
        _ => 1,
    });
    r.each_decision_met(1000);
    r.each_removal_met(100);
    r.print();
}
