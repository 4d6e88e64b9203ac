//! The library that C and Rust programs link (include/wunqaber.h), held call by call against what it must
//! answer, on any numbers: 100, 101 and the lowest refusal by the header and the reference; values by the
//! ORIGINAL where it finishes, else by the reference, which also has what the original lacks (W3C boxes, L and S of
//! confined radii, sheets, lists of calls, files). Answers, values and every number and byte of every buffer are
//! compared, with some right behind the part that is lent for values, and for files and removals before it too; after a refusal none
//! may differ. The first difference is printed whole, with the call as a line that `replay` reads, and ends the program
//! with status 1.

use crate::{
    asked::Ask::{self, *},
    compare::{Decisions, Removals, Report},
    lines::{
        self,
        Argument::{self, Bytes, Number, Numbers},
    },
    netpbm,
    numbers::{
        confined_numbers, given_figure, opened, place_of, read_calls, read_figure, read_sheet, read_style, style_numbers,
        styled_numbers,
    },
    original::Original,
    records::{attempt, first_lent, lowest, Answers, Figure, Kind},
    reference::{
        self, asked_refusal, canvas_refusal, figure_refusal, offset_refusal, style_refusal, Confined, Lent, Reference,
        Sheet,
    },
    stored::{Chosen, CALLS, CALLS_OF_C},
    wunqaber::{self as library, CALL_LENGTH, CONFINED_LENGTH, LAYER_LENGTH, NOTHING, NO_RECORD, SHEET_LENGTH},
};
use std::{collections::BTreeMap, fmt::Debug, process::exit};

/// Who says what a call must answer.
#[derive(Clone, Copy, PartialEq)]
pub enum By {
    Original,
    Reference,
}

/// What a call must answer: values, and who says so; or another number than 0.
pub type Wanted<T> = Result<(T, By), u32>;

#[derive(Default)]
struct Counts {
    original: u64,
    reference: u64,
    /// the answers other than 0, by number
    refused: BTreeMap<u32, u64>,
}

impl Counts {
    /// How often a number was answered.
    fn of(&self, number: u32) -> u64 {
        match number {
            library::DONE => self.original + self.reference,
            _ => self.refused.get(&number).copied().unwrap_or(0),
        }
    }

    fn all_refused(&self) -> u64 {
        self.refused.values().sum()
    }

    fn all(&self) -> u64 {
        self.of(library::DONE) + self.all_refused()
    }
}

#[derive(Default)]
pub struct Held {
    counts: BTreeMap<&'static str, Counts>,
    /// where the original does not finish
    panics: Report,
    /// the boxes whose radii, L and S were compared
    decisions: Decisions,
    /// the layers that were removed, and the lists with removals
    removals: Removals,
    /// calls for `replay`, if any are to be stored
    pub chosen: Option<Chosen>,
}

/// Stands in a buffer before a call; nothing writes it.
pub const MARK: i32 = 0x5a5a_5a5a;
pub const BYTE_MARK: u8 = 0x5a;
/// A buffer for values, as it is lent.
pub const LENT: [i32; 24] = [MARK; 24];

fn too_short(needed: usize, room: usize) -> Option<u32> {
    (room < needed).then_some(library::BUFFER_LENGTH)
}

fn wrong_length(w: u32, h: u32, length: usize) -> Option<u32> {
    (w as u64 * h as u64 != length as u64).then_some(library::CANVAS_LENGTH)
}

impl Held {
    /// A call: its answer and buffers, as they must be and as they are. `asked` has its arguments, and `after` what its
    /// lists must hold then.
    fn call<'a, B: PartialEq + Debug>(
        &mut self,
        call: &'static str,
        by: Result<By, u32>,
        wanted: B,
        found: (u32, B),
        asked: impl Fn() -> Vec<Argument<'a>>,
        after: impl Fn() -> Vec<Argument<'a>>,
    ) {
        self.hold(call, by, wanted, found, || lines::query(call, &asked()));
        if let Some(chosen) = &mut self.chosen {
            chosen.offer(call, by, &asked(), &after());
        }
    }

    /// Answer and buffers, as they must be and as they are.
    pub fn hold<B: PartialEq + Debug>(
        &mut self,
        call: &'static str,
        by: Result<By, u32>,
        wanted: B,
        found: (u32, B),
        asked: impl Fn() -> String,
    ) {
        let number = by.err().unwrap_or(library::DONE);
        if found.0 != number || found.1 != wanted {
            println!("DIFFERENT: {}", asked());
            let expected = format!("answer {number}, buffers {wanted:?}");
            let found = format!("answer {}, buffers {:?}", found.0, found.1);
            println!("expected: {expected}");
            println!("found: {found}");
            let same = expected.bytes().zip(found.bytes()).take_while(|(a, b)| a == b).count();
            let part = |text: &str| text[same.saturating_sub(20)..(same + 20).min(text.len())].to_string();
            println!("that is, where they part: '{}' expected, '{}' found", part(&expected), part(&found));
            exit(1);
        }
        let counts = self.counts.entry(call).or_default();
        match by {
            Ok(By::Original) => counts.original += 1,
            Ok(By::Reference) => counts.reference += 1,
            Err(number) => *counts.refused.entry(number).or_default() += 1,
        }
    }

    /// How many comparisons were made.
    pub fn compared(&self) -> u64 {
        self.counts.values().map(Counts::all).sum()
    }

    /// A call that gives numbers, into the first `room` of a longer buffer. That this is too short comes
    /// last, after 'nothing there'.
    pub fn values<V: AsRef<[i32]>>(
        &mut self,
        call: &'static str,
        room: usize,
        wanted: Wanted<V>,
        make: impl FnOnce(&mut [i32]) -> u32,
        given: &[Argument],
    ) {
        let mut out = LENT;
        let answer = make(&mut out[..room]);
        let (by, all) = given_room(wanted, room);
        let with = |out| [given, &[Numbers(out)]].concat();
        self.call(call, by, &all, (answer, &out), || with(&LENT[..room]), || with(&all[..room]));
    }

    /// The original's value if it has one, else the reference's.
    pub fn by<T>(
        &mut self,
        f: &Figure,
        ask: Ask,
        original: impl FnOnce() -> T,
        reference: impl FnOnce() -> T,
    ) -> (T, By) {
        if f.kind != Kind::W3c {
            match attempt(original) {
                Ok(value) => return (value, By::Original),
                Err(place) => self.panics.panicked(ask.name(), f, ask, place),
            }
        }
        (reference(), By::Reference)
    }

    // ---- the calls, on any numbers ----

    pub fn contains(&mut self, n: &[i32], x: i32, y: i32, room: usize) {
        let (px, py) = (x as i64, y as i64);
        let wanted = read_figure(n).ok_or(NO_RECORD).and_then(|f| {
            refused_or(&[figure_refusal(&f), asked_refusal(px), asked_refusal(py)])?;
            let original = || Original.contains(&f, px, py);
            let (inside, by) = self.by(&f, Contains(px, py), original, || Reference.contains(&f, px, py));
            Ok(([inside as i32], by))
        });
        let asked = [Numbers(n), Number(px), Number(py)];
        self.values("contains", room, wanted, |out| library::contains(n, x, y, out), &asked);
    }

    pub fn row(&mut self, n: &[i32], y: i32, room: usize) {
        let at = y as i64;
        let wanted = read_figure(n).ok_or(NO_RECORD).and_then(|f| {
            refused_or(&[figure_refusal(&f), asked_refusal(at)])?;
            let (run, by) = self.by(&f, Row(at), || Original.row(&f, at), || Reference.row(&f, at));
            let (start, end) = run.ok_or(NOTHING)?;
            Ok(([y, start as i32, end as i32], by))
        });
        self.values("row", room, wanted, |out| library::row(n, y, out), &[Numbers(n), Number(at)]);
    }

    /// A list so much longer than the pairs, or shorter.
    pub fn points(&mut self, n: &[i32], spare: i64, room: usize) {
        let mut pairs = Vec::new();
        let mut length = spare.max(0) as usize;
        let by = read_figure(n).ok_or(NO_RECORD).and_then(|f| {
            refused_or(&[figure_refusal(&f)])?;
            let (list, by) = self.by(&f, Points, || Original.points(&f), || Reference.points(&f));
            length = (list.len() as i64 + spare).max(0) as usize;
            refused_or(&[too_short(list.len(), length), too_short(1, room)])?;
            pairs = list;
            Ok(by)
        });
        let mut list = vec![MARK; length + 4];
        let mut out = [MARK; 4];
        let lent = list.clone();
        let (mut all, mut count) = (list.clone(), out);
        let answer = library::points(n, &mut list[..length], &mut out[..room]);
        if by.is_ok() {
            all[..pairs.len()].copy_from_slice(&pairs);
            count[0] = pairs.len() as i32 / 2;
        }
        let asked = || vec![Numbers(n), Numbers(&lent[..length]), Numbers(&LENT[..room])];
        let after = || vec![Numbers(n), Numbers(&all[..length]), Numbers(&count[..room])];
        self.call("points", by, (&all, count), (answer, (&list, out)), asked, after);
    }

    pub fn offset(&mut self, n: &[i32], k: i32, room: usize) {
        let by_k = k as i64;
        let wanted = read_figure(n).ok_or(NO_RECORD).and_then(|f| {
            refused_or(&[figure_refusal(&f), offset_refusal(by_k)])?;
            let original = || Original.offset(&f, by_k);
            let (figure, by) = self.by(&f, Offset(by_k), original, || Reference.offset(&f, by_k));
            Ok((given_figure(&figure), by))
        });
        self.values("offset", room, wanted, |out| library::offset(n, k, out), &[Numbers(n), Number(by_k)]);
    }

    /// The radii go by the original where it has the box; L and S by the reference.
    pub fn confined_radii(&mut self, n: &[i32], room: usize) {
        let wanted = read_figure(n).ok_or(NO_RECORD).and_then(|f| {
            refused_or(&[figure_refusal(&f)])?;
            let (radii, by) = self.by(&f, Confine, || Original.confine(&f), || Reference.confine(&f));
            let (radii, confined) = radii.zip(reference::confined(&f)).ok_or(NOTHING)?;
            if room >= CONFINED_LENGTH {
                self.decisions.note(&f);
            }
            Ok((confined_numbers(&Confined { radii, ..confined }), by))
        });
        self.values("confined_radii", room, wanted, |out| library::confined_radii(n, out), &[Numbers(n)]);
    }

    pub fn ellipse_with_center(&mut self, x: i32, y: i32, width: u32, height: u32, room: usize) {
        let (cx, cy, w, h) = (x as i64, y as i64, width as i64, height as i64);
        let f = reference::with_center(cx, cy, w, h);
        let wanted = refused_or(&[figure_refusal(&f)])
            .map(|()| (given_figure(&Original.with_center(cx, cy, w, h)), By::Original));
        let make = |out: &mut [i32]| library::ellipse_with_center(x, y, width, height, out);
        self.values("ellipse_with_center", room, wanted, make, &[cx, cy, w, h].map(Number));
    }

    pub fn styled_row(&mut self, n: &[i32], s: &[i32], y: i32, room: usize) {
        let at = y as i64;
        let wanted = read_figure(n).zip(read_style(s)).ok_or(NO_RECORD).and_then(|(f, s)| {
            refused_or(&[figure_refusal(&f), asked_refusal(at), style_refusal(&s)])?;
            let original = || Original.srow(&f, &s, at);
            let (runs, by) = self.by(&f, StyledRow(s, at), original, || Reference.srow(&f, &s, at));
            Ok((styled_numbers(at, &runs.ok_or(NOTHING)?), by))
        });
        let make = |out: &mut [i32]| library::styled_row(n, s, y, out);
        self.values("styled_row", room, wanted, make, &[Numbers(n), Numbers(s), Number(at)]);
    }

    pub fn styled_bounding_box(&mut self, n: &[i32], s: &[i32], room: usize) {
        let wanted = read_figure(n).zip(read_style(s)).ok_or(NO_RECORD).and_then(|(f, s)| {
            refused_or(&[figure_refusal(&f), style_refusal(&s)])?;
            let original = || Original.bbox(&f, &s);
            let ((x, y, w, h), by) = self.by(&f, StyledBox(s), original, || Reference.bbox(&f, &s));
            Ok(([x, y, w, h].map(|v| v as i32), by))
        });
        let make = |out: &mut [i32]| library::styled_bounding_box(n, s, out);
        self.values("styled_bounding_box", room, wanted, make, &[Numbers(n), Numbers(s)]);
    }

    pub fn paint_figure(&mut self, n: &[i32], s: &[i32], width: u32, height: u32, length: usize) {
        self.paint_on(n, s, width, height, &first_lent(length as i64 + 8, 1, Some(101)));
    }

    /// On a canvas that is lent without its last 8 bytes.
    pub fn paint_on(&mut self, n: &[i32], s: &[i32], width: u32, height: u32, lent: &[u8]) {
        let (w, h, length) = (width as i64, height as i64, lent.len() - 8);
        let mut all = lent.to_vec();
        let by = read_figure(n).zip(read_style(s)).ok_or(NO_RECORD).and_then(|(f, s)| {
            let lent_refusals = [canvas_refusal(w, h), wrong_length(width, height, length)];
            refused_or(&[figure_refusal(&f), style_refusal(&s), lowest(&lent_refusals)])?;
            let on = |by: &dyn Answers| {
                let mut bytes = lent.to_vec();
                by.paint(&f, &s, w, h, &mut bytes[..length]);
                bytes
            };
            let (bytes, by) = self.by(&f, Paint(s, w, h), || on(&Original), || on(&Reference));
            all = bytes;
            Ok(by)
        });
        let mut canvas = lent.to_vec();
        let answer = library::paint_figure(n, s, width, height, &mut canvas[..length]);
        let asked = || vec![Numbers(n), Numbers(s), Number(w), Number(h), Bytes(&lent[..length])];
        self.call("paint_figure", by, &all, (answer, &canvas), asked, || vec![Numbers(n), Numbers(s), Bytes(&all[..length])]);
    }

    /// A sheet opened in so many numbers, as the call left them.
    pub fn sheet_open(&mut self, width: u32, height: u32, length: usize) -> Vec<i32> {
        let by = refused_or(&[canvas_refusal(width as i64, height as i64), too_short(SHEET_LENGTH, length)]);
        let mut sheet = vec![MARK; length + 4];
        let (lent, mut all) = (sheet.clone(), sheet.clone());
        let answer = library::sheet_open(width, height, &mut sheet[..length]);
        if by.is_ok() {
            all[..SHEET_LENGTH].copy_from_slice(&opened(width, height));
        }
        let by = by.map(|()| By::Reference);
        let asked = || vec![Number(width as i64), Number(height as i64), Numbers(&lent[..length])];
        self.call("sheet_open", by, &all, (answer, &sheet), asked, || vec![Numbers(&all[..length])]);
        sheet.truncate(length);
        sheet
    }

    /// A figure added to a sheet given by any numbers; the sheet is left as the call left it.
    pub fn sheet_add(&mut self, sheet: &mut [i32], n: &[i32], s: &[i32]) -> u32 {
        let before = sheet.to_vec();
        let mut all = before.clone();
        let records = read_sheet(&before).zip(read_figure(n).zip(read_style(s)));
        let by = records.ok_or(NO_RECORD).and_then(|(record, (f, s))| {
            let given = Sheet::given(record.w, record.h, record.count, &record.places);
            let full = (record.count >= 16).then_some(library::SHEET_FULL);
            let given_refusal = given.as_ref().err().copied();
            refused_or(&[figure_refusal(&f), style_refusal(&s), given_refusal, full])?;
            let mut given = given?;
            let added = given.add(&f, &s);
            assert_eq!(added, 0, "oracle: an add call that passed is refused");
            let count = record.count as usize;
            let at = place_of(count);
            // as given, an ellipse's radii too
            all[at..at + 13].copy_from_slice(n);
            all[at + 13..at + 17].copy_from_slice(&style_numbers(&s));
            all[at + 17] = given.next_row(count) as i32;
            all[2] += 1;
            Ok(By::Reference)
        });
        let answer = library::sheet_add(sheet, n, s);
        let asked = || vec![Numbers(&before), Numbers(n), Numbers(s)];
        self.call("sheet_add", by, &all[..], (answer, &sheet[..]), asked, || vec![Numbers(&all), Numbers(n), Numbers(s)]);
        answer
    }

    /// A layer painted on a sheet given by any numbers; sheet and canvas are left as the call left them.
    pub fn sheet_paint(&mut self, sheet: &mut [i32], layer: u32, canvas: &mut [u8]) -> u32 {
        let (before, lent) = (sheet.to_vec(), canvas.to_vec());
        let (mut all, mut bytes) = (before.clone(), lent.clone());
        let by = read_sheet(&before).ok_or(NO_RECORD).and_then(|record| {
            let mut given = Sheet::given(record.w, record.h, record.count, &record.places)?;
            refused_or(&[wrong_length(record.w as u32, record.h as u32, lent.len())])?;
            match given.paint(layer as usize, &mut bytes) {
                0 => all[place_of(layer as usize) + 17] = given.next_row(layer as usize) as i32,
                number => return Err(number),
            }
            Ok(By::Reference)
        });
        let answer = library::sheet_paint(sheet, layer, canvas);
        let asked = || vec![Numbers(&before), Number(layer as i64), Bytes(&lent)];
        let after = || vec![Numbers(&all), Bytes(&bytes)];
        self.call("sheet_paint", by, (&all[..], &bytes[..]), (answer, (&sheet[..], &canvas[..])), asked, after);
        answer
    }

    /// A layer removed from a sheet given by any numbers; sheet and canvas are left as the call left them. All three buffers have
    /// guards at both ends, and no call writes to the background.
    pub fn sheet_remove(&mut self, sheet: &mut [i32], layer: u32, canvas: &mut [u8], background: &[u8]) -> u32 {
        let (before, lent) = (sheet.to_vec(), canvas.to_vec());
        let (mut all, mut bytes) = (before.clone(), lent.clone());
        let by = read_sheet(&before).ok_or(NO_RECORD).and_then(|record| {
            let mut given = Sheet::given(record.w, record.h, record.count, &record.places)?;
            let i = layer as usize;
            match given.remove(i, &mut bytes, background) {
                0 => {}
                number => return Err(number),
            }
            // all places behind it move down, used or not, and the last is as in a sheet just opened
            all.copy_within(place_of(i + 1).., place_of(i));
            all[place_of(15)..].copy_from_slice(&opened(1, 1)[place_of(15)..]);
            all[2] -= 1;
            let next_rows = |j: usize| all[place_of(j) + LAYER_LENGTH - 1] as i64 == given.next_row(j);
            assert!((0..all[2] as usize).all(next_rows), "oracle: a next row is not the layer's");
            self.removals.note(record.w, record.h, &record.places, i);
            Ok(By::Reference)
        });
        let numbers = |list: &[i32]| Guarded::new(list.to_vec(), MARK);
        let guarded = |list: &[u8]| Guarded::new(list.to_vec(), BYTE_MARK);
        let (mut left, mut painted, under) = (numbers(&before), guarded(&lent), guarded(background));
        let answer = library::sheet_remove(left.lent_mut(), layer, painted.lent_mut(), under.lent());
        let wanted = (numbers(&all), guarded(&bytes), guarded(background));
        let asked = || vec![Numbers(&before), Number(layer as i64), Bytes(&lent), Bytes(background)];
        let after = || vec![Numbers(&all), Bytes(&bytes), Bytes(background)];
        sheet.copy_from_slice(left.lent());
        canvas.copy_from_slice(painted.lent());
        self.call("sheet_remove", by, wanted, (answer, (left, painted, under)), asked, after);
        answer
    }

    /// A list of calls, with a canvas as first lent and a background.
    pub fn run_calls(&mut self, width: u32, height: u32, n: &[i32], lent: &[u8], background: &[u8], room: usize) {
        let (w, h) = (width as i64, height as i64);
        let mut canvas = lent.to_vec();
        let mut answers = vec![MARK as u32; room + 2];
        let (mut bytes, mut all) = (lent.to_vec(), answers.clone());
        // the background is looked at by removals alone
        let lent_refusals = [canvas_refusal(w, h), wrong_length(width, height, lent.len())];
        let refusals = [lowest(&lent_refusals), too_short(n.len() / CALL_LENGTH, room)];
        let by = refused_or(&refusals).and_then(|()| read_calls(n).ok_or(NO_RECORD)).map(|calls| {
            let with = Lent { w, h, canvas: lent, background };
            let (said, painted) = reference::script(with, &calls).expect("oracle: sheet and book agree");
            self.removals.note_list(with, &calls, &said);
            all[..said.len()].copy_from_slice(&said);
            bytes = painted;
            By::Reference
        });
        let under = background.to_vec();
        let answer = library::run_calls(width, height, n, &mut canvas, &under, &mut answers[..room]);
        let [marks, all, answers] = [vec![MARK as u32; room], all, answers].map(as_signed);
        let asked =
            || vec![Number(w), Number(h), Numbers(n), Bytes(lent), Bytes(background), Numbers(&marks)];
        let after = || vec![Numbers(n), Numbers(&all[..room]), Bytes(&bytes), Bytes(background)];
        let wanted = (&bytes[..], background, &all);
        self.call("run_calls", by, wanted, (answer, (&canvas[..], &under[..], &answers)), asked, after);
    }

    /// A canvas written into a buffer so much longer than the file, or shorter; what the call left there.
    pub fn write(
        &mut self,
        writer: &Writer,
        width: u32,
        height: u32,
        canvas: &[u8],
        spare: i64,
        room: usize,
    ) -> Vec<u8> {
        let file = (writer.file)(width, height, canvas);
        let length = (file.len() as i64 + spare).max(0) as usize;
        let by = refused_or(&[
            canvas_refusal(width as i64, height as i64),
            wrong_length(width, height, canvas.len()),
            too_short(1, room),
            too_short(file.len(), length),
        ]);
        let given = Guarded::new(canvas.to_vec(), !BYTE_MARK);
        let (buffer, out) = (Guarded::of(BYTE_MARK, length), Guarded::of(MARK, room));
        let (mut left, mut count) = (buffer.clone(), out.clone());
        let answer = (writer.make)(width, height, given.lent(), left.lent_mut(), count.lent_mut());
        let (mut wanted, mut told) = (buffer.clone(), out.clone());
        if by.is_ok() {
            wanted.lent_mut()[..file.len()].copy_from_slice(&file);
            told.lent_mut()[0] = file.len() as i32;
        }
        let (w, h) = (Number(width as i64), Number(height as i64));
        let asked = || vec![w, h, Bytes(canvas), Bytes(buffer.lent()), Numbers(out.lent())];
        let after = || vec![Numbers(told.lent()), Bytes(canvas), Bytes(wanted.lent())];
        let untouched = Guarded::new(canvas.to_vec(), !BYTE_MARK);
        let buffers = (&untouched, &wanted, &told);
        self.call(writer.call, by.map(|()| By::Reference), buffers, (answer, (&given, &left, &count)), asked, after);
        left.lent().to_vec()
    }

    /// A file read into a canvas of so many bytes, with so many places for its sides: what the call answered, and what it
    /// left on the canvas.
    pub fn read_netpbm(&mut self, file: &[u8], length: usize, room: usize) -> (u32, Vec<u8>) {
        let picture = netpbm::read(file, length, room);
        // a header or a comment that the file's end cuts off would end in these guards
        let given = Guarded::new(file.to_vec(), b'\n');
        let (canvas, out) = (Guarded::of(BYTE_MARK, length), Guarded::of(MARK, room));
        let (mut left, mut sides) = (canvas.clone(), out.clone());
        let answer = library::read_netpbm(given.lent(), left.lent_mut(), sides.lent_mut());
        let (mut wanted, mut told) = (canvas.clone(), out.clone());
        let by = picture.map(|picture| {
            wanted.lent_mut().copy_from_slice(&picture.pixels);
            told.lent_mut()[..2].copy_from_slice(&[picture.width as i32, picture.height as i32]);
            By::Reference
        });
        let asked = || vec![Bytes(file), Bytes(canvas.lent()), Numbers(out.lent())];
        let after = || vec![Bytes(file), Bytes(wanted.lent()), Numbers(told.lent())];
        let untouched = Guarded::new(file.to_vec(), b'\n');
        let buffers = (&untouched, &wanted, &told);
        self.call("read_netpbm", by, buffers, (answer, (&given, &left, &sides)), asked, after);
        (answer, left.lent().to_vec())
    }

    // ---- what is printed ----

    pub fn print(&self) {
        let mut sum = Counts::default();
        println!("{:<20} {:>14} {:>14} {:>10}", "equal", "to the original", "the reference", "refused");
        for (call, c) in &self.counts {
            println!("{call:<20} {:>15} {:>14} {:>10}", c.original, c.reference, c.all_refused());
            sum.original += c.original;
            sum.reference += c.reference;
            for (number, count) in &c.refused {
                *sum.refused.entry(*number).or_default() += count;
            }
        }
        println!("{:<20} {:>15} {:>14} {:>10}", "all", sum.original, sum.reference, sum.all_refused());
        println!("refused by number: {:?}", sum.refused);
        self.decisions.print();
        self.removals.print();
        self.panics.print_panics();
        let panics: u64 = self.panics.tallies.values().map(|t| t.panics).sum();
        // Where the original panics the reference stands in for it: that is to stay the exception.
        if panics * 100 > sum.original {
            println!("DIFFERENT: the original does not finish {panics} times, and finishes {} times", sum.original);
            exit(1);
        }
        println!("{} comparisons equal, 0 different; {panics} panics of the original", sum.all());
    }

    /// Ends the program where, of the ways in which an edge comes to decide, one was met less often than this.
    pub fn each_decision_met(&self, least: u64) {
        if let Some(missed) = self.decisions.missed(least) {
            println!("DIFFERENT: too few boxes were confined, {missed}");
            exit(1);
        }
    }

    /// Ends the program where, of the ways in which a layer comes to be removed, one was met less often than this.
    pub fn each_removal_met(&self, least: u64) {
        if let Some(missed) = self.removals.missed(least) {
            println!("DIFFERENT: too few layers were removed, {missed}");
            exit(1);
        }
    }

    /// Ends the program where a call was not compared with each number that it can answer, at least so often.
    pub fn each_answer_met(&self, least: impl Fn(&str) -> u64) {
        for (call, _, numbers, _) in &CALLS[..CALLS_OF_C] {
            for number in *numbers {
                let met = self.counts.get(call).map_or(0, |counts| counts.of(*number));
                if met < least(call) {
                    println!("DIFFERENT: {call} was compared with the answer {number} only {met} times");
                    exit(1);
                }
            }
        }
    }
}

/// A call that writes a canvas as a file.
pub struct Writer {
    pub call: &'static str,
    file: fn(u32, u32, &[u8]) -> Vec<u8>,
    make: fn(u32, u32, &[u8], &mut [u8], &mut [i32]) -> u32,
}

pub const WRITE_P5: Writer = Writer { call: "write_p5", file: netpbm::p5, make: library::write_p5 };
pub const WRITE_P4: Writer = Writer { call: "write_p4", file: netpbm::p4, make: library::write_p4 };

/// How many numbers or bytes stand on each side of what is lent of a guarded buffer.
const GUARD: usize = 4;

/// A buffer that is lent without the guards at both its ends; it is compared with them.
#[derive(Clone, PartialEq, Debug)]
struct Guarded<T>(Vec<T>);

impl<T: Copy> Guarded<T> {
    fn new(mut lent: Vec<T>, guard: T) -> Self {
        lent.splice(..0, [guard; GUARD]);
        lent.extend([guard; GUARD]);
        Guarded(lent)
    }

    /// One that holds the same everywhere.
    fn of(mark: T, length: usize) -> Self {
        Guarded(vec![mark; length + 2 * GUARD])
    }

    fn lent(&self) -> &[T] {
        &self.0[GUARD..self.0.len() - GUARD]
    }

    fn lent_mut(&mut self) -> &mut [T] {
        let end = self.0.len() - GUARD;
        &mut self.0[GUARD..end]
    }
}

fn as_signed(list: Vec<u32>) -> Vec<i32> {
    list.into_iter().map(|v| v as i32).collect()
}

/// What must be answered by a call that gives numbers, and the whole buffer then, where so many numbers of it are lent.
pub fn given_room<V: AsRef<[i32]>>(wanted: Wanted<V>, room: usize) -> (Result<By, u32>, [i32; 24]) {
    let mut all = LENT;
    let by = wanted.and_then(|(values, by)| {
        let values = values.as_ref();
        refused_or(&[too_short(values.len(), room)])?;
        all[..values.len()].copy_from_slice(values);
        Ok(by)
    });
    (by, all)
}

/// Refused by the lowest, or not.
pub fn refused_or(refusals: &[Option<u32>]) -> Result<(), u32> {
    lowest(refusals).map_or(Ok(()), Err)
}
