//! Records as the numbers that the library takes (include/wunqaber.h), and numbers read as records.

use crate::{
    records::{Figure, Kind, Style},
    reference::{Call, Confined},
    wunqaber::{
        ABSENT, CALL_LENGTH, CONFINED_LENGTH, CRATE_BOX, ELLIPSE, FIGURE_LENGTH, LAYER_LENGTH, SHEET_LENGTH,
        STYLE_LENGTH, W3C_BOX,
    },
};

pub fn radii_numbers(radii: &[(i64, i64); 4]) -> [i32; 8] {
    let [a, b, c, d] = radii.map(|(w, h)| (w as i32, h as i32));
    [a.0, a.1, b.0, b.1, c.0, c.1, d.0, d.1]
}

/// The radii, then L and S of the edge that decided.
pub fn confined_numbers(c: &Confined) -> [i32; CONFINED_LENGTH] {
    let mut n = [0; CONFINED_LENGTH];
    n[..8].copy_from_slice(&radii_numbers(&c.radii));
    n[8..].copy_from_slice(&[c.l as i32, c.s as i32]);
    n
}

pub fn figure_numbers(f: &Figure) -> [i32; FIGURE_LENGTH] {
    let kind = match f.kind {
        Kind::Ellipse => ELLIPSE,
        Kind::Crate => CRATE_BOX,
        Kind::W3c => W3C_BOX,
    };
    let mut n = [0; FIGURE_LENGTH];
    n[..5].copy_from_slice(&[kind, f.x as i32, f.y as i32, f.w as i32, f.h as i32]);
    n[5..].copy_from_slice(&radii_numbers(&f.radii));
    n
}

/// The numbers that a figure is answered with: an ellipse has no radii.
pub fn given_figure(f: &Figure) -> Vec<i32> {
    let length = if f.kind == Kind::Ellipse { 5 } else { FIGURE_LENGTH };
    figure_numbers(f)[..length].to_vec()
}

pub fn style_numbers(s: &Style) -> [i32; STYLE_LENGTH] {
    let paint = |p: Option<u8>| p.map_or(ABSENT, |c| c as i32);
    [paint(s.stroke), paint(s.fill), s.width as i32, s.align as i32]
}

/// A styled row: its y, and the ends of its three runs.
pub fn styled_numbers(y: i64, runs: &[i64; 6]) -> [i32; 7] {
    let mut n = [y as i32; 7];
    for (to, from) in n[1..].iter_mut().zip(runs) {
        *to = *from as i32;
    }
    n
}

pub fn call_numbers(call: &Call, unread: i32) -> [i32; CALL_LENGTH] {
    let mut n = [unread; CALL_LENGTH];
    match call {
        Call::Add(f, s) => {
            n[0] = 0;
            n[1..14].copy_from_slice(&figure_numbers(f));
            n[14..18].copy_from_slice(&style_numbers(s));
        }
        Call::Paint(layer) => n[..2].copy_from_slice(&[1, *layer as i32]),
        Call::Remove(layer) => n[..2].copy_from_slice(&[2, *layer as i32]),
    }
    n
}

/// The figure that the numbers are, if they are one; and so below.
pub fn read_figure(n: &[i32]) -> Option<Figure> {
    if n.len() != FIGURE_LENGTH || n[3..].iter().any(|v| *v < 0) {
        return None;
    }
    let kind = match n[0] {
        ELLIPSE => Kind::Ellipse,
        CRATE_BOX => Kind::Crate,
        W3C_BOX => Kind::W3c,
        _ => return None,
    };
    let at = |i: usize| n[i] as i64;
    let radii = [(at(5), at(6)), (at(7), at(8)), (at(9), at(10)), (at(11), at(12))];
    Some(Figure { kind, x: at(1), y: at(2), w: at(3), h: at(4), radii })
}

pub fn read_style(n: &[i32]) -> Option<Style> {
    if n.len() != STYLE_LENGTH || n[2] < 0 || !(0..=2).contains(&n[3]) {
        return None;
    }
    let paint = |v: i32| match v {
        ABSENT => Some(None),
        v => u8::try_from(v).ok().map(Some),
    };
    Some(Style { stroke: paint(n[0])?, fill: paint(n[1])?, width: n[2] as i64, align: n[3] as i64 })
}

pub fn read_call(n: &[i32]) -> Option<Call> {
    match n[0] {
        0 => Some(Call::Add(read_figure(&n[1..14])?, read_style(&n[14..18])?)),
        1 => Some(Call::Paint(usize::try_from(n[1]).ok()?)),
        2 => Some(Call::Remove(usize::try_from(n[1]).ok()?)),
        _ => None,
    }
}

pub fn read_calls(n: &[i32]) -> Option<Vec<Call>> {
    if n.len() % CALL_LENGTH != 0 {
        return None;
    }
    n.chunks(CALL_LENGTH).map(read_call).collect()
}

/// A sheet as a record: width, height, count, and the used places with their next rows.
pub struct Record {
    pub w: i64,
    pub h: i64,
    pub count: i64,
    pub places: Vec<(Figure, Style, i64)>,
}

/// The sheet that the numbers are, as crate host_sheet_record reads it: unused places are not looked at, and numbers that hold something
/// else than records are a sheet that says 17 layers.
pub fn read_sheet(n: &[i32]) -> Option<Record> {
    if n.len() != SHEET_LENGTH {
        return None;
    }
    let place = |n: &[i32]| Some((read_figure(&n[..13])?, read_style(&n[13..17])?, n[17] as i64));
    let used = n[2].clamp(0, 16) as usize;
    let places = n[3..].chunks(LAYER_LENGTH).take(used).map(place).collect::<Option<Vec<_>>>();
    let negative = n[..3].iter().any(|v| *v < 0);
    let (count, places) = match places {
        Some(places) if !negative => (n[2] as i64, places),
        _ => (17, Vec::new()),
    };
    Some(Record { w: n[0] as i64, h: n[1] as i64, count, places })
}

/// Where the numbers of a layer begin.
pub fn place_of(layer: usize) -> usize {
    3 + LAYER_LENGTH * layer
}

/// The numbers of a sheet without layers.
pub fn opened(width: u32, height: u32) -> [i32; SHEET_LENGTH] {
    let mut n = [0; SHEET_LENGTH];
    n[0] = width as i32;
    n[1] = height as i32;
    for layer in 0..16 {
        n[place_of(layer) + 13..][..2].fill(ABSENT);
    }
    n
}
