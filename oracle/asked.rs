//! What is asked of a figure, as a value: either side can be asked it, it can be printed as a line of `replay`, and it can be
//! asked again with smaller numbers.

use crate::{
    lines::{self, Argument::*},
    numbers::{figure_numbers, given_figure, radii_numbers, style_numbers, styled_numbers},
    original::Original,
    records::{attempt, Answers, Figure, Kind, Style},
    reference::{canvas_refusal, Reference},
    wunqaber::CONFINED_LENGTH,
};

#[derive(Clone, Copy, PartialEq, Debug)]
pub enum Ask {
    Contains(i64, i64),
    Row(i64),
    Points,
    Offset(i64),
    /// the radii alone, which both sides say
    Confine,
    StyledRow(Style, i64),
    StyledBox(Style),
    /// on a canvas of zeros with these sides
    Paint(Style, i64, i64),
}

use Ask::*;

impl Ask {
    /// What a side says; none where there is no such row, or a figure has no corners.
    pub fn of(&self, f: &Figure, by: &dyn Answers) -> Option<Vec<i32>> {
        Some(match self {
            Contains(x, y) => vec![by.contains(f, *x, *y) as i32],
            Row(y) => by.row(f, *y).map(|(start, end)| vec![*y as i32, start as i32, end as i32])?,
            Points => by.points(f),
            Offset(k) => given_figure(&by.offset(f, *k)),
            Confine => radii_numbers(&by.confine(f)?).to_vec(),
            StyledRow(s, y) => styled_numbers(*y, &by.srow(f, s, *y)?).to_vec(),
            StyledBox(s) => {
                let (x, y, w, h) = by.bbox(f, s);
                [x, y, w, h].map(|v| v as i32).to_vec()
            }
            Paint(s, w, h) => {
                let mut bytes = vec![0; (w * h) as usize];
                by.paint(f, s, *w, *h, &mut bytes);
                bytes.iter().map(|b| *b as i32).collect()
            }
        })
    }

    pub fn name(&self) -> &'static str {
        match self {
            Contains(..) => "contains",
            Row(_) => "row",
            Points => "points",
            Offset(_) => "offset",
            Confine => "confine",
            StyledRow(..) => "srow",
            StyledBox(_) => "bbox",
            Paint(..) => "paint",
        }
    }

    /// How far beyond the figure's own size this goes: for the smallest of many.
    pub fn size(&self) -> i64 {
        match self {
            Contains(x, y) => x.abs() + y.abs(),
            Offset(k) => k.abs(),
            StyledRow(s, _) | StyledBox(s) | Paint(s, ..) => s.width,
            Row(_) | Points | Confine => 0,
        }
    }

    /// The call that asks this, with exact room.
    pub fn line(&self, f: &Figure) -> String {
        let n = figure_numbers(f);
        let figure = Numbers(&n);
        let out = [0; 13];
        let room = |length: usize| Numbers(&out[..length]);
        match self {
            Contains(x, y) => lines::query("contains", &[figure, Number(*x), Number(*y), room(1)]),
            Row(y) => lines::query("row", &[figure, Number(*y), room(3)]),
            Points => lines::query("points", &[figure, Numbers(&vec![0; Reference.points(f).len()]), room(1)]),
            Offset(k) => {
                lines::query("offset", &[figure, Number(*k), room(if f.kind == Kind::Ellipse { 5 } else { 13 })])
            }
            Confine => lines::query("confined_radii", &[figure, room(CONFINED_LENGTH)]),
            StyledRow(s, y) => lines::query("styled_row", &[figure, Numbers(&style_numbers(s)), Number(*y), room(7)]),
            StyledBox(s) => lines::query("styled_bounding_box", &[figure, Numbers(&style_numbers(s)), room(4)]),
            Paint(s, w, h) => {
                let canvas = vec![0; (w * h) as usize];
                let style = style_numbers(s);
                lines::query("paint_figure", &[figure, Numbers(&style), Number(*w), Number(*h), Bytes(&canvas)])
            }
        }
    }

    fn numbers(&mut self) -> Vec<&mut i64> {
        match self {
            Contains(x, y) => vec![x, y],
            Row(y) => vec![y],
            Offset(k) => vec![k],
            StyledRow(s, y) => vec![&mut s.width, &mut s.align, y],
            StyledBox(s) => vec![&mut s.width, &mut s.align],
            Paint(s, w, h) => vec![&mut s.width, &mut s.align, w, h],
            Points | Confine => Vec::new(),
        }
    }
}

/// All numbers of a figure and of what is asked of it.
fn numbers<'a>(f: &'a mut Figure, ask: &'a mut Ask) -> Vec<&'a mut i64> {
    let mut list = vec![&mut f.x, &mut f.y, &mut f.w, &mut f.h];
    if f.kind != Kind::Ellipse {
        list.extend(f.radii.iter_mut().flat_map(|r| [&mut r.0, &mut r.1]));
    }
    list.extend(ask.numbers());
    list
}

/// Where and why the original panics, if it does.
fn panic_place(f: &Figure, ask: &Ask) -> Option<String> {
    match ask {
        Paint(_, w, h) if canvas_refusal(*w, *h).is_some() => None,
        _ => attempt(|| ask.of(f, &Original)).err(),
    }
}

/// Makes single numbers smaller as long as the original panics at the same place; none if it does not panic there.
pub fn shrunk(f: &Figure, ask: &Ask, place: &str) -> Option<(Figure, Ask)> {
    let (mut f, mut ask) = (*f, *ask);
    let fails = |f: &Figure, ask: &Ask| panic_place(f, ask).as_deref() == Some(place);
    if !fails(&f, &ask) {
        return None;
    }
    let mut again = true;
    while again {
        again = false;
        for i in 0..numbers(&mut f, &mut ask).len() {
            let v = *numbers(&mut f, &mut ask)[i];
            // towards 0: all of it, a half, a quarter, ... one
            let mut by = v;
            while by != 0 {
                *numbers(&mut f, &mut ask)[i] = v - by;
                if fails(&f, &ask) {
                    again = true;
                    break;
                }
                *numbers(&mut f, &mut ask)[i] = v;
                by /= 2;
            }
        }
    }
    Some((f, ask))
}
