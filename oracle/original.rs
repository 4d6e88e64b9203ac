//! The calls, answered by the ORIGINAL source. Nothing is computed here: numbers are turned into
//! the original's own types, the original is called, and what it gives is turned into numbers.

use crate::{
    draw_target::DrawTarget,
    geometry::{Point, Size},
    pixelcolor::PixelColor,
    primitives::{
        ContainsPoint, CornerRadii, Ellipse, OffsetOutline, PointsIter, PrimitiveStyle,
        PrimitiveStyleBuilder, Rectangle, RoundedRectangle, StrokeAlignment,
    },
    records::{Answers, Figure, Kind, Plain, Style},
};

/// A colour byte.
#[derive(Copy, Clone, Eq, PartialEq, Ord, PartialOrd, Hash, Debug)]
pub struct Byte(pub u8);

impl PixelColor for Byte {}

/// What access.rs opens of the original's private parts; implemented for both shapes there.
pub trait Access: Copy {
    /// The original `Scanlines`, row by row (y, start, end), while `f` says so.
    fn each_row<F: FnMut(i32, i32, i32) -> bool>(&self, f: F);
    /// The original `StyledScanlines`, row by row: left, fill and right run.
    fn each_styled_row<F: FnMut(i32, [i32; 6]) -> bool>(&self, style: &PrimitiveStyle<Byte>, f: F);
    /// The original `pixels`.
    fn each_pixel<F: FnMut(i32, i32, u8)>(&self, style: &PrimitiveStyle<Byte>, f: F);
    /// The original `draw_styled`.
    fn draw<D: DrawTarget<Color = Byte>>(
        &self,
        style: &PrimitiveStyle<Byte>,
        target: &mut D,
    ) -> Result<(), D::Error>;
    /// The original `styled_bounding_box`.
    fn styled_box(&self, style: &PrimitiveStyle<Byte>) -> Rectangle;
}

#[derive(Copy, Clone)]
pub enum Shape {
    Ellipse(Ellipse),
    Box(RoundedRectangle),
}

fn signed(v: i64) -> i32 {
    i32::try_from(v).expect("oracle: a number beyond i32")
}

fn length(v: i64) -> u32 {
    u32::try_from(v).expect("oracle: a number beyond u32")
}

pub fn shape(figure: &Figure) -> Shape {
    let top_left = Point::new(signed(figure.x), signed(figure.y));
    let size = Size::new(length(figure.w), length(figure.h));
    let r = |i: usize| Size::new(length(figure.radii[i].0), length(figure.radii[i].1));
    match figure.kind {
        Kind::Ellipse => Shape::Ellipse(Ellipse::new(top_left, size)),
        Kind::Crate => Shape::Box(RoundedRectangle::new(
            Rectangle::new(top_left, size),
            CornerRadii {
                top_left: r(0),
                top_right: r(1),
                bottom_right: r(2),
                bottom_left: r(3),
            },
        )),
        Kind::W3c => panic!("oracle: the original has no W3C box"),
    }
}

pub fn style(style: &Style) -> PrimitiveStyle<Byte> {
    let mut builder = PrimitiveStyleBuilder::new()
        .stroke_width(length(style.width))
        .stroke_alignment(match style.align {
            0 => StrokeAlignment::Inside,
            1 => StrokeAlignment::Center,
            _ => StrokeAlignment::Outside,
        });
    if let Some(c) = style.stroke {
        builder = builder.stroke_color(Byte(c));
    }
    if let Some(c) = style.fill {
        builder = builder.fill_color(Byte(c));
    }
    builder.build()
}

fn radii(c: &CornerRadii) -> [(i64, i64); 4] {
    [c.top_left, c.top_right, c.bottom_right, c.bottom_left]
        .map(|s| (s.width as i64, s.height as i64))
}

fn rectangle(r: &Rectangle) -> (i64, i64, i64, i64) {
    (
        r.top_left.x as i64,
        r.top_left.y as i64,
        r.size.width as i64,
        r.size.height as i64,
    )
}

/// A target that fills rows of bytes, pixels off the canvas skipped: for `draw`.
struct Rows<'a> {
    w: i32,
    h: i32,
    bytes: &'a mut [u8],
}

impl DrawTarget for Rows<'_> {
    type Color = Byte;
    type Error = core::convert::Infallible;

    fn fill_solid(&mut self, area: &Rectangle, color: Byte) -> Result<(), Self::Error> {
        let columns = area.columns();
        let (a, b) = (columns.start.max(0), columns.end.min(self.w));
        if a < b {
            for y in area.rows().start.max(0)..area.rows().end.min(self.h) {
                let row = y as usize * self.w as usize;
                self.bytes[row + a as usize..row + b as usize].fill(color.0);
            }
        }
        Ok(())
    }
}

fn rows_of<S: Access>(s: &S) -> Vec<(i64, i64, i64)> {
    let mut rows = Vec::new();
    s.each_row(|y, a, b| {
        rows.push((y as i64, a as i64, b as i64));
        true
    });
    rows
}

fn row_of<S: Access>(s: &S, y: i64) -> Option<(i64, i64)> {
    let mut found = None;
    s.each_row(|at, a, b| {
        if at as i64 == y {
            found = Some((a as i64, b as i64));
        }
        (at as i64) < y
    });
    found
}

fn srows_of<S: Access>(s: &S, st: &PrimitiveStyle<Byte>) -> Vec<(i64, [i64; 6])> {
    let mut rows = Vec::new();
    s.each_styled_row(st, |y, runs| {
        rows.push((y as i64, runs.map(|v| v as i64)));
        true
    });
    rows
}

fn srow_of<S: Access>(s: &S, st: &PrimitiveStyle<Byte>, y: i64) -> Option<[i64; 6]> {
    let mut found = None;
    s.each_styled_row(st, |at, runs| {
        if at as i64 == y {
            found = Some(runs.map(|v| v as i64));
        }
        (at as i64) < y
    });
    found
}

fn paint_on<S: Access>(s: &S, st: &PrimitiveStyle<Byte>, w: i64, h: i64, bytes: &mut [u8]) {
    s.each_pixel(st, |x, y, c| {
        if (0..w as i32).contains(&x) && (0..h as i32).contains(&y) {
            bytes[y as usize * w as usize + x as usize] = c;
        }
    });
}

pub struct Original;

impl Original {
    /// All rows that the original `Scanlines` gives.
    pub fn rows(&self, f: &Figure) -> Vec<(i64, i64, i64)> {
        match shape(f) {
            Shape::Ellipse(s) => rows_of(&s),
            Shape::Box(s) => rows_of(&s),
        }
    }

    /// The first row that the original `Scanlines` gives, if any.
    pub fn first_row(&self, f: &Figure) -> Option<(i64, i64, i64)> {
        let mut first = None;
        let mut take = |y: i32, a: i32, b: i32| {
            first = Some((y as i64, a as i64, b as i64));
            false
        };
        match shape(f) {
            Shape::Ellipse(s) => s.each_row(&mut take),
            Shape::Box(s) => s.each_row(&mut take),
        }
        first
    }

    /// All rows that the original `StyledScanlines` gives.
    pub fn srows(&self, f: &Figure, st: &Style) -> Vec<(i64, [i64; 6])> {
        let st = style(st);
        match shape(f) {
            Shape::Ellipse(s) => srows_of(&s, &st),
            Shape::Box(s) => srows_of(&s, &st),
        }
    }

    /// The original `Ellipse::with_center`.
    pub fn with_center(&self, cx: i64, cy: i64, w: i64, h: i64) -> Figure {
        let center = Point::new(signed(cx), signed(cy));
        let s = Ellipse::with_center(center, Size::new(length(w), length(h)));
        Figure {
            kind: Kind::Ellipse,
            x: s.top_left.x as i64,
            y: s.top_left.y as i64,
            w: s.size.width as i64,
            h: s.size.height as i64,
            radii: [(0, 0); 4],
        }
    }

    /// The original `draw_styled` on rows of bytes.
    pub fn draw(&self, f: &Figure, st: &Style, w: i64, h: i64, bytes: &mut [u8]) {
        let st = style(st);
        let mut target = Rows {
            w: signed(w),
            h: signed(h),
            bytes,
        };
        let Ok(()) = match shape(f) {
            Shape::Ellipse(s) => s.draw(&st, &mut target),
            Shape::Box(s) => s.draw(&st, &mut target),
        };
    }
}

impl Answers for Original {
    /// The stand-in's `Rectangle` with the original's `offset`, the original's widths, and the `Range` of Rust.
    fn plain(&self, call: &Plain) -> Vec<i64> {
        let made = |[x, y, w, h]: [i64; 4]| (Point::new(signed(x), signed(y)), Size::new(length(w), length(h)));
        let given = |r: [i64; 4]| Rectangle::new(made(r).0, made(r).1);
        let sides = |r: &Rectangle| {
            let (x, y, w, h) = rectangle(r);
            vec![x, y, w, h]
        };
        let ends = |r: core::ops::Range<i32>| vec![r.start as i64, r.end as i64];
        match *call {
            Plain::Center(r) => vec![given(r).center().x as i64, given(r).center().y as i64],
            Plain::WithCenter(r) => sides(&Rectangle::with_center(made(r).0, made(r).1)),
            Plain::Rows(r) => ends(given(r).rows()),
            Plain::Columns(r) => ends(given(r).columns()),
            Plain::Offset(r, k) => sides(&OffsetOutline::offset(&given(r), signed(k))),
            Plain::Range(start, end, v) => {
                let range = signed(start)..signed(end);
                vec![range.contains(&signed(v)) as i64, range.is_empty() as i64]
            }
            Plain::Widths(width, align) => {
                let s = style(&Style { stroke: None, fill: None, width, align });
                vec![s.outside_stroke_width() as i64, s.inside_stroke_width() as i64]
            }
        }
    }

    fn contains(&self, f: &Figure, px: i64, py: i64) -> bool {
        let p = Point::new(signed(px), signed(py));
        match shape(f) {
            Shape::Ellipse(s) => s.contains(p),
            Shape::Box(s) => s.contains(p),
        }
    }

    fn row(&self, f: &Figure, y: i64) -> Option<(i64, i64)> {
        match shape(f) {
            Shape::Ellipse(s) => row_of(&s, y),
            Shape::Box(s) => row_of(&s, y),
        }
    }

    fn points(&self, f: &Figure) -> Vec<i32> {
        let mut list = Vec::new();
        let mut push = |p: Point| {
            list.push(p.x);
            list.push(p.y);
        };
        match shape(f) {
            Shape::Ellipse(s) => s.points().for_each(&mut push),
            Shape::Box(s) => s.points().for_each(&mut push),
        }
        list
    }

    fn offset(&self, f: &Figure, k: i64) -> Figure {
        let k = signed(k);
        match shape(f) {
            Shape::Ellipse(s) => {
                let s = s.offset(k);
                Figure {
                    kind: f.kind,
                    x: s.top_left.x as i64,
                    y: s.top_left.y as i64,
                    w: s.size.width as i64,
                    h: s.size.height as i64,
                    radii: f.radii,
                }
            }
            Shape::Box(s) => {
                let s = s.offset(k);
                let (x, y, w, h) = rectangle(&s.rectangle);
                Figure {
                    kind: f.kind,
                    x,
                    y,
                    w,
                    h,
                    radii: radii(&s.corners),
                }
            }
        }
    }

    fn confine(&self, f: &Figure) -> Option<[(i64, i64); 4]> {
        match shape(f) {
            Shape::Ellipse(_) => None,
            Shape::Box(s) => Some(radii(&s.confine_radii().corners)),
        }
    }

    fn srow(&self, f: &Figure, st: &Style, y: i64) -> Option<[i64; 6]> {
        let st = style(st);
        match shape(f) {
            Shape::Ellipse(s) => srow_of(&s, &st, y),
            Shape::Box(s) => srow_of(&s, &st, y),
        }
    }

    fn bbox(&self, f: &Figure, st: &Style) -> (i64, i64, i64, i64) {
        let st = style(st);
        rectangle(&match shape(f) {
            Shape::Ellipse(s) => s.styled_box(&st),
            Shape::Box(s) => s.styled_box(&st),
        })
    }

    fn paint(&self, f: &Figure, st: &Style, w: i64, h: i64, bytes: &mut [u8]) {
        let st = style(st);
        match shape(f) {
            Shape::Ellipse(s) => paint_on(&s, &st, w, h, bytes),
            Shape::Box(s) => paint_on(&s, &st, w, h, bytes),
        }
    }
}
