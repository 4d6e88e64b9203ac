//! The DEFINITIONS of document 01, and what document 02 adds to them, plainly, in i64 (the widest number
//! here stays below 2^52; this build has overflow checks on as well). Written from the papers, not from
//! the Rust. Sentences of the papers are quoted at the code that says them.

use crate::records::{Answers, Figure, Kind, Plain, Style};

/// "The records": limits and the numbers that refuse.
pub const MAX_SIDE: i64 = 1024;
pub const MAX_RADIUS: i64 = 1024;
pub const MAX_XY: i64 = 4096;
pub const MAX_ASKED: i64 = 8192;
pub const MAX_WIDTH: i64 = 256;
pub const MAX_LAYERS: usize = 16;

fn within(v: i64, limit: i64) -> bool {
    -limit <= v && v <= limit
}

/// Numbers 1 to 3: the lowest that applies to a figure.
pub fn figure_refusal(f: &Figure) -> Option<u32> {
    let side = |v: i64| (0..=MAX_SIDE).contains(&v);
    let radius = |v: i64| (0..=MAX_RADIUS).contains(&v);
    if !side(f.w) || !side(f.h) {
        return Some(1);
    }
    if f.kind != Kind::Ellipse && !f.radii.iter().all(|r| radius(r.0) && radius(r.1)) {
        return Some(2);
    }
    if !within(f.x, MAX_XY) || !within(f.y, MAX_XY) {
        return Some(3);
    }
    None
}

/// Number 5 for a style.
pub fn style_refusal(s: &Style) -> Option<u32> {
    (!(0..=MAX_WIDTH).contains(&s.width)).then_some(5)
}

/// Number 4: "an asked point or row beyond ±8192".
pub fn asked_refusal(v: i64) -> Option<u32> {
    (!within(v, MAX_ASKED)).then_some(4)
}

/// Number 5: "an offset beyond ±256".
pub fn offset_refusal(k: i64) -> Option<u32> {
    (!within(k, MAX_WIDTH)).then_some(5)
}

/// Number 6: "W or H outside 1..1024".
pub fn canvas_refusal(w: i64, h: i64) -> Option<u32> {
    (!(1..=1024).contains(&w) || !(1..=1024).contains(&h)).then_some(6)
}

/// The lowest number that applies to a call that C does not have; that of `with_center` goes by what is made.
pub fn plain_refusal(call: &Plain) -> Option<u32> {
    let of = |[x, y, w, h]: [i64; 4]| figure_refusal(&Figure { kind: Kind::Ellipse, x, y, w, h, radii: [(0, 0); 4] });
    match *call {
        Plain::Center(r) | Plain::Rows(r) | Plain::Columns(r) => of(r),
        Plain::WithCenter([cx, cy, w, h]) => figure_refusal(&with_center(cx, cy, w, h)),
        Plain::Offset(r, k) => of(r).or(offset_refusal(k)),
        Plain::Range(..) => None,
        Plain::Widths(width, align) => style_refusal(&Style { stroke: None, fill: None, width, align }),
    }
}

#[derive(Clone, Copy, PartialEq, Eq, Debug)]
struct Rect {
    x: i64,
    y: i64,
    w: i64,
    h: i64,
}

/// "floor(max(side − 1, 0) / 2)"
fn centre_term(side: i64) -> i64 {
    (side - 1).max(0).div_euclid(2)
}

/// "Offset by k adds 2k to both sides (k may be negative; never below 0) about the centre."
fn offset_rect(r: Rect, k: i64) -> Rect {
    let (w, h) = ((r.w + 2 * k).max(0), (r.h + 2 * k).max(0));
    let (cx, cy) = (r.x + centre_term(r.w), r.y + centre_term(r.h));
    Rect {
        x: cx - centre_term(w),
        y: cy - centre_term(h),
        w,
        h,
    }
}

/// "`with_center` subtracts the same term of the new size"
pub fn with_center(cx: i64, cy: i64, w: i64, h: i64) -> Figure {
    Figure {
        kind: Kind::Ellipse,
        x: cx - centre_term(w),
        y: cy - centre_term(h),
        w,
        h,
        radii: [(0, 0); 4],
    }
}

/// "Outside width: 0, floor(s / 2), s for Inside, Center, Outside with stroke width s."
fn outside_width(s: &Style) -> i64 {
    match s.align {
        0 => 0,
        1 => s.width.div_euclid(2),
        _ => s.width,
    }
}

/// "Inside width: s, floor((s + 1) / 2), 0."
fn inside_width(s: &Style) -> i64 {
    match s.align {
        0 => s.width,
        1 => (s.width + 1).div_euclid(2),
        _ => 0,
    }
}

/// "If w = h the point is inside when X² + Y² < t, where t = w² − floor(w / 2) for w ≤ 4 and w²
/// above. Else when h²X² + w²Y² < w²h²."
fn inside(w: i64, h: i64, big_x: i64, big_y: i64) -> bool {
    if w == h {
        big_x * big_x + big_y * big_y < threshold(w)
    } else {
        h * h * big_x * big_x + w * w * big_y * big_y < w * w * h * h
    }
}

pub fn threshold(w: i64) -> i64 {
    if w <= 4 {
        w * w - w.div_euclid(2)
    } else {
        w * w
    }
}

/// "let C = 2 × top-left + max(side − 1, 0) per axis, and (X, Y) = 2 × point − C"
fn doubled_centre(r: Rect) -> (i64, i64) {
    (2 * r.x + (r.w - 1).max(0), 2 * r.y + (r.h - 1).max(0))
}

fn in_ellipse(r: Rect, px: i64, py: i64) -> bool {
    let (cx, cy) = doubled_centre(r);
    inside(r.w, r.h, 2 * px - cx, 2 * py - cy)
}

pub type Radii = [(i64, i64); 4]; // top-left, top-right, bottom-right, bottom-left

/// What a rule gives (document 02): "radii, L and S, unreduced, of the deciding edge".
#[derive(Clone, Copy, PartialEq, Eq, Debug)]
pub struct Confined {
    pub radii: Radii,
    pub l: i64,
    pub s: i64,
}

/// "S is the sum of the two radii along an edge, L its length; edges in the order top, right,
/// bottom, left."
fn edges(r: &Radii, w: i64, h: i64) -> [(i64, i64); 4] {
    [
        (r[0].0 + r[1].0, w),
        (r[1].1 + r[2].1, h),
        (r[3].0 + r[2].0, w),
        (r[0].1 + r[3].1, h),
    ]
}

/// S and L where no edge decides: "1 over 1 when nothing was reduced".
const NOTHING_REDUCED: (i64, i64) = (1, 1);

/// Every radius r as "floor(r × L / S)", with S and L of the deciding edge or 1 and 1.
fn scaled(r: &Radii, (s, l): (i64, i64)) -> Confined {
    let radii = r.map(|(a, b)| ((a * l).div_euclid(s), (b * l).div_euclid(s)));
    Confined { radii, l, s }
}

/// "Crate rule: the first edge with the largest S − L above 0 scales every radius r to
/// floor(r × L / S)."
fn confine_crate(r: &Radii, w: i64, h: i64) -> Confined {
    let edges = edges(r, w, h);
    let largest = edges.iter().map(|(s, l)| s - l).max().unwrap();
    if largest <= 0 {
        return scaled(r, NOTHING_REDUCED);
    }
    scaled(r, *edges.iter().find(|(s, l)| s - l == largest).unwrap())
}

/// "W3C rule: if some S > L, every r becomes floor(r × L / S) for the edge with the smallest L / S,
/// compared exactly, among those with S > 0." And "of equal W3C ratios the first edge in order"
/// (document 02).
fn confine_w3c(r: &Radii, w: i64, h: i64) -> Confined {
    let edges = edges(r, w, h);
    if !edges.iter().any(|(s, l)| s > l) {
        return scaled(r, NOTHING_REDUCED);
    }
    // L1 / S1 <= L2 / S2 exactly when L1 * S2 <= L2 * S1
    let edge = edges
        .iter()
        .filter(|(s, _)| *s > 0)
        .find(|(s, l)| {
            edges
                .iter()
                .filter(|(s2, _)| *s2 > 0)
                .all(|(s2, l2)| l * s2 <= l2 * s)
        })
        .unwrap();
    scaled(r, *edge)
}

/// A box's radii as its rule confines them, with L and S; none for an ellipse.
pub fn confined(f: &Figure) -> Option<Confined> {
    match f.kind {
        Kind::Ellipse => None,
        Kind::Crate => Some(confine_crate(&f.radii, f.w, f.h)),
        Kind::W3c => Some(confine_w3c(&f.radii, f.w, f.h)),
    }
}

/// "A crate box's radii change by k, never below 0."
fn offset_radii(r: &Radii, k: i64) -> Radii {
    r.map(|(a, b)| ((a + k).max(0), (b + k).max(0)))
}

/// "For growth k above 0, a radius number r below k becomes r + k − ceil((k − r)³ / k²); otherwise r + k."
/// (document 02)
fn grown(r: i64, k: i64) -> i64 {
    if r >= k {
        return r + k;
    }
    let (cube, square) = ((k - r).pow(3), k * k);
    // one more than the quotient where something is left
    let ceil = cube / square + (cube % square != 0) as i64;
    r + k - ceil
}

/// "This replaces 'offset like a crate box' for outward growth of W3C boxes" (document 02).
fn offset_radii_w3c(r: &Radii, k: i64) -> Radii {
    if k > 0 {
        return r.map(|(a, b)| (grown(a, k), grown(b, k)));
    }
    offset_radii(r, k)
}

/// A figure offset and ready for its rows: its rectangle, and a box's confined radii with its
/// corner ellipses.
pub struct Area {
    kind: Kind,
    rect: Rect,
    /// per corner: the quadrant, and the whole ellipse whose matching quarter fills it
    corners: [(Rect, Rect); 4],
    /// an ellipse's first row has an inside column
    drawn: bool,
}

fn rect_of(f: &Figure) -> Rect {
    Rect {
        x: f.x,
        y: f.y,
        w: f.w,
        h: f.h,
    }
}

/// "A crate box is offset, then confined. A W3C box is confined, offset [..], confined again."
pub fn area(f: &Figure, k: i64) -> Area {
    let rect = offset_rect(rect_of(f), k);
    let radii = match f.kind {
        Kind::Ellipse => [(0, 0); 4],
        Kind::Crate => confine_crate(&offset_radii(&f.radii, k), rect.w, rect.h).radii,
        Kind::W3c => three_steps(f, k, rect),
    };
    // "Each corner's quadrant is the rectangle of its confined radii in that corner of the box; its
    // test is that of the whole ellipse of twice the radii whose matching quarter fills it."
    let (left, top) = (rect.x, rect.y);
    let (right, bottom) = (rect.x + rect.w, rect.y + rect.h);
    let corner = |i: usize, on_right: bool, at_bottom: bool| {
        let (a, b) = radii[i];
        let quadrant = Rect {
            x: if on_right { right - a } else { left },
            y: if at_bottom { bottom - b } else { top },
            w: a,
            h: b,
        };
        let whole = Rect {
            x: if on_right { right - 2 * a } else { left },
            y: if at_bottom { bottom - 2 * b } else { top },
            w: 2 * a,
            h: 2 * b,
        };
        (quadrant, whole)
    };
    let corners = [
        corner(0, false, false),
        corner(1, true, false),
        corner(2, true, true),
        corner(3, false, true),
    ];
    let mut area = Area {
        kind: f.kind,
        rect,
        corners,
        drawn: true,
    };
    if f.kind == Kind::Ellipse {
        area.drawn = rect.h > 0 && area.first_inside(rect.y).is_some();
    }
    area
}

fn three_steps(f: &Figure, k: i64, rect: Rect) -> Radii {
    let once = confine_w3c(&f.radii, f.w, f.h).radii;
    confine_w3c(&offset_radii_w3c(&once, k), rect.w, rect.h).radii
}

/// "The stroke area is the figure offset by the outside width, the fill area by minus the inside
/// width."
pub fn stroke_area(f: &Figure, s: &Style) -> Area {
    area(f, outside_width(s))
}

pub fn fill_area(f: &Figure, s: &Style) -> Area {
    area(f, -inside_width(s))
}

impl Area {
    /// The first inside column of an ellipse's row.
    fn first_inside(&self, y: i64) -> Option<i64> {
        (self.rect.x..self.rect.x + self.rect.w).find(|x| in_ellipse(self.rect, *x, y))
    }

    pub fn kind(&self) -> Kind {
        self.kind
    }

    pub fn sides(&self) -> (i64, i64) {
        (self.rect.w, self.rect.h)
    }

    pub fn top_left(&self) -> (i64, i64) {
        (self.rect.x, self.rect.y)
    }

    /// A box's confined radii.
    pub fn corner_radii(&self) -> Radii {
        [0, 1, 2, 3].map(|i: usize| (self.corners[i].0.w, self.corners[i].0.h))
    }

    fn has_y(&self, y: i64) -> bool {
        self.rect.y <= y && y < self.rect.y + self.rect.h
    }

    /// The figure's rows: for an ellipse "all its rows, or no row if its first has no inside
    /// column"; for a box "every row".
    pub fn rows(&self) -> core::ops::Range<i64> {
        if self.drawn {
            self.rect.y..self.rect.y + self.rect.h
        } else {
            self.rect.y..self.rect.y
        }
    }

    /// A plain row: Some(run) or 'no row'.
    pub fn row(&self, y: i64) -> Option<(i64, i64)> {
        if !self.rows().contains(&y) {
            return None;
        }
        let (start, end) = (self.rect.x, self.rect.x + self.rect.w);
        if self.kind == Kind::Ellipse {
            // "A row runs from its first inside column c to columns.end − (c − columns.start)."
            let c = self
                .first_inside(y)
                .expect("paper: an ellipse has all its rows, or none");
            return Some((c, end - (c - start)));
        }
        // "on rows above the end of the top-left quadrant, else from the start of the bottom-left
        // one, the run starts at the first column of the box inside that ellipse, else at
        // columns.start. Its end, by the rows of the right-hand quadrants in the same way, is the
        // last column inside that ellipse plus 1, else columns.end."
        let deciding = |upper: usize, lower: usize| {
            let (top, bottom) = (&self.corners[upper], &self.corners[lower]);
            if y < top.0.y + top.0.h {
                Some(top.1)
            } else if y >= bottom.0.y {
                Some(bottom.1)
            } else {
                None
            }
        };
        let a = deciding(0, 3)
            .and_then(|e| (start..end).find(|x| in_ellipse(e, *x, y)))
            .unwrap_or(start);
        let b = deciding(1, 2)
            .and_then(|e| (start..end).rev().find(|x| in_ellipse(e, *x, y)))
            .map_or(end, |x| x + 1);
        Some((a, b))
    }

    /// "`contains`: false outside rows or columns; then the first that applies of top-left (y above
    /// the quadrant's end row, x left of its end column), top-right, bottom-left, bottom-right
    /// decides by its ellipse; else true."
    pub fn contains(&self, px: i64, py: i64) -> bool {
        let r = self.rect;
        if self.kind == Kind::Ellipse {
            return in_ellipse(r, px, py);
        }
        if !(self.has_y(py) && r.x <= px && px < r.x + r.w) {
            return false;
        }
        let [tl, tr, br, bl] = &self.corners;
        if py < tl.0.y + tl.0.h && px < tl.0.x + tl.0.w {
            in_ellipse(tl.1, px, py)
        } else if py < tr.0.y + tr.0.h && px >= tr.0.x {
            in_ellipse(tr.1, px, py)
        } else if py >= bl.0.y && px < bl.0.x + bl.0.w {
            in_ellipse(bl.1, px, py)
        } else if py >= br.0.y && px >= br.0.x {
            in_ellipse(br.1, px, py)
        } else {
            true
        }
    }
}

/// 'Styled rows': left, fill and right run, or 'no row'.
pub fn styled_row(stroke: &Area, fill: &Area, y: i64) -> Option<[i64; 6]> {
    // "Take the stroke area's run s..e."
    let (s, e) = stroke.row(y)?;
    let (fs, fe) = if stroke.kind == Kind::Ellipse {
        // "with c the first column of s..e inside the fill sides' ellipse about the stroke area's
        // C, fill is c..e − (c − s), else e..e."
        let (cx, cy) = doubled_centre(stroke.rect);
        match (s..e).find(|x| inside(fill.rect.w, fill.rect.h, 2 * x - cx, 2 * y - cy)) {
            Some(c) => (c, e - (c - s)),
            None => (e, e),
        }
    } else if fill.has_y(y) {
        // "if y is among the fill area's rows, fill is from the first column of s..e that the fill
        // area contains (else s) to the last plus 1 (else e)"
        let first = (s..e).find(|x| fill.contains(*x, y)).unwrap_or(s);
        let last = (s..e).rev().find(|x| fill.contains(*x, y));
        (first, last.map_or(e, |x| x + 1))
    } else {
        // "off those rows it is e..e"
        (e, e)
    };
    // "Left is s..fill start, right is fill end..e."
    Some([s, fs, fs, fe, fe, e])
}

/// "To overpaint a canvas row by a styled row is to set its pixels in the two stroke runs to the
/// stroke colour and those in the fill run to the fill colour; an absent paint sets none."
fn overpaint(row: &mut [u8], runs: &[i64; 6], s: &Style) {
    let mut set = |a: i64, b: i64, paint: Option<u8>| {
        if let Some(c) = paint {
            for x in a.max(0)..b.min(row.len() as i64) {
                row[x as usize] = c;
            }
        }
    };
    set(runs[0], runs[1], s.stroke);
    set(runs[2], runs[3], s.fill);
    set(runs[4], runs[5], s.stroke);
}

fn overpaint_at(bytes: &mut [u8], w: i64, h: i64, y: i64, runs: &[i64; 6], s: &Style) {
    if 0 <= y && y < h {
        let from = (y * w) as usize;
        overpaint(&mut bytes[from..from + w as usize], runs, s);
    }
}

pub struct Reference;

impl Answers for Reference {
    fn plain(&self, call: &Plain) -> Vec<i64> {
        let sides = |r: Rect| vec![r.x, r.y, r.w, r.h];
        match *call {
            // "the centre is top-left plus floor(max(side − 1, 0) / 2) per axis"
            Plain::Center([x, y, w, h]) => vec![x + centre_term(w), y + centre_term(h)],
            Plain::WithCenter([cx, cy, w, h]) => sides(rect_of(&with_center(cx, cy, w, h))),
            // "rows are y..y + height, columns x..x + width, also when the other side is 0"
            Plain::Rows([_, y, _, h]) => vec![y, y + h],
            Plain::Columns([x, _, w, _]) => vec![x, x + w],
            Plain::Offset([x, y, w, h], k) => sides(offset_rect(Rect { x, y, w, h }, k)),
            Plain::Range(start, end, v) => vec![(start <= v && v < end) as i64, (start >= end) as i64],
            Plain::Widths(width, align) => {
                let s = Style { stroke: None, fill: None, width, align };
                vec![outside_width(&s), inside_width(&s)]
            }
        }
    }

    fn contains(&self, f: &Figure, px: i64, py: i64) -> bool {
        area(f, 0).contains(px, py)
    }

    fn row(&self, f: &Figure, y: i64) -> Option<(i64, i64)> {
        area(f, 0).row(y)
    }

    /// "Points are listed as x, y pairs, row by row, up to the first empty row"
    fn points(&self, f: &Figure) -> Vec<i32> {
        let area = area(f, 0);
        let mut list = Vec::new();
        for y in area.rows() {
            let (a, b) = area.row(y).unwrap();
            if b <= a {
                break;
            }
            for x in a..b {
                list.push(x as i32);
                list.push(y as i32);
            }
        }
        list
    }

    /// "A public offset call gives rectangle and radii, a crate box's not confined, a W3C box's
    /// after its three steps below"
    fn offset(&self, f: &Figure, k: i64) -> Figure {
        let rect = offset_rect(rect_of(f), k);
        Figure {
            kind: f.kind,
            x: rect.x,
            y: rect.y,
            w: rect.w,
            h: rect.h,
            radii: match f.kind {
                Kind::Ellipse => f.radii,
                Kind::Crate => offset_radii(&f.radii, k),
                Kind::W3c => three_steps(f, k, rect),
            },
        }
    }

    fn confine(&self, f: &Figure) -> Option<[(i64, i64); 4]> {
        confined(f).map(|c| c.radii)
    }

    fn srow(&self, f: &Figure, s: &Style, y: i64) -> Option<[i64; 6]> {
        styled_row(&stroke_area(f, s), &fill_area(f, s), y)
    }

    /// "the styled bounding box is the rectangle offset by the outside width"
    fn bbox(&self, f: &Figure, s: &Style) -> (i64, i64, i64, i64) {
        let r = offset_rect(rect_of(f), outside_width(s));
        (r.x, r.y, r.w, r.h)
    }

    fn paint(&self, f: &Figure, s: &Style, w: i64, h: i64, bytes: &mut [u8]) {
        let (stroke, fill) = (stroke_area(f, s), fill_area(f, s));
        for y in stroke.rows() {
            // rows off the canvas paint nothing
            if 0 <= y && y < h {
                overpaint_at(bytes, w, h, y, &styled_row(&stroke, &fill, y).unwrap(), s);
            }
        }
    }
}

// ---- the sheet and the book ----

/// A call with its arguments other than the sheet, its canvas and a background.
#[derive(Clone, Debug)]
pub enum Call {
    Add(Figure, Style),
    Paint(usize),
    Remove(usize),
}

/// The lowest of numbers 1, 2, 3, 5 that applies.
fn add_refusal(f: &Figure, s: &Style) -> Option<u32> {
    figure_refusal(f).or(style_refusal(s))
}

struct Layer {
    style: Style,
    stroke: Area,
    fill: Area,
    next: i64,
}

impl Layer {
    fn new(f: &Figure, s: &Style, next: Option<i64>) -> Layer {
        let stroke = stroke_area(f, s);
        let next = next.unwrap_or(stroke.rows().start);
        Layer {
            style: *s,
            stroke,
            fill: fill_area(f, s),
            next,
        }
    }

    /// "An earlier layer owes y if y is among its rows and its next row is ≤ y."
    fn owes(&self, y: i64) -> bool {
        self.stroke.rows().contains(&y) && self.next <= y
    }

    /// A row that it had painted: one that it went past.
    fn had_painted(&self, y: i64) -> bool {
        self.stroke.rows().contains(&y) && y < self.next
    }
}

/// The plain sheet: layers with a next row each.
pub struct Sheet {
    w: i64,
    h: i64,
    layers: Vec<Layer>,
}

impl Sheet {
    pub fn open(w: i64, h: i64) -> Result<Sheet, u32> {
        match canvas_refusal(w, h) {
            Some(n) => Err(n),
            None => Ok(Sheet {
                w,
                h,
                layers: Vec::new(),
            }),
        }
    }

    /// A sheet given as a record, with as many of its places for layers as it says; 7 if it breaks a
    /// rule: "sizes, figures and styles within limits; at most 16 layers; next row from the figure's
    /// first row to the one after its last (the stroke area's top if it has none); no layer has a row
    /// y, less than its next row, that an earlier layer owes."
    pub fn given(w: i64, h: i64, count: i64, places: &[(Figure, Style, i64)]) -> Result<Sheet, u32> {
        if canvas_refusal(w, h).is_some() || count > MAX_LAYERS as i64 {
            return Err(7);
        }
        let places = &places[..count as usize];
        if places.iter().any(|(f, s, _)| add_refusal(f, s).is_some()) {
            return Err(7);
        }
        let layers: Vec<Layer> = places
            .iter()
            .map(|(f, s, next)| Layer::new(f, s, Some(*next)))
            .collect();
        let reached = |l: &Layer| l.stroke.rows().start <= l.next && l.next <= l.stroke.rows().end;
        let overtakes = |i: usize| {
            let painted = layers[i].stroke.rows().take_while(|y| *y < layers[i].next);
            painted.into_iter().any(|y| layers[..i].iter().any(|e| e.owes(y)))
        };
        if !layers.iter().all(reached) || (0..layers.len()).any(overtakes) {
            return Err(7);
        }
        Ok(Sheet { w, h, layers })
    }

    /// The next row of a layer.
    pub fn next_row(&self, i: usize) -> i64 {
        self.layers[i].next
    }

    /// "Adding puts a figure on top, its next row its first stroke-area row." 0, or the refusal.
    pub fn add(&mut self, f: &Figure, s: &Style) -> u32 {
        if let Some(n) = add_refusal(f, s) {
            return n;
        }
        if self.layers.len() == MAX_LAYERS {
            return 9;
        }
        self.layers.push(Layer::new(f, s, None));
        0
    }

    /// "Painting a layer writes the styled row at its next row onto the canvas, absent paints and
    /// pixels off the canvas skipped, and moves next row down by one."
    pub fn paint(&mut self, i: usize, bytes: &mut [u8]) -> u32 {
        if i >= self.layers.len() {
            return 10;
        }
        let y = self.layers[i].next;
        if !self.layers[i].stroke.rows().contains(&y) {
            return 11;
        }
        if self.layers[..i].iter().any(|l| l.owes(y)) {
            return 12;
        }
        let layer = &mut self.layers[i];
        let runs = styled_row(&layer.stroke, &layer.fill, y).unwrap();
        overpaint_at(bytes, self.w, self.h, y, &runs, &layer.style);
        layer.next += 1;
        0
    }

    /// "Removing a layer takes the sheet, the canvas and a background of the same length" (document 02).
    pub fn remove(&mut self, i: usize, bytes: &mut [u8], background: &[u8]) -> u32 {
        // "Number 8 covers either buffer"
        let pixels = (self.w * self.h) as usize;
        if bytes.len() != pixels || background.len() != pixels {
            return 8;
        }
        if i >= self.layers.len() {
            return 10;
        }
        // "Later layers move down one number."
        let gone = self.layers.remove(i);
        // "Rows that the layer had painted are copied whole from the background and overpainted by the other layers that
        // had painted them."
        for y in (0..self.h).filter(|y| gone.had_painted(*y)) {
            let row = (y * self.w) as usize..((y + 1) * self.w) as usize;
            bytes[row.clone()].copy_from_slice(&background[row]);
            for other in self.layers.iter().filter(|other| other.had_painted(y)) {
                let runs = styled_row(&other.stroke, &other.fill, y).unwrap();
                overpaint_at(bytes, self.w, self.h, y, &runs, &other.style);
            }
        }
        0
    }
}

/// "The book of demand 3": figures in order, each with its style and a count.
pub struct Book {
    noted: Vec<(Figure, Style, i64)>,
}

impl Book {
    pub fn open() -> Book {
        Book { noted: Vec::new() }
    }

    fn rows(&self, i: usize) -> core::ops::Range<i64> {
        stroke_area(&self.noted[i].0, &self.noted[i].1).rows()
    }

    /// "A figure with count n has painted the first n rows of its stroke area"
    pub fn painted(&self, i: usize) -> core::ops::Range<i64> {
        let rows = self.rows(i);
        rows.start..rows.start + self.noted[i].2
    }

    /// "its other rows are left, and it owes each of them"
    fn left(&self, i: usize) -> core::ops::Range<i64> {
        let rows = self.rows(i);
        rows.start + self.noted[i].2..rows.end
    }

    pub fn call(&mut self, call: &Call) -> u32 {
        match call {
            Call::Add(f, s) => {
                // "the lowest of numbers 1, 2, 3, 5 and 9 that applies, where 9 goes by the
                // figures noted"
                if let Some(n) = add_refusal(f, s) {
                    return n;
                }
                if self.noted.len() >= MAX_LAYERS {
                    return 9;
                }
                self.noted.push((*f, *s, 0));
                0
            }
            Call::Paint(i) => {
                if self.noted.len() <= *i {
                    return 10;
                }
                let left = self.left(*i);
                if left.is_empty() {
                    return 11;
                }
                if (0..*i).any(|j| self.left(j).contains(&left.start)) {
                    return 12;
                }
                self.noted[*i].2 += 1;
                0
            }
            Call::Remove(i) => {
                // "the number 10 if no more than i figures are noted; else it accepts and strikes out figure i with its
                // count, whether or not that has rows left: 11 and 12 are for paint calls" (document 02)
                if self.noted.len() <= *i {
                    return 10;
                }
                self.noted.remove(*i);
                0
            }
        }
    }

    /// "every canvas row equals the row as first lent, overpainted in the order of adding by the
    /// styled rows there of exactly the figures that have painted that row"
    /// with the styled rows that `by` gives.
    pub fn canvas(&self, w: i64, h: i64, first_lent: &[u8], by: &dyn Answers) -> Vec<u8> {
        let mut bytes = first_lent.to_vec();
        for y in 0..h {
            for i in 0..self.noted.len() {
                if self.painted(i).contains(&y) {
                    let (f, s, _) = &self.noted[i];
                    let runs = by.srow(f, s, y).expect("a painted row is there");
                    overpaint_at(&mut bytes, w, h, y, &runs, s);
                }
            }
        }
        bytes
    }

    /// The earliest figure with rows left.
    pub fn earliest(&self) -> Option<usize> {
        (0..self.noted.len()).find(|i| !self.left(*i).is_empty())
    }

    pub fn figures(&self) -> impl Iterator<Item = (&Figure, &Style)> {
        self.noted.iter().map(|(f, s, _)| (f, s))
    }

    /// The figures with the first row that each has left: the layers of a sheet.
    pub fn layers(&self) -> Vec<(Figure, Style, i64)> {
        (0..self.noted.len()).map(|i| (self.noted[i].0, self.noted[i].1, self.painted(i).end)).collect()
    }
}

/// A book, and what lies under its figures: the canvas as first lent; but where a figure struck out had painted a row, the
/// background's row. So with the canvas as first lent for background "each canvas row is the background row overpainted by
/// the layers still present that have painted it" (document 02), and with any other it is known what lies under them.
pub struct Page {
    w: i64,
    h: i64,
    pub book: Book,
    pub ground: Vec<u8>,
}

impl Page {
    pub fn open(w: i64, h: i64, first_lent: &[u8]) -> Page {
        Page { w, h, book: Book::open(), ground: first_lent.to_vec() }
    }

    /// The book's answer. "Number 8 covers either buffer; a removal with another canvas or background stands in no list":
    /// with one of another length it gets 8, and the book is not asked.
    pub fn call(&mut self, call: &Call, background: &[u8]) -> u32 {
        let Call::Remove(i) = call else {
            return self.book.call(call);
        };
        if background.len() as i64 != self.w * self.h {
            return 8;
        }
        let there = *i < self.book.noted.len();
        let seen = if there { self.book.painted(*i) } else { 0..0 };
        for y in seen.start.max(0)..seen.end.min(self.h) {
            let row = (y * self.w) as usize..((y + 1) * self.w) as usize;
            self.ground[row.clone()].copy_from_slice(&background[row]);
        }
        self.book.call(call)
    }

    /// With the styled rows that `by` gives.
    pub fn canvas(&self, by: &dyn Answers) -> Vec<u8> {
        self.book.canvas(self.w, self.h, &self.ground, by)
    }
}

/// What comes with a list of calls: a canvas of some sides as first lent, and the background of its removals.
#[derive(Clone, Copy)]
pub struct Lent<'a> {
    pub w: i64,
    pub h: i64,
    pub canvas: &'a [u8],
    pub background: &'a [u8],
}

/// A whole list of calls in the book alone, with the styled rows of `by`.
pub fn book_script(lent: Lent, calls: &[Call], by: &dyn Answers) -> (Vec<u32>, Vec<u8>) {
    let mut page = Page::open(lent.w, lent.h, lent.canvas);
    let answers = calls.iter().map(|c| page.call(c, lent.background)).collect();
    (answers, page.canvas(by))
}

/// A whole list of calls, on the sheet and in the book: the answers and the canvas, or what
/// differs between the two.
pub fn script(lent: Lent, calls: &[Call]) -> Result<(Vec<u32>, Vec<u8>), String> {
    let mut sheet = match Sheet::open(lent.w, lent.h) {
        Ok(sheet) => sheet,
        Err(n) => return Ok((vec![n], Vec::new())),
    };
    let mut page = Page::open(lent.w, lent.h, lent.canvas);
    let mut bytes = lent.canvas.to_vec();
    let mut answers = Vec::new();
    for (at, call) in calls.iter().enumerate() {
        let answer = match call {
            Call::Add(f, s) => sheet.add(f, s),
            Call::Paint(i) => sheet.paint(*i, &mut bytes),
            Call::Remove(i) => sheet.remove(*i, &mut bytes, lent.background),
        };
        let noted = page.call(call, lent.background);
        if answer != noted {
            return Err(format!("call {at}: sheet {answer}, book {noted}"));
        }
        answers.push(answer);
    }
    if page.canvas(&Reference) != bytes {
        return Err("canvas of the sheet and of the book differ".to_string());
    }
    let next_rows = |(i, l): (usize, &(Figure, Style, i64))| l.2 == sheet.next_row(i);
    let layers = page.book.layers();
    if layers.len() != sheet.layers.len() || !layers.iter().enumerate().all(next_rows) {
        return Err("next rows of the sheet and of the book differ".to_string());
    }
    Ok((answers, bytes))
}
