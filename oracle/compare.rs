//! `oracle compare [SEED [EFFORT]]`: the original against the reference, call by call.
//! Exhaustive over small figures, random up to the limits. EFFORT 100 is the standard run; it
//! scales the random parts; with 0 only the small exhaustive parts run.

use crate::{
    asked::{
        shrunk,
        Ask::{self, *},
    },
    findings,
    original::Original,
    records::{attempt, first_lent, Answers, Figure, Kind, Style},
    reference::{self, area, fill_area, stroke_area, styled_row, Area, Call, Lent, Page, Reference},
};
use std::{collections::BTreeMap, fmt::Debug, time::Instant};

// ---- counting ----

#[derive(Default)]
pub struct Tally {
    equal: u64,
    pub panics: u64,
    different: u64,
}

struct Class {
    count: u64,
    size: i64,
    smallest: (Figure, Ask),
}

#[derive(Default)]
struct Forecast {
    right: u64,
    wrong: u64,
    examples: Vec<String>,
}

#[derive(Default)]
pub struct Report {
    pub tallies: BTreeMap<&'static str, Tally>,
    /// per query, figure kind and place: how often, and the smallest input
    panics: BTreeMap<(&'static str, &'static str, String), Class>,
    /// per query: the smallest inputs with different answers
    different: BTreeMap<&'static str, Vec<(i64, String)>>,
    forecasts: BTreeMap<&'static str, Forecast>,
    decisions: Decisions,
    removals: Removals,
    /// `draw` beside `paint`, both of the original: no demand, only a note
    draw_equal: u64,
    draw_other: u64,
    draw_smallest: Option<(i64, String)>,
}

/// How often the radii of a box were confined, by its rule and by how its deciding edge came to decide.
#[derive(Default)]
pub struct Decisions(BTreeMap<(&'static str, &'static str), u64>);

impl Decisions {
    pub fn note(&mut self, f: &Figure) {
        *self.0.entry((name(f), decision(f))).or_default() += 1;
    }

    pub fn print(&self) {
        for ((rule, decision), count) in &self.0 {
            println!("confined, {rule}, {decision}: {count}");
        }
    }

    /// What was met less often than this, if anything.
    pub fn missed(&self, least: u64) -> Option<String> {
        let mut all = ["box", "W3C box"].into_iter().flat_map(|rule| DECISIONS.map(|decision| (rule, decision)));
        all.find_map(|(rule, decision)| {
            let met = self.0.get(&(rule, decision)).copied().unwrap_or(0);
            (met < least).then(|| format!("{rule}, {decision}: {met}"))
        })
    }
}

/// How often a layer was removed, by what it was then; of one removal several are true.
#[derive(Default)]
pub struct Removals(BTreeMap<&'static str, u64>);

/// What a layer may be when it is removed. Its rows are those of its stroke area; 'there' is a row of the canvas that it has
/// painted.
const REMOVALS: [&str; 17] = [
    "the only layer",
    "the first of several",
    "the last of several",
    "one between others",
    "without rows",
    "before its first row",
    "in the middle of its rows",
    "after its last row",
    "painted above the canvas alone",
    "painted below the canvas alone",
    "painted beside the canvas alone",
    "an earlier layer has painted there, no later one has",
    "a later layer has painted there, no earlier one has",
    "earlier and later layers have painted there",
    "no other layer has painted there",
    "a later layer has still to paint there",
    "a later layer waits for it",
];

/// And the lists in which layers are removed, by their background, or by what a removal was answered.
const REMOVING_LISTS: [&str; 5] = [
    "lists over the canvas as first lent",
    "lists over another background",
    "lists with a background of another length",
    "lists with an empty background",
    "lists with a removal refused by 10",
];

impl Removals {
    /// Layer i of these is removed, each with its next row, from a canvas of w by h.
    pub fn note(&mut self, w: i64, h: i64, layers: &[(Figure, Style, i64)], i: usize) {
        for (kind, met) in REMOVALS.iter().zip(removal(w, h, layers, i)) {
            *self.0.entry(kind).or_default() += met as u64;
        }
    }

    /// A list of calls, and what it was answered.
    pub fn note_list(&mut self, lent: Lent, calls: &[Call], answers: &[u32]) {
        let answered = |number: u32| {
            calls.iter().zip(answers).any(|(call, answer)| matches!(call, Call::Remove(_)) && *answer == number)
        };
        let pixels = lent.canvas.len();
        let met = [
            answered(0) && lent.background == lent.canvas,
            answered(0) && lent.background != lent.canvas,
            answered(8) && lent.background.len() != pixels && !lent.background.is_empty(),
            answered(8) && lent.background.is_empty(),
            answered(10),
        ];
        for (kind, met) in REMOVING_LISTS.iter().zip(met) {
            *self.0.entry(kind).or_default() += met as u64;
        }
    }

    pub fn print(&self) {
        for (kind, count) in &self.0 {
            println!("removed, {kind}: {count}");
        }
    }

    /// What was met less often than this, if anything.
    pub fn missed(&self, least: u64) -> Option<String> {
        REMOVALS.iter().chain(&REMOVING_LISTS).find_map(|kind| {
            let met = self.0.get(kind).copied().unwrap_or(0);
            (met < least).then(|| format!("{kind}: {met}"))
        })
    }
}

/// Which of `REMOVALS` are true of layer i.
fn removal(w: i64, h: i64, layers: &[(Figure, Style, i64)], i: usize) -> [bool; REMOVALS.len()] {
    let areas: Vec<Area> = layers.iter().map(|(f, s, _)| stroke_area(f, s)).collect();
    let (rows, next) = (areas[i].rows(), layers[i].2);
    let (left, right) = (areas[i].top_left().0, areas[i].top_left().0 + areas[i].sides().0);
    let painted = rows.start < next;
    let seen = rows.start.max(0)..next.min(h);
    // whether one of the rows seen is among those from a to b
    let meets = |a: i64, b: i64| seen.start.max(a) < seen.end.min(b);
    let has_painted = |j: usize| meets(areas[j].rows().start, layers[j].2);
    let earlier = (0..i).any(has_painted);
    let behind = || i + 1..layers.len();
    let later = behind().any(has_painted);
    [
        layers.len() == 1,
        layers.len() > 1 && i == 0,
        layers.len() > 1 && i == layers.len() - 1,
        0 < i && i < layers.len() - 1,
        rows.is_empty(),
        !painted && !rows.is_empty(),
        painted && next < rows.end,
        painted && next == rows.end,
        painted && next <= 0,
        painted && rows.start >= h,
        !seen.is_empty() && (right <= 0 || w <= left),
        earlier && !later,
        later && !earlier,
        earlier && later,
        !seen.is_empty() && !earlier && !later,
        behind().any(|j| meets(layers[j].2, areas[j].rows().end)),
        behind().any(|j| {
            let waits_at = layers[j].2;
            areas[j].rows().contains(&waits_at) && next <= waits_at && rows.contains(&waits_at)
        }),
    ]
}

fn size_of(f: &Figure) -> i64 {
    let radii: i64 = f.radii.iter().map(|r| r.0 + r.1).sum();
    // position counts little: a smaller figure at another place is still smaller
    64 * (f.w + f.h + if f.kind == Kind::Ellipse { 0 } else { radii }) + (f.x.abs() + f.y.abs()) / 128
}

fn name(f: &Figure) -> &'static str {
    match f.kind {
        Kind::Ellipse => "ellipse",
        Kind::Crate => "box",
        Kind::W3c => "W3C box",
    }
}

impl Report {
    fn equal(&mut self, query: &'static str, count: u64) {
        self.tallies.entry(query).or_default().equal += count;
    }

    fn differs(&mut self, query: &'static str, f: &Figure, extra: i64, text: String) {
        self.tallies.entry(query).or_default().different += 1;
        let list = self.different.entry(query).or_default();
        list.push((size_of(f) + 64 * extra, text));
        list.sort();
        list.truncate(5);
    }

    pub fn panicked(&mut self, query: &'static str, f: &Figure, ask: Ask, place: String) {
        self.tallies.entry(query).or_default().panics += 1;
        let size = size_of(f) + 64 * ask.size();
        let smallest = (*f, ask);
        let class = self.panics.entry((query, name(f), place)).or_insert(Class { count: 0, size, smallest });
        class.count += 1;
        if size < class.size {
            *class = Class { size, smallest, ..*class };
        }
    }

    /// One answer of each side.
    fn check<T: PartialEq + Debug>(
        &mut self,
        query: &'static str,
        f: &Figure,
        ask: Ask,
        original: Result<T, String>,
        reference: T,
    ) {
        match original {
            Err(place) => self.panicked(query, f, ask, place),
            Ok(v) if v == reference => self.equal(query, 1),
            Ok(v) => {
                let mut t = format!("{v:?} / {reference:?}");
                t.truncate(200);
                self.differs(query, f, ask.size(), format!("{}: original / reference {t}", ask.line(f)));
            }
        }
    }

    fn forecast(&mut self, what: &'static str, right: bool, text: impl Fn() -> String) {
        let f = self.forecasts.entry(what).or_default();
        if right {
            f.right += 1;
        } else {
            f.wrong += 1;
            if f.examples.len() < 3 {
                f.examples.push(text());
            }
        }
    }

    // ---- what is asked ----

    /// Every row of the plain figure, and two above and below it.
    fn rows(&mut self, f: &Figure) {
        let a = area(f, 0);
        let original = attempt(|| Original.rows(f));
        let foretold = findings::rows(&a);
        let last = Ask::Row(f.y + f.h - 1);
        self.forecast("rows of a figure", foretold == original.is_err(), || last.line(f));
        if f.kind == Kind::Crate {
            let said = findings::box_rows(&a, false);
            self.forecast("rows of a box, the sentence as it stands", said == original.is_err(), || last.line(f));
        }
        let rows = match original {
            Err(place) => return self.panicked("row", f, last, place),
            Ok(rows) => rows,
        };
        if rows.iter().enumerate().any(|(i, r)| r.0 != f.y + i as i64) {
            self.differs("row", f, 0, format!("{}: rows come in another order", last.line(f)));
        }
        let mut equal = 0;
        for y in f.y - 2..f.y + f.h + 2 {
            let original = rows.get((y - f.y) as usize).filter(|_| y >= f.y).map(|r| (r.1, r.2));
            let reference = a.row(y);
            if original == reference {
                equal += 1;
            } else {
                let t = format!("{}: original / reference {original:?} / {reference:?}", Ask::Row(y).line(f));
                self.differs("row", f, 0, t);
            }
        }
        self.equal("row", equal);
    }

    fn contains(&mut self, f: &Figure, a: &Area, px: i64, py: i64) {
        let original = attempt(|| Original.contains(f, px, py));
        let right = foretold_contains(f, a, px, py) == original.is_err();
        let ask = Ask::Contains(px, py);
        self.forecast("contains", right, || ask.line(f));
        self.check("contains", f, ask, original, a.contains(px, py));
    }

    fn contains_all(&mut self, f: &Figure, margin: i64) {
        let a = area(f, 0);
        for py in f.y - margin..f.y + f.h + margin {
            for px in f.x - margin..f.x + f.w + margin {
                self.contains(f, &a, px, py);
            }
        }
    }

    fn points(&mut self, f: &Figure) {
        let original = attempt(|| Original.points(f));
        if f.kind == Kind::Ellipse {
            let right = findings::rows(&area(f, 0)) == original.is_err();
            self.forecast("points of an ellipse", right, || Ask::Points.line(f));
        } else if original.is_err() {
            let right = findings::rows(&area(f, 0));
            self.forecast("points of a box fail only where its rows do", right, || Ask::Points.line(f));
        }
        self.check("points", f, Ask::Points, original, Reference.points(f));
    }

    fn offset(&mut self, f: &Figure, k: i64) {
        self.check("offset", f, Ask::Offset(k), attempt(|| Original.offset(f, k)), Reference.offset(f, k));
    }

    /// The radii, and of a box L and S. The original does not say L and S: the reference's are held against another
    /// wording of the rule, and the original's radii against floor(r × L / S) of each radius r given.
    fn confine(&mut self, f: &Figure) {
        let original = attempt(|| Original.confine(f));
        if let Some(c) = reference::confined(f) {
            self.decisions.note(f);
            let made = f.radii.map(|(a, b)| (a * c.l / c.s, b * c.l / c.s));
            let said = original.clone().map(|radii| (radii, fraction(f)));
            self.check("fraction", f, Ask::Confine, said, (Some(made), (c.l, c.s)));
        }
        self.check("confine", f, Ask::Confine, original, Reference.confine(f));
    }

    /// Every styled row, two above and below, and the styled bounding box.
    fn styled(&mut self, f: &Figure, s: &Style) {
        self.check("bbox", f, Ask::StyledBox(*s), attempt(|| Original.bbox(f, s)), Reference.bbox(f, s));

        let (stroke, fill) = (stroke_area(f, s), fill_area(f, s));
        let original = attempt(|| Original.srows(f, s));
        let (sure, may) = findings::styled(&stroke, &fill);
        let right = if original.is_err() { may } else { !sure };
        let top = stroke.top_left().1;
        let bottom = top + stroke.sides().1;
        let last = Ask::StyledRow(*s, bottom - 1);
        self.forecast("styled rows (between surely and at most)", right, || last.line(f));
        let rows = match original {
            Err(place) => return self.panicked("srow", f, last, place),
            Ok(rows) => rows,
        };
        if rows.iter().enumerate().any(|(i, r)| r.0 != top + i as i64) {
            self.differs("srow", f, s.width, format!("{}: rows in another order", last.line(f)));
        }
        let mut equal = 0;
        for y in top - 2..bottom + 2 {
            let original = rows.get((y - top) as usize).filter(|_| y >= top).map(|r| r.1);
            let reference = styled_row(&stroke, &fill, y);
            if original == reference {
                equal += 1;
            } else {
                let line = Ask::StyledRow(*s, y).line(f);
                self.differs("srow", f, s.width, format!("{line}: original / reference {original:?} / {reference:?}"));
            }
        }
        self.equal("srow", equal);
    }

    fn paint(&mut self, f: &Figure, s: &Style, w: i64, h: i64) {
        let lent = first_lent(w, h, Some(101));
        let canvas = |paint: &dyn Fn(&mut [u8])| {
            let mut bytes = lent.clone();
            paint(&mut bytes);
            bytes
        };
        let ask = Ask::Paint(*s, w, h);
        let original = attempt(|| canvas(&|b| Original.paint(f, s, w, h, b)));
        let drawn = attempt(|| canvas(&|b| Original.draw(f, s, w, h, b)));
        if let (Ok(p), Ok(d)) = (&original, &drawn) {
            if p == d {
                self.draw_equal += 1;
            } else {
                self.draw_other += 1;
                let size = size_of(f) + s.width;
                if self.draw_smallest.as_ref().map_or(true, |(least, _)| size < *least) {
                    self.draw_smallest = Some((size, ask.line(f)));
                }
            }
        }
        let reference = canvas(&|b| Reference.paint(f, s, w, h, b));
        self.check("paint", f, ask, original, reference);
    }

    /// The canvas after a list of calls. Its figures are small, and the original finishes on each.
    fn canvas(&mut self, query: &'static str, calls: &[Call], original: Result<Vec<u8>, String>, reference: &[u8]) {
        match original {
            Ok(bytes) if bytes == reference => self.equal(query, 1),
            Ok(_) => self.differs(query, &NONE, calls.len() as i64, format!("the canvas after {calls:?}")),
            Err(place) => self.differs(query, &NONE, calls.len() as i64, format!("{place}: {calls:?}")),
        }
    }

    /// A list of calls: sheet against book; and without W3C boxes the canvas with the original's styled rows and, where all
    /// is painted, with its `pixels`, figure after figure.
    fn script(&mut self, script: &Script, done: bool) {
        let calls = &script.calls;
        let canvas = match reference::script(script.lent(), calls) {
            Err(what) => return self.differs("script", &NONE, calls.len() as i64, format!("{what}: {calls:?}")),
            Ok((answers, canvas)) => {
                self.equal("script", answers.len() as u64 + 1);
                canvas
            }
        };
        if script.with_w3c {
            return;
        }
        let by = attempt(|| reference::book_script(script.lent(), calls, &Original).1);
        self.canvas("script rows", calls, by, &canvas);
        if done {
            let by = attempt(|| {
                let mut bytes = script.page.ground.clone();
                for (f, s) in script.page.book.figures() {
                    Original.paint(f, s, script.w, script.h, &mut bytes);
                }
                bytes
            });
            self.canvas("script end", calls, by, &canvas);
        }
    }

    /// A W3C box is not in the original. Its rules, L and S and the offset too, are held against another wording of them, and its
    /// rows, points and contained points against the original's box of the confined radii, which
    /// the crate's rule leaves as they are.
    fn w3c(&mut self, of: &Figure, k: i64, fully: bool) {
        let f = Figure { kind: Kind::W3c, ..*of };
        self.decisions.note(&f);
        let c = reference::confined(&f).unwrap();
        let fits = edges(&Figure { radii: c.radii, ..f }).iter().all(|(l, s)| s <= l);
        let other = (confined_in_other_words(&f), fraction(&f), true);
        self.check("w3c rule", &f, Ask::Confine, Ok(other), (c.radii, (c.l, c.s), fits));

        // offset by k: the area of a stroke or fill
        let made = Reference.offset(&f, k);
        self.check("w3c rule", &f, Ask::Offset(k), Ok(offset_in_other_words(&f, k)), made);
        let same = Figure { kind: Kind::Crate, ..made };
        let untouched = attempt(|| Original.confine(&same));
        self.check("w3c rule", &f, Ask::Offset(k), untouched, Some(made.radii));
        if !fully {
            return;
        }
        let a = area(&f, k);
        match attempt(|| Original.rows(&same)) {
            Err(place) => self.panicked("w3c row", &same, Ask::Row(same.y + same.h - 1), place),
            Ok(rows) => {
                let reference: Vec<_> = a.rows().map(|y| (y, a.row(y).unwrap().0, a.row(y).unwrap().1)).collect();
                if rows == reference {
                    self.equal("w3c row", rows.len() as u64);
                } else {
                    self.differs("w3c row", &f, k.abs(), format!("{}: rows of what it gives", Ask::Offset(k).line(&f)));
                }
            }
        }
        if k == 0 {
            let original = attempt(|| Original.points(&same));
            self.check("w3c points", &same, Ask::Points, original, Reference.points(&f));
        }
        for (px, py) in [(0, 0), (1, 0), (0, 1), (made.w - 1, 0), (made.w - 1, made.h - 1), (0, made.h - 1), (made.w / 3, made.h / 7)] {
            let (px, py) = (made.x + px, made.y + py);
            let original = attempt(|| Original.contains(&same, px, py));
            self.check("w3c contains", &same, Ask::Contains(px, py), original, a.contains(px, py));
        }
    }

    // ---- what is printed ----

    fn print(&self) -> bool {
        let mut sum = Tally::default();
        println!("{:<10} {:>12} {:>10} {:>10}", "query", "equal", "panics", "DIFFERENT");
        for (query, t) in &self.tallies {
            println!("{query:<10} {:>12} {:>10} {:>10}", t.equal, t.panics, t.different);
            sum.equal += t.equal;
            sum.panics += t.panics;
            sum.different += t.different;
        }
        println!("{:<10} {:>12} {:>10} {:>10}", "all", sum.equal, sum.panics, sum.different);
        for (query, list) in &self.different {
            for (_, text) in list {
                println!("DIFFERENT {query}: {text}");
            }
        }
        self.decisions.print();
        self.removals.print();
        self.print_panics();
        println!("findings held against the original:");
        for (what, f) in &self.forecasts {
            println!("  {what}: {} as said, {} not", f.right, f.wrong);
            for e in &f.examples {
                println!("    not: {e}");
            }
        }
        println!(
            "draw beside paint (both original, no demand): {} equal, {} other, smallest {}",
            self.draw_equal,
            self.draw_other,
            self.draw_smallest.as_ref().map_or("none", |(_, t)| t)
        );
        sum.different == 0
    }

    pub fn print_panics(&self) {
        println!("panics by query, figure and place, with the smallest input met and what it shrinks to:");
        for ((query, kind, place), class) in &self.panics {
            println!("  {query}, {kind}, {place}: {}", class.count);
            let (f, ask) = &class.smallest;
            println!("    met {}", ask.line(f));
            let shrunk = shrunk(f, ask, place).map_or("(does not fail alone)".to_string(), |(f, ask)| ask.line(&f));
            println!("    shrunk {shrunk}");
        }
    }
}

/// L and S of each edge: top, right, bottom, left.
fn edges(f: &Figure) -> [(i64, i64); 4] {
    let [tl, tr, br, bl] = f.radii;
    [(f.w, tl.0 + tr.0), (f.h, tr.1 + br.1), (f.w, br.0 + bl.0), (f.h, bl.1 + tl.1)]
}

/// The edges of which the first decides, each with its place in the order; none where no S is above L. Worded otherwise than
/// in reference.rs: by the crate's rule they are those with the least L − S; by the W3C's those with the least L / S, where
/// all are brought to one denominator, the product of the sums.
fn deciding(f: &Figure) -> Vec<(usize, (i64, i64))> {
    let over: Vec<_> = edges(f).into_iter().enumerate().filter(|(_, (l, s))| s > l).collect();
    let product: i64 = over.iter().map(|(_, (_, s))| s).product();
    let measure = |(l, s): (i64, i64)| match f.kind {
        Kind::W3c => l * (product / s),
        _ => l - s,
    };
    let least = over.iter().map(|(_, edge)| measure(*edge)).min();
    over.into_iter().filter(|(_, edge)| Some(measure(*edge)) == least).collect()
}

/// L and S of the edge that decides, or 1 and 1.
fn fraction(f: &Figure) -> (i64, i64) {
    deciding(f).first().map_or((1, 1), |(_, edge)| *edge)
}

/// The radii of a W3C box confined: each is the largest whole number that is at most r × L / S for every edge with S > 0.
fn confined_in_other_words(f: &Figure) -> [(i64, i64); 4] {
    let given = edges(f);
    if given.iter().all(|(l, s)| s <= l) {
        return f.radii;
    }
    let least = |r: i64| given.iter().filter(|(_, s)| *s > 0).map(|(l, s)| r * l / s).min().unwrap_or(r);
    f.radii.map(|(a, b)| (least(a), least(b)))
}

/// A radius number grown by k in the words of Level 3, which multiplies k by 1 + (r / k − 1)³ where r is below k: the largest
/// whole number that is at most r + k × (1 + (r / k − 1)³), both taken times k².
fn grown_in_other_words(r: i64, k: i64) -> i64 {
    let square = k * k;
    match r < k {
        true => (square * r + k * square + (r - k).pow(3)).div_euclid(square),
        false => r + k,
    }
}

/// A W3C box offset by k: by the Rust's way with its rectangle, which is also that of an ellipse, and with the radii in other
/// words than reference.rs.
pub fn offset_in_other_words(f: &Figure, k: i64) -> Figure {
    let rectangle = Original.offset(&ellipse(f.x, f.y, f.w, f.h), k);
    let changed = |r: i64| if k < 0 { (r + k).max(0) } else { grown_in_other_words(r, k) };
    let radii = confined_in_other_words(f).map(|(a, b)| (changed(a), changed(b)));
    let offset = Figure { kind: f.kind, radii, ..rectangle };
    Figure { radii: confined_in_other_words(&offset), ..offset }
}

/// How an edge comes to decide: alone, or as the first of edges that are equal by the rule. Where those have the same L and S,
/// nothing shows which it was.
const DECISIONS: [&str; 6] = [
    "nothing reduced",
    "one edge",
    "one of equal edges with the same L and S",
    "top, before an equal edge with another L or S",
    "right, before an equal edge with another L or S",
    "bottom, before an equal edge with another L or S",
];

fn decision(f: &Figure) -> &'static str {
    let at = match deciding(f)[..] {
        [] => 0,
        [_] => 1,
        [(place, first), ref rest @ ..] => match rest.iter().all(|(_, edge)| *edge == first) {
            true => 2,
            false => 3 + place,
        },
    };
    DECISIONS[at]
}

/// What findings.rs says of `contains`.
fn foretold_contains(f: &Figure, a: &Area, px: i64, py: i64) -> bool {
    if f.kind == Kind::Ellipse {
        // "`new`, or the test at p"
        let (x, y) = (2 * px - (2 * f.x + (f.w - 1).max(0)), 2 * py - (2 * f.y + (f.h - 1).max(0)));
        return findings::new(f.w, f.h) || findings::test(f.w, f.h, x, y);
    }
    if findings::box_any(a) {
        return true;
    }
    // the test of the corner that decides, if any
    let (w, h) = a.sides();
    let (dx, dy) = (px - f.x, py - f.y);
    if dx < 0 || dy < 0 || dx >= w || dy >= h {
        return false;
    }
    let [tl, tr, br, bl] = a.corner_radii();
    // distance in half pixels from a corner's ellipse centre
    let near = |r: (i64, i64), x: i64, y: i64| {
        findings::test(2 * r.0, 2 * r.1, if r.0 == 0 { 2 * x } else { 2 * x - (2 * r.0 - 1) }, if r.1 == 0 { 2 * y } else { 2 * y - (2 * r.1 - 1) })
    };
    if dy < tl.1 && dx < tl.0 {
        near(tl, dx, dy)
    } else if dy < tr.1 && dx >= w - tr.0 {
        near(tr, w - 1 - dx, dy)
    } else if dy >= h - bl.1 && dx < bl.0 {
        near(bl, dx, h - 1 - dy)
    } else if dy >= h - br.1 && dx >= w - br.0 {
        near(br, w - 1 - dx, h - 1 - dy)
    } else {
        false
    }
}

// ---- random numbers ----

pub struct Rng(pub u64);

impl Rng {
    fn next(&mut self) -> u64 {
        // splitmix64
        self.0 = self.0.wrapping_add(0x9e37_79b9_7f4a_7c15);
        let mut z = self.0;
        z = (z ^ (z >> 30)).wrapping_mul(0xbf58_476d_1ce4_e5b9);
        z = (z ^ (z >> 27)).wrapping_mul(0x94d0_49bb_1331_11eb);
        z ^ (z >> 31)
    }

    /// Other numbers, which take none away from these.
    pub fn apart(&self) -> Rng {
        Rng(self.0 ^ 0x5851_f42d_4c95_7f2d)
    }

    /// a..=b
    pub fn within(&mut self, a: i64, b: i64) -> i64 {
        a + (self.next() % (b - a + 1) as u64) as i64
    }

    pub fn of(&mut self, list: &[i64]) -> i64 {
        list[self.within(0, list.len() as i64 - 1) as usize]
    }

    /// A side, biased to small ones and to the limit.
    pub fn side(&mut self) -> i64 {
        match self.within(0, 9) {
            0 | 1 => self.within(0, 16),
            2 | 3 | 4 => self.within(0, 100),
            5 | 6 => self.within(0, 260),
            7 => self.within(0, 1024),
            8 => self.within(1000, 1024),
            _ => self.of(&[0, 1, 2, 3, 4, 5, 255, 256, 257, 512, 1023, 1024]),
        }
    }

    fn place(&mut self) -> i64 {
        match self.within(0, 5) {
            0 => 0,
            1 | 2 => self.within(-20, 20),
            3 => self.within(-1200, 200),
            4 => self.within(-4096, 4096),
            _ => self.of(&[-4096, -4095, -1, 1, 4095, 4096]),
        }
    }

    /// A radius number for an edge of length l, biased to two that collide there.
    fn radius(&mut self, l: i64) -> i64 {
        let r = match self.within(0, 8) {
            0 => 0,
            1 | 2 => self.within(0, 6),
            3 => l / 2 + self.within(-2, 2),
            4 => l + self.within(-2, 2),
            5 => self.within(0, l),
            6 => self.within(0, 120),
            7 => self.within(0, 1024),
            _ => self.within(1018, 1024),
        };
        r.clamp(0, 1024)
    }

    pub fn figure(&mut self, boxes_of_ten: i64) -> Figure {
        let (x, y) = (self.place(), self.place());
        let (mut w, mut h) = (self.side(), self.side());
        if self.within(0, 9) >= boxes_of_ten {
            match self.within(0, 3) {
                0 => h = w,
                1 => {
                    // about as large as the original can
                    w = self.within(1, 300);
                    h = (46000 / w + self.within(-3, 3)).clamp(0, 1024);
                }
                _ => {}
            }
            return Figure { kind: Kind::Ellipse, x, y, w, h, radii: [(0, 0); 4] };
        }
        let mut radii = [(0, 0); 4];
        let mode = self.within(0, 5);
        let same = (self.radius(w), self.radius(h));
        for r in &mut radii {
            *r = match mode {
                // equal corners
                0 => same,
                // round corners, equal or not: the original finishes at every size
                1 => (same.0, same.0),
                2 => {
                    let a = self.radius(w.min(h));
                    (a, a)
                }
                // small ones
                3 => (self.within(0, 40), self.within(0, 40)),
                // sharp ones among others
                4 if self.within(0, 1) == 0 => (0, 0),
                _ => (self.radius(w), self.radius(h)),
            };
        }
        if self.within(0, 3) == 0 {
            // make one edge collide by a little
            let by = self.within(-2, 3);
            match self.within(0, 3) {
                0 => radii[1].0 = (w - radii[0].0 + by).clamp(0, 1024),
                1 => radii[2].1 = (h - radii[1].1 + by).clamp(0, 1024),
                2 => radii[3].0 = (w - radii[2].0 + by).clamp(0, 1024),
                _ => radii[0].1 = (h - radii[3].1 + by).clamp(0, 1024),
            }
        }
        Figure { kind: Kind::Crate, x, y, w, h, radii }
    }

    pub fn colour(&mut self) -> Option<u8> {
        (self.within(0, 3) > 0).then(|| self.within(0, 255) as u8)
    }

    pub fn style(&mut self) -> Style {
        let width = match self.within(0, 5) {
            0 => 0,
            1 | 2 => self.within(0, 4),
            3 => self.within(0, 30),
            4 => self.within(0, 256),
            _ => self.of(&[1, 2, 255, 256]),
        };
        Style { stroke: self.colour(), fill: self.colour(), width, align: self.within(0, 2) }
    }

    /// A style with a stroke up to a small width.
    pub fn small_style(&mut self, widest: i64) -> Style {
        Style { stroke: self.colour(), fill: self.colour(), width: self.within(0, widest), align: self.within(0, 2) }
    }

    /// Sides 0..12 and all eight radii 0..6.
    pub fn small_box(&mut self) -> Figure {
        let radii = [(); 4].map(|_| (self.within(0, 6), self.within(0, 6)));
        crate_box(self.within(-8, 8), self.within(-8, 8), self.within(0, 12), self.within(0, 12), radii)
    }

    /// A narrow box, upright or lying by n, whose corners still overlap after the crate's rule (case f).
    pub fn narrow_box(&mut self, n: u64) -> Figure {
        let (w, h) = (self.within(1, 16), self.within(8, 90));
        let same = (self.within(0, w), self.within(h / 3, h));
        let mut radii = [(); 4].map(|_| match n % 3 {
            0 => same,
            _ => (self.within(0, w + 2), self.within(0, h + 9)),
        });
        let (mut w, mut h) = (w, h);
        if n % 2 == 0 {
            core::mem::swap(&mut w, &mut h);
            radii = radii.map(|(a, b)| (b, a));
        }
        crate_box(self.within(-9, 9), self.within(-9, 9), w, h, radii)
    }

    /// A box with sides up to the longest, of whose edges some are equal by a rule: those have the same S − L (crate), or the
    /// same L / S (W3C). Others miss that by one, or have less; and where S is L or less nothing is reduced.
    pub fn equal_edges(&mut self, longest: i64) -> Figure {
        let (w, h, across, down) = match self.within(0, 1) {
            0 => {
                let (w, h) = (self.side() % (longest + 1), self.side() % (longest + 1));
                let over = if self.within(0, 3) == 0 { self.within(0, 1024) } else { self.within(-1, 9) };
                (w, h, w + over, h + over)
            }
            _ => {
                let sum = self.within(1, 40);
                let length = self.within(0, sum.min(longest));
                let most = (2048 / sum).min(longest / length.max(1));
                let (m, n) = (self.within(1, most), self.within(1, most));
                (length * m, length * n, sum * m, sum * n)
            }
        };
        let mut pair = |sum: i64| {
            let sum = match self.within(0, 5) {
                0 | 1 | 2 => sum,
                3 => sum + self.within(-1, 1),
                _ => self.within(0, sum.max(0)),
            };
            let sum = sum.clamp(0, 2048);
            let first = self.within((sum - 1024).max(0), sum.min(1024));
            (first, sum - first)
        };
        let (top, right, bottom, left) = (pair(across), pair(down), pair(across), pair(down));
        let radii = [(top.0, left.0), (top.1, right.0), (bottom.0, right.1), (bottom.1, left.1)];
        crate_box(self.place(), self.place(), w, h, radii)
    }

    /// A coordinate that may be asked: near an end of the box, near the figure, and anywhere.
    pub fn near(&mut self, at: i64, side: i64) -> i64 {
        let v = match self.within(0, 4) {
            0 => at + self.within(-3, 3),
            1 => at + side + self.within(-3, 3),
            2 | 3 => at + self.within(0, side.max(1)),
            _ => self.within(-8192, 8192),
        };
        v.clamp(-8192, 8192)
    }

    /// A list of add and paint calls on a small canvas; every third has W3C boxes, by n.
    pub fn script(&mut self, n: u64) -> Script {
        let (w, h) = (self.within(1, 30), self.within(1, 30));
        let with_w3c = n % 3 == 0;
        let lent = first_lent(w, h, Some(self.within(0, 255)));
        let mut script = Script::open(w, h, with_w3c, lent, Vec::new());
        let adds = if n % 10 == 0 { 20 } else { self.within(1, 6) };
        let total = self.within(0, 160);
        let mut added = 0;
        for _ in 0..total {
            let call = if added < adds && self.within(0, 3) == 0 {
                added += 1;
                let (f, s) = self.layer(with_w3c);
                Call::Add(f, s)
            } else {
                Call::Paint(match self.within(0, 3) {
                    0 => self.within(0, 16) as usize,
                    1 => script.page.book.earliest().unwrap_or(0),
                    _ => self.within(0, added.max(1)) as usize,
                })
            };
            script.note(call);
        }
        script
    }

    /// A list with removals among its calls, by n too. Its background is the canvas as first lent; of every fourth list one
    /// with other bytes, and of two in sixteen one of another length or an empty one.
    pub fn removing_script(&mut self, n: u64) -> Script {
        let (w, h) = (self.within(1, 24), self.within(1, 24));
        let with_w3c = n % 3 == 0;
        let lent = self.pattern(w * h);
        let background = match n % 16 {
            3 | 7 | 11 | 15 => self.pattern(w * h),
            6 => {
                let length = self.of(&[1, w * h - 1, w * h + 1, 2 * w * h]);
                self.pattern(if length == w * h { 0 } else { length })
            }
            14 => Vec::new(),
            _ => lent.clone(),
        };
        let mut script = Script::open(w, h, with_w3c, lent, background);
        // seldom a full sheet, and often one with a layer or two
        let most = if n % 10 == 0 { 18 } else { self.within(1, 7) };
        for _ in 0..self.within(1, 160) {
            let noted = script.page.book.figures().count() as i64;
            let call = match self.within(0, 15) {
                0..=3 if noted < most => {
                    let (f, s) = self.layer(with_w3c);
                    // most of them where others are, on the canvas
                    let crowded = Figure { x: f.x % (w + 4) - 2, y: f.y % (h + 4) - 2, ..f };
                    Call::Add(if self.within(0, 3) > 0 { crowded } else { f }, s)
                }
                4 => Call::Remove(self.which(noted)),
                5 => Call::Paint(self.within(0, 16) as usize),
                6..=10 => Call::Paint(script.page.book.earliest().unwrap_or(0)),
                _ => Call::Paint(self.within(0, noted.max(1)) as usize),
            };
            script.note(call);
        }
        script
    }

    /// Which of so many layers is removed; some are not there.
    fn which(&mut self, noted: i64) -> usize {
        let i = match self.within(0, 9) {
            0 => 0,
            1 => (noted - 1).max(0),
            2 => noted,
            3 => self.of(&[15, 16, 17, i32::MAX as i64]),
            _ => self.within(0, (noted - 1).max(0)),
        };
        i as usize
    }

    /// Bytes of a canvas at random.
    pub fn pattern(&mut self, length: i64) -> Vec<u8> {
        (0..length).map(|_| self.next() as u8).collect()
    }

    /// A small figure to be added. Some are to be refused, some for more than one reason.
    pub fn layer(&mut self, with_w3c: bool) -> (Figure, Style) {
        let mut f = Figure {
            kind: match self.within(0, 2) {
                0 => Kind::Ellipse,
                1 if with_w3c => Kind::W3c,
                _ => Kind::Crate,
            },
            x: self.within(-10, 30),
            y: self.within(-10, 30),
            w: self.within(0, 14),
            h: self.within(0, 14),
            radii: [(); 4].map(|_| (self.within(0, 8), self.within(0, 8))),
        };
        let mut s = self.small_style(4);
        for _ in 0..2 {
            match self.within(0, 40) {
                0 => f.w = 1025,
                1 => f.radii[2].1 = 1025,
                2 => f.x = 4097,
                3 => f.y = -4097,
                4 => s.width = 257,
                _ => {}
            }
        }
        (f, s)
    }
}

/// A list of calls with the book's answers to them, and the canvas and the background that come with it.
pub struct Script {
    pub w: i64,
    pub h: i64,
    pub with_w3c: bool,
    pub lent: Vec<u8>,
    pub background: Vec<u8>,
    pub calls: Vec<Call>,
    pub answers: Vec<u32>,
    pub page: Page,
}

impl Script {
    fn open(w: i64, h: i64, with_w3c: bool, lent: Vec<u8>, background: Vec<u8>) -> Script {
        let page = Page::open(w, h, &lent);
        Script { w, h, with_w3c, lent, background, calls: Vec::new(), answers: Vec::new(), page }
    }

    pub fn note(&mut self, call: Call) -> u32 {
        let answer = self.page.call(&call, &self.background);
        self.answers.push(answer);
        self.calls.push(call);
        answer
    }

    /// "While any figure has rows left, a paint call for the earliest such one is accepted": the call
    /// for the earliest, noted, and its answer.
    pub fn paint_earliest(&mut self) -> Option<u32> {
        let call = Call::Paint(self.page.book.earliest()?);
        Some(self.note(call))
    }

    /// How many layers can be removed.
    pub fn removable(&self) -> usize {
        match self.background.len() == self.lent.len() {
            true => self.page.book.figures().count(),
            false => 0,
        }
    }

    /// One of them.
    pub fn any_layer(&self, rng: &mut Rng) -> usize {
        rng.within(0, self.removable() as i64 - 1) as usize
    }

    pub fn lent(&self) -> Lent<'_> {
        Lent { w: self.w, h: self.h, canvas: &self.lent, background: &self.background }
    }
}

// ---- the parts ----

/// Where there is no figure to be named.
const NONE: Figure = ellipse(0, 0, 0, 0);

pub const fn ellipse(x: i64, y: i64, w: i64, h: i64) -> Figure {
    Figure { kind: Kind::Ellipse, x, y, w, h, radii: [(0, 0); 4] }
}

pub const fn crate_box(x: i64, y: i64, w: i64, h: i64, radii: [(i64, i64); 4]) -> Figure {
    Figure { kind: Kind::Crate, x, y, w, h, radii }
}

pub const fn w3c_box(x: i64, y: i64, w: i64, h: i64, radii: [(i64, i64); 4]) -> Figure {
    Figure { kind: Kind::W3c, ..crate_box(x, y, w, h, radii) }
}

pub fn styles() -> Vec<Style> {
    let mut list = Vec::new();
    for width in 0..=4 {
        for align in 0..=2 {
            list.push(Style { stroke: None, fill: None, width, align });
        }
    }
    list
}

/// Both paints there or absent.
pub fn painted(s: &Style) -> [Style; 4] {
    [(None, None), (Some(1), None), (None, Some(2)), (Some(1), Some(2))].map(|(stroke, fill)| Style { stroke, fill, ..*s })
}

const PLACES: [(i64, i64); 4] = [(0, 0), (-5, -3), (6, 2), (-1, 4)];

/// All that is asked of a small figure: rows, tests, points, every offset −8..8, every style, paints.
fn small_figure(r: &mut Report, f: &Figure) {
    r.rows(f);
    r.contains_all(f, 2);
    r.points(f);
    for k in -8..=8 {
        r.offset(f, k);
    }
    for s in styles() {
        r.styled(f, &s);
        for s in painted(&s) {
            r.paint(f, &s, 14, 13);
        }
    }
}

/// Every ellipse with sides 0..12, at four places.
pub fn small_ellipses(mut each: impl FnMut(&Figure)) {
    for w in 0..=12 {
        for h in 0..=12 {
            for (x, y) in PLACES {
                each(&ellipse(x, y, w, h));
            }
        }
    }
}

/// Every ellipse size within limits: its first row, on which everything hangs.
fn all_ellipse_sizes(r: &mut Report) {
    let mut failing = 0u64;
    let mut least: Option<(i64, i64)> = None;
    for w in 0..=1024 {
        for h in 0..=1024 {
            let f = ellipse(-7, 11, w, h);
            let original = attempt(|| Original.first_row(&f).map(|(_, a, b)| (a, b)));
            let foretold = findings::ellipse_rows(w, h);
            let ask = Ask::Row(f.y);
            r.forecast("first row of every ellipse size", foretold == original.is_err(), || ask.line(&f));
            if original.is_err() {
                failing += 1;
                if least.map_or(true, |(a, b)| w + h < a + b) {
                    least = Some((w, h));
                }
            }
            r.check("first row", &f, ask, original, area(&f, 0).row(f.y));
        }
    }
    println!("ellipse sizes whose first row fails: {failing} of 1050625, smallest w + h: {least:?}");
}

/// Every corner (a, b) within limits, as the top-left one of a box just as large: its first row.
fn all_corners(r: &mut Report) {
    let mut failing = 0u64;
    let mut least: Option<(i64, i64)> = None;
    for a in 0..=1024 {
        for b in 0..=1024 {
            let f = crate_box(3, -5, a, b, [(a, b), (0, 0), (0, 0), (0, 0)]);
            let original = attempt(|| Original.first_row(&f).map(|(_, a, b)| (a, b)));
            let foretold = findings::rows(&area(&f, 0));
            let ask = Ask::Row(f.y);
            r.forecast("first row of every top-left corner", foretold == original.is_err(), || ask.line(&f));
            if original.is_err() {
                failing += 1;
                if least.map_or(true, |(c, d)| a + b < c + d) {
                    least = Some((a, b));
                }
            }
            r.check("first row", &f, ask, original, area(&f, 0).row(f.y));
        }
    }
    println!("top-left corners whose first row fails: {failing} of 1050625, smallest a + b: {least:?}");
}

/// Every box with sides 0..12 and equal corners 0..6 by 0..6, at two places.
pub fn small_equal_boxes(mut each: impl FnMut(&Figure)) {
    for w in 0..=12 {
        for h in 0..=12 {
            for a in 0..=6 {
                for b in 0..=6 {
                    for (x, y) in &PLACES[1..3] {
                        each(&crate_box(*x, *y, w, h, [(a, b); 4]));
                    }
                }
            }
        }
    }
}

/// Every box with sides 0..12 and any two corners 0..6 by 0..6 each, the other two sharp; with the
/// number of the box.
pub fn small_pairs(mut each: impl FnMut(usize, &Figure)) {
    let mut at = 0;
    for w in 0..=12 {
        for h in 0..=12 {
            for (i, j) in [(0, 1), (0, 2), (0, 3), (1, 2), (1, 3), (2, 3)] {
                for n in 0..7 * 7 * 7 * 7 {
                    let mut radii = [(0, 0); 4];
                    radii[i] = (n % 7, n / 7 % 7);
                    radii[j] = (n / 49 % 7, n / 343);
                    at += 1;
                    let (x, y) = PLACES[at % 4];
                    each(at, &crate_box(x, y, w, h, radii));
                }
            }
        }
    }
}

/// Every box with sides 0..4 and all eight radii 0..2.
pub fn tiny_boxes(mut each: impl FnMut(&Figure)) {
    for w in 0..=4 {
        for h in 0..=4 {
            for n in 0..6561 {
                let mut rest = n;
                let mut digit = || {
                    let d = rest % 3;
                    rest /= 3;
                    d
                };
                let radii = [(); 4].map(|_| (digit(), digit()));
                each(&crate_box(-2, 1, w, h, radii));
            }
        }
    }
}

/// Sides 0..12 and all eight radii 0..6 at random, with a random small style.
fn random_small(r: &mut Report, rng: &mut Rng, count: u64) {
    for n in 0..count {
        let f = rng.small_box();
        let s = rng.small_style(4);
        r.rows(&f);
        r.confine(&f);
        r.styled(&f, &s);
        r.w3c(&f, rng.within(-4, 4), true);
        if n % 4 == 1 {
            // the single row, as a host asks for it
            let y = f.y + rng.within(-3, f.h + 3);
            r.check("row asked", &f, Ask::Row(y), attempt(|| Original.row(&f, y)), Reference.row(&f, y));
            let original = attempt(|| Original.srow(&f, &s, y));
            r.check("srow asked", &f, Ask::StyledRow(s, y), original, Reference.srow(&f, &s, y));
        }
        if n % 4 == 0 {
            r.points(&f);
            r.paint(&f, &s, 12, 11);
            r.contains_all(&f, 1);
        }
    }
}

/// Up to the limits.
fn random_large(r: &mut Report, rng: &mut Rng, count: u64) {
    for n in 0..count {
        let f = rng.figure(7);
        let s = rng.style();
        let a = area(&f, 0);
        r.rows(&f);
        r.confine(&f);
        for k in [rng.within(-256, 256), rng.within(-6, 6), 256, -256] {
            r.offset(&f, k);
        }
        r.styled(&f, &s);
        for _ in 0..24 {
            let (px, py) = (rng.near(f.x, f.w), rng.near(f.y, f.h));
            r.contains(&f, &a, px, py);
        }
        if f.kind == Kind::Crate && n % 2 == 0 {
            let k = if n % 4 == 0 { 0 } else { rng.within(-40, 40) };
            r.w3c(&f, k, true);
        }
        if n % 4 == 0 {
            r.points(&f);
        }
        if n % 4 == 1 {
            let (w, h) = if n % 32 == 1 { (1024, rng.within(1, 1024)) } else { (rng.within(1, 90), rng.within(1, 90)) };
            // so that the canvas shows some of it
            let seen = Figure { x: rng.within(-f.w, w).max(-4096), y: rng.within(-f.h, h).max(-4096), ..f };
            r.paint(&seen, &s, w, h);
        }
    }
}

/// Narrow boxes, upright or lying, whose corners still overlap after the crate's rule (case f):
/// rows that are reversed or empty, points that stop, corners that decide before others.
fn random_narrow(r: &mut Report, rng: &mut Rng, count: u64) {
    for n in 0..count {
        let f = rng.narrow_box(n);
        let s = rng.small_style(5);
        r.rows(&f);
        r.points(&f);
        r.confine(&f);
        r.styled(&f, &s);
        r.paint(&f, &s, 30, 40);
        if n % 4 < 2 {
            r.contains_all(&f, 0);
        }
    }
}

/// Only confinement and offset, which are quick: all eight radii up to the limits.
fn random_radii(r: &mut Report, rng: &mut Rng, count: u64) {
    for _ in 0..count {
        let f = rng.figure(10);
        r.confine(&f);
        let k = rng.within(-256, 256);
        r.offset(&f, k);
        let grown = Original.offset(&f, k);
        r.confine(&grown);
        r.w3c(&f, k, false);
    }
}

/// Only confinement, of boxes whose edges are equal.
fn random_equal_edges(r: &mut Report, rng: &mut Rng, count: u64) {
    for n in 0..count {
        let f = rng.equal_edges(if n % 2 == 0 { 20 } else { 1024 });
        r.confine(&f);
        r.w3c(&f, rng.within(-9, 9), false);
    }
}

/// Lists of calls: sheet against book, and the canvas against the original.
fn scripts(r: &mut Report, count: u64, mut any: impl FnMut(u64) -> Script) {
    let mut accepted = 0u64;
    let mut refused: BTreeMap<u32, u64> = BTreeMap::new();
    for n in 0..count {
        let mut script = any(n);
        for answer in &script.answers {
            match answer {
                0 => accepted += 1,
                _ => *refused.entry(*answer).or_default() += 1,
            }
        }
        r.script(&script, false);
        while let Some(answer) = script.paint_earliest() {
            if answer != 0 {
                r.differs("script", &NONE, 0, format!("the earliest gets {answer}: {:?}", script.calls));
                break;
            }
        }
        r.script(&script, true);
    }
    println!("script calls before the finish: {accepted} accepted, refused by number {refused:?}");
}

/// Lists with removals among their calls; and such that go on until no layer is left.
fn removing_scripts(r: &mut Report, rng: &mut Rng, count: u64) {
    scripts(r, count, |n| rng.removing_script(n));
    for n in 0..count {
        let mut script = rng.removing_script(n);
        for _ in 0..script.removable() {
            let i = script.any_layer(rng);
            r.removals.note(script.w, script.h, &script.page.book.layers(), i);
            script.note(Call::Remove(i));
        }
        r.script(&script, false);
        r.removals.note_list(script.lent(), &script.calls, &script.answers);
    }
}

use Said::*;

/// What both sides say to a fixed question; `Panics`: the original does not finish; `Lacks`: it has no such figure.
pub enum Said {
    Same(&'static [i32]),
    Nothing,
    Panics(&'static [i32]),
    Lacks(&'static [i32]),
}

const fn corner(a: i64, b: i64) -> [(i64, i64); 4] {
    [(a, b), (0, 0), (0, 0), (0, 0)]
}

const fn unpainted(width: i64, align: i64) -> Style {
    Style { stroke: None, fill: None, width, align }
}

/// The checked drawings of document 01, W3C boxes that are offset (document 02), and the smallest inputs where the Rust does not
/// finish.
#[rustfmt::skip]
pub const FIXED: &[(Figure, Ask, Said)] = &[
    // b, c, d, e
    (ellipse(0, 0, 2, 7), Row(0), Same(&[0, 0, 2])),
    (ellipse(0, 0, 2, 7), Row(6), Same(&[6, 0, 2])),
    (ellipse(0, 0, 2, 8), Row(0), Nothing),
    (ellipse(0, 0, 2, 8), Row(4), Nothing),
    (ellipse(0, 0, 4, 31), Row(30), Same(&[30, 1, 3])),
    (ellipse(0, 0, 4, 32), Row(16), Nothing),
    // f, g
    (crate_box(0, 0, 10, 100, [(9, 60); 4]), Confine, Same(&[7, 50, 7, 50, 7, 50, 7, 50])),
    (crate_box(0, 0, 10, 100, [(9, 60); 4]), Row(0), Same(&[0, 6, 4])),
    (crate_box(0, 0, 10, 100, [(9, 60); 4]), Points, Same(&[])),
    (w3c_box(0, 0, 10, 100, [(9, 60); 4]), Confine, Lacks(&[5, 33, 5, 33, 5, 33, 5, 33])),
    // h, i
    (crate_box(0, 0, 10, 40, [(1, 20); 4]), StyledRow(unpainted(0, 1), 0), Same(&[0, 0, 1, 1, 9, 9, 10])),
    (crate_box(0, 0, 4, 10, corner(0, 0)), StyledRow(unpainted(2, 0), 5), Same(&[5, 0, 0, 0, 4, 4, 4])),
    (crate_box(0, 0, 4, 10, corner(0, 0)), StyledRow(unpainted(2, 0), 1), Same(&[1, 0, 4, 4, 4, 4, 4])),
    // j
    (ellipse(0, 0, 0, 0), StyledBox(unpainted(2, 2)), Same(&[-1, -1, 4, 4])),
    (ellipse(0, 0, 5, 5), StyledBox(unpainted(2, 2)), Same(&[-2, -2, 9, 9])),
    (crate_box(0, 0, 5, 5, corner(0, 0)), Offset(2), Same(&[1, -2, -2, 9, 9, 2, 2, 2, 2, 2, 2, 2, 2])),
    // k: Center width 1 leaves the stroke area, and takes 1 from each side of the fill area
    (ellipse(0, 0, 5, 5), StyledBox(unpainted(1, 1)), Same(&[0, 0, 5, 5])),
    (crate_box(0, 0, 5, 5, corner(0, 0)), StyledRow(unpainted(1, 1), 2), Same(&[2, 0, 1, 1, 4, 4, 5])),
    // document 02, 'Four': sharp corners remain sharp, and those below k grow by less than k
    (w3c_box(0, 0, 6, 4, [(0, 0); 4]), Offset(4), Lacks(&[2, -4, -4, 14, 12, 0, 0, 0, 0, 0, 0, 0, 0])),
    (w3c_box(0, 0, 6, 4, [(0, 0); 4]), StyledRow(unpainted(4, 2), -4), Lacks(&[-4, -4, 10, 10, 10, 10, 10])),
    (w3c_box(0, 0, 6, 4, [(1, 1); 4]), Offset(4), Lacks(&[2, -4, -4, 14, 12, 3, 3, 3, 3, 3, 3, 3, 3])),
    (w3c_box(0, 0, 6, 4, [(1, 1); 4]), StyledRow(unpainted(4, 2), -4), Lacks(&[-4, -3, 9, 9, 9, 9, 9])),
    (crate_box(0, 0, 6, 4, [(1, 1); 4]), StyledRow(unpainted(4, 2), -4), Same(&[-4, -1, 7, 7, 7, 7, 7])),
    (w3c_box(0, 0, 20, 20, [(0, 1), (2, 3), (4, 5), (9, 0)]), Offset(4), Lacks(&[2, -4, -4, 28, 28, 0, 3, 5, 6, 8, 9, 13, 0])),
    (w3c_box(0, 0, 20, 20, [(0, 1), (2, 3), (4, 5), (9, 0)]), Offset(1), Lacks(&[2, -1, -1, 22, 22, 0, 2, 3, 4, 5, 6, 10, 0])),
    (w3c_box(0, 0, 20, 20, [(0, 1), (2, 3), (4, 5), (9, 0)]), Offset(-4), Lacks(&[2, 4, 4, 12, 12, 0, 0, 0, 0, 0, 1, 5, 0])),
    (w3c_box(0, 0, 1024, 1024, [(1, 128), (255, 256), (257, 0), (2, 254)]), Offset(256), Lacks(&[2, -256, -256, 1536, 1536, 3, 352, 510, 512, 513, 0, 7, 509])),
    // inward its corners collide, and it is confined again
    (w3c_box(0, 0, 10, 10, [(0, 0), (10, 0), (0, 0), (0, 0)]), Offset(-3), Lacks(&[2, 3, 3, 4, 4, 0, 0, 4, 0, 0, 0, 0, 0])),
    // confined to (5, 33) before it grows
    (w3c_box(0, 0, 10, 100, [(9, 60); 4]), Offset(6), Lacks(&[2, -6, -6, 22, 112, 10, 39, 10, 39, 10, 39, 10, 39])),
    // oval
    (ellipse(0, 0, 4, 4), Paint(Style { fill: Some(9), ..unpainted(0, 1) }, 4, 4), Same(&[0, 9, 9, 0, 9, 9, 9, 9, 9, 9, 9, 9, 0, 9, 9, 0])),
    // where the Rust does not finish
    (ellipse(0, 0, 256, 257), Row(0), Panics(&[0, 117, 139])),
    (ellipse(0, 0, 207, 225), Row(0), Panics(&[0, 94, 113])),
    (ellipse(0, 0, 215, 216), Row(0), Same(&[0, 97, 118])),
    (ellipse(0, 0, 216, 217), Row(0), Panics(&[0, 98, 118])),
    (ellipse(0, 0, 5, 6), Contains(5464, 0), Panics(&[0])),
    (ellipse(0, 0, 5, 6), Contains(5463, 0), Same(&[0])),
    (ellipse(0, 0, 256, 181), Row(0), Same(&[0, 115, 141])),
    (ellipse(0, 0, 256, 182), Row(0), Panics(&[0, 115, 141])),
    (ellipse(0, 0, 1024, 45), Row(0), Same(&[0, 405, 619])),
    (ellipse(0, 0, 1024, 46), Row(0), Panics(&[0, 406, 618])),
    (crate_box(0, 0, 118, 139, corner(118, 139)), Contains(117, 138), Panics(&[1])),
    (crate_box(0, 0, 104, 112, corner(104, 112)), Row(0), Panics(&[0, 94, 104])),
    (crate_box(0, 0, 122, 136, corner(1, 136)), Row(0), Panics(&[0, 0, 122])),
    (crate_box(21, 21, 256, 251, [(914, 914), (0, 0), (1021, 1024), (0, 0)]), StyledRow(unpainted(12, 2), 100), Panics(&[100, 61, 74, 74, 264, 264, 274])),
    // a box without columns has none to test, though its corner is (105, 120)
    (crate_box(0, 0, 0, 120, corner(903, 1024)), Confine, Same(&[105, 120, 0, 0, 0, 0, 0, 0])),
    (crate_box(0, 0, 0, 120, corner(903, 1024)), Row(0), Same(&[0, 0, 0])),
];

/// L and S of boxes by the crate's rule and by the W3C's, worked out by hand.
#[rustfmt::skip]
pub const FRACTIONS: &[(Figure, (i64, i64), (i64, i64))] = &[
    // f, g
    (crate_box(0, 0, 10, 100, [(9, 60); 4]), (100, 120), (10, 18)),
    // no radii; radii that fill every edge; one number more
    (crate_box(0, 0, 7, 5, corner(0, 0)), (1, 1), (1, 1)),
    (crate_box(0, 0, 10, 100, [(5, 50); 4]), (1, 1), (1, 1)),
    (crate_box(0, 0, 10, 100, [(5, 50), (6, 50), (5, 50), (5, 50)]), (10, 11), (10, 11)),
    (crate_box(0, 0, 10, 10, [(0, 9), (0, 0), (0, 0), (0, 8)]), (10, 17), (10, 17)),
    // S − L is 6: on every edge; on right and bottom; on bottom and left; on top and left
    (crate_box(0, 0, 20, 10, [(13, 8); 4]), (20, 26), (10, 16)),
    (crate_box(0, 0, 10, 20, [(1, 3), (1, 13), (8, 13), (8, 4)]), (20, 26), (10, 16)),
    (crate_box(0, 0, 20, 10, [(1, 8), (1, 1), (13, 1), (13, 8)]), (20, 26), (10, 16)),
    (crate_box(0, 0, 20, 10, [(13, 8), (13, 1), (1, 1), (1, 8)]), (20, 26), (10, 16)),
    // L / S is a half on the same edges
    (crate_box(0, 0, 10, 15, [(10, 15); 4]), (15, 30), (10, 20)),
    (crate_box(0, 0, 15, 10, [(1, 2), (1, 10), (15, 10), (15, 3)]), (15, 30), (10, 20)),
    (crate_box(0, 0, 10, 15, [(1, 15), (1, 1), (10, 1), (10, 15)]), (15, 30), (10, 20)),
    (crate_box(0, 0, 10, 15, [(10, 15), (10, 1), (1, 1), (1, 15)]), (15, 30), (10, 20)),
    // 1024 / 2047 is less than 1023 / 2045: 1024 * 2045 and 1023 * 2047 differ by 1
    (crate_box(0, 0, 1023, 1024, [(1021, 0), (1024, 1023), (0, 1024), (0, 0)]), (1024, 2047), (1024, 2047)),
    (crate_box(0, 0, 1024, 1024, [(1024, 1024); 4]), (1024, 2048), (1024, 2048)),
    // L is 0: all such ratios are equal, however large S is
    (crate_box(0, 0, 0, 120, corner(903, 1024)), (120, 1024), (0, 903)),
    (crate_box(0, 0, 0, 9, [(1, 0), (2, 0), (3, 0), (4, 0)]), (0, 7), (0, 3)),
    (crate_box(0, 0, 0, 0, [(0, 2), (0, 1), (5, 3), (4, 6)]), (0, 9), (0, 4)),
    (crate_box(0, 0, 1, 1, [(1, 1); 4]), (1, 2), (1, 2)),
];

/// Boxes whose rows the sentence on box rows foretells a panic for, and there is none: no column, no row.
pub const NOTHING_TO_TEST: [Figure; 2] = [
    crate_box(0, 0, 0, 120, corner(903, 1024)),
    crate_box(0, 0, 154, 0, [(4, 793), (1006, 0), (154, 0), (0, 0)]),
];

fn fixed(r: &mut Report) {
    for (f, ask, said) in FIXED {
        let (by_original, reference) = match said {
            Same(values) => (true, Some(values.to_vec())),
            Nothing => (true, None),
            Panics(values) | Lacks(values) => (false, Some(values.to_vec())),
        };
        let original = attempt(|| ask.of(f, &Original));
        let as_said = if by_original { original.as_ref() == Ok(&reference) } else { original.is_err() };
        for (side, right) in [("original", as_said), ("reference", ask.of(f, &Reference) == reference)] {
            if right {
                r.equal("fixed", 1);
            } else {
                r.differs("fixed", f, 0, format!("{}: the {side} says something else", ask.line(f)));
            }
        }
    }
    NOTHING_TO_TEST.iter().for_each(|f| r.rows(f));
    for (f, by_crate, by_w3c) in FRACTIONS {
        for (kind, said) in [(Kind::Crate, by_crate), (Kind::W3c, by_w3c)] {
            let f = Figure { kind, ..*f };
            if reference::confined(&f).map(|c| (c.l, c.s)) == Some(*said) {
                r.equal("fixed", 1);
            } else {
                r.differs("fixed", &f, 0, format!("{}: the reference says another L or S", Ask::Confine.line(&f)));
            }
        }
        r.confine(f);
        r.w3c(f, 0, false);
    }
    // a
    for (w, t) in [0, 1, 3, 8, 14, 25].into_iter().enumerate() {
        if reference::threshold(w as i64) == t {
            r.equal("fixed", 1);
        } else {
            r.differs("fixed", &NONE, 0, format!("case a, side {w}"));
        }
    }
}

/// Whether all fixed cases come out as they stand here.
pub fn fixed_as_said() -> bool {
    let mut r = Report::default();
    fixed(&mut r);
    r.different.is_empty()
}

pub fn run(seed: u64, effort: u64) -> bool {
    let start = Instant::now();
    let mut r = Report::default();
    let mut rng = Rng(seed);
    println!("seed {seed}, effort {effort}");
    let mut part = |name: &str, run: &mut dyn FnMut(&mut Report)| {
        let at = Instant::now();
        run(&mut r);
        println!("[{:6.1} s] {name}: {:.1} s", start.elapsed().as_secs_f64(), at.elapsed().as_secs_f64());
    };
    part("fixed cases", &mut fixed);
    part("ellipses, sides 0..12, all styles", &mut |r| small_ellipses(|f| small_figure(r, f)));
    if effort > 0 {
        part("first row of all ellipse sizes", &mut all_ellipse_sizes);
        part("first row of all top-left corners", &mut all_corners);
    }
    part("boxes, sides 0..12, equal corners 0..6, all styles", &mut |r| {
        small_equal_boxes(|f| {
            r.confine(f);
            small_figure(r, f);
        })
    });
    part("boxes, sides 0..12, any two corners 0..6", &mut |r| {
        let styles = styles();
        small_pairs(|at, f| {
            r.rows(f);
            r.confine(f);
            r.styled(f, &styles[at / 4 % 15]);
            if at % 8 == 0 {
                r.points(f);
                r.contains_all(f, 1);
            }
        })
    });
    part("boxes, sides 0..4, all radii 0..2, all styles", &mut |r| {
        tiny_boxes(|f| {
            r.rows(f);
            r.points(f);
            r.confine(f);
            r.contains_all(f, 1);
            for k in [-3, -1, 1, 2] {
                r.offset(f, k);
            }
            for s in styles() {
                r.styled(f, &s);
            }
        })
    });
    part("boxes, sides 0..12, all radii 0..6, random", &mut |r| random_small(r, &mut rng, 10_000 * effort));
    part("narrow boxes, random", &mut |r| random_narrow(r, &mut rng, 500 * effort));
    part("radii up to the limits, random", &mut |r| random_radii(r, &mut rng, 20_000 * effort));
    part("boxes with equal edges, random", &mut |r| random_equal_edges(r, &mut Rng(seed), 20_000 * effort));
    part("figures up to the limits, random", &mut |r| random_large(r, &mut rng, 1_000 * effort));
    part("scripts, random", &mut |r| scripts(r, 100 * effort, |n| rng.script(n)));
    part("scripts with removals, random", &mut |r| removing_scripts(r, &mut Rng(seed), 100 * effort));
    r.print()
}
