//! The records that both sides share, what both are asked, and how a panic is caught.

use std::{
    cell::RefCell,
    panic::{self, AssertUnwindSafe},
};

#[derive(Clone, Copy, PartialEq, Eq, Debug)]
pub enum Kind {
    Ellipse,
    Crate,
    W3c,
}

/// A figure as asked for. Radii: top-left, top-right, bottom-right, bottom-left; unused in an
/// ellipse.
#[derive(Clone, Copy, PartialEq, Eq, Debug)]
pub struct Figure {
    pub kind: Kind,
    pub x: i64,
    pub y: i64,
    pub w: i64,
    pub h: i64,
    pub radii: [(i64, i64); 4],
}

/// A style as asked for. Alignment 0 Inside, 1 Center, 2 Outside.
#[derive(Clone, Copy, PartialEq, Eq, Debug)]
pub struct Style {
    pub stroke: Option<u8>,
    pub fill: Option<u8>,
    pub width: i64,
    pub align: i64,
}

/// x, y, width, height.
pub type Rectangle = [i64; 4];

/// Calls of the library's own that C does not have.
#[derive(Clone, Copy, Debug)]
pub enum Plain {
    Center(Rectangle),
    /// the first two numbers are the centre
    WithCenter(Rectangle),
    Rows(Rectangle),
    Columns(Rectangle),
    Offset(Rectangle, i64),
    /// start, end, and what may lie between
    Range(i64, i64, i64),
    /// width and alignment
    Widths(i64, i64),
}

/// What the original and the reference are both asked.
pub trait Answers {
    fn plain(&self, call: &Plain) -> Vec<i64>;
    fn contains(&self, f: &Figure, px: i64, py: i64) -> bool;
    fn row(&self, f: &Figure, y: i64) -> Option<(i64, i64)>;
    fn points(&self, f: &Figure) -> Vec<i32>;
    fn offset(&self, f: &Figure, k: i64) -> Figure;
    /// The radii alone: L and S of the edge that decided are not the original's to say (`reference::confined`).
    fn confine(&self, f: &Figure) -> Option<[(i64, i64); 4]>;
    fn srow(&self, f: &Figure, s: &Style, y: i64) -> Option<[i64; 6]>;
    fn bbox(&self, f: &Figure, s: &Style) -> (i64, i64, i64, i64);
    fn paint(&self, f: &Figure, s: &Style, w: i64, h: i64, bytes: &mut [u8]);
}

/// The first number of a list that is there; the callers list them in rising order.
pub fn lowest(list: &[Option<u32>]) -> Option<u32> {
    list.iter().flatten().min().copied()
}

/// A canvas before a call: zeros, or a pattern of a seed.
pub fn first_lent(w: i64, h: i64, seed: Option<i64>) -> Vec<u8> {
    (0..w.max(0) * h.max(0))
        .map(|i| seed.map_or(0, |s| ((s + 37 * i) & 255) as u8))
        .collect()
}

pub fn adler32(bytes: impl IntoIterator<Item = u8>) -> u32 {
    let (mut a, mut b) = (1u32, 0u32);
    for byte in bytes {
        a = (a + byte as u32) % 65521;
        b = (b + a) % 65521;
    }
    b << 16 | a
}

// ---- panics ----

thread_local! {
    static LAST: RefCell<String> = const { RefCell::new(String::new()) };
}

/// Panics say nothing on standard error; where and why is kept for `attempt`.
pub fn silence() {
    panic::set_hook(Box::new(|info| {
        let place = info.location().map_or(String::new(), |l| {
            let parts: Vec<&str> = l.file().rsplit('/').take(2).collect();
            format!("{}/{}:{}", parts.get(1).unwrap_or(&""), parts[0], l.line())
        });
        let what = info
            .payload()
            .downcast_ref::<&str>()
            .map(|s| s.to_string())
            .or_else(|| info.payload().downcast_ref::<String>().cloned())
            .unwrap_or_default();
        LAST.with(|l| *l.borrow_mut() = format!("{place} {what}"));
    }));
}

/// The answer, or where and why there was a panic.
pub fn attempt<T>(f: impl FnOnce() -> T) -> Result<T, String> {
    panic::catch_unwind(AssertUnwindSafe(f)).map_err(|_| LAST.with(|l| l.borrow().clone()))
}
