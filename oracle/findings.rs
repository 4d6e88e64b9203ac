//! Where the Rust does not finish, as predicates (docs/DIFFERENCES.md has the reasons), so
//! that the comparison can hold each of them against what the original really does.

use crate::{records::Kind, reference::Area};

const T: i64 = 1 << 32;

/// "`test(w,h,X,Y)` overflows iff w ≠ h and h²X² + w²Y² ≥ T"
pub fn test(w: i64, h: i64, x: i64, y: i64) -> bool {
    w != h && h * h * x * x + w * w * y * y >= T
}

/// "`new(w,h)` iff w ≠ h and w·h ≥ 65536"
pub fn new(w: i64, h: i64) -> bool {
    w != h && w * h >= 65536
}

/// "Ellipse rows, points, styled rows, pixels (w × h the stroke area): w, h ≥ 1, w ≠ h and
/// h²(w−1)² + w²(h−1)² ≥ T."
pub fn ellipse_rows(w: i64, h: i64) -> bool {
    w >= 1 && h >= 1 && test(w, h, w - 1, h - 1)
}

/// "Box, any call: a confined corner (a, b) with a ≠ b and a·b ≥ 16384"
pub fn box_any(area: &Area) -> bool {
    area.corner_radii().iter().any(|&(a, b)| new(2 * a, 2 * b))
}

/// "Box rows, corner (a, b), b > 0, a ≠ b (bottom-left counts only if tl.h < H, bottom-right only if
/// tr.h < H): a > 0 and test(2a, 2b, 2a−1, 2b−1); a = 0 and b·(W−1) ≥ 16384 for left corners,
/// b·W ≥ 16384 for right ones; or no column of the box inside on the outermost row and
/// test(2a, 2b, 2(W−1)−(2a−1), 2b−1)".
/// `strict` adds what the sentence leaves out: a box of width 0 has no column to test, one of
/// height 0 no row.
pub fn box_rows(area: &Area, strict: bool) -> bool {
    let (w, h) = area.sides();
    if box_any(area) {
        return true;
    }
    if strict && (w == 0 || h == 0) {
        return false;
    }
    let r = area.corner_radii();
    let counts = [true, true, r[1].1 < h, r[0].1 < h];
    let left = [true, false, false, true];
    (0..4).any(|i| {
        let (a, b) = r[i];
        if b == 0 || a == b || !counts[i] {
            return false;
        }
        if a == 0 {
            return b * if left[i] { w - 1 } else { w } >= 16384;
        }
        if test(2 * a, 2 * b, 2 * a - 1, 2 * b - 1) {
            return true;
        }
        // columns left to right from the outermost, in corner coordinates: X = 2j − (2a − 1)
        let none = !(0..w).any(|j| {
            let x = 2 * j - (2 * a - 1);
            4 * b * b * x * x + 4 * a * a * (2 * b - 1) * (2 * b - 1) < 16 * a * a * b * b
        });
        none && test(2 * a, 2 * b, 2 * (w - 1) - (2 * a - 1), 2 * b - 1)
    })
}

/// Plain rows or points of a figure.
pub fn rows(area: &Area) -> bool {
    if area.kind() == Kind::Ellipse {
        let (w, h) = area.sides();
        ellipse_rows(w, h)
    } else {
        box_rows(area, true)
    }
}

/// "Styled box: the stroke area's rows, or the fill area alone". The first answer: surely panics;
/// the second: may panic (some fill corner's worst test overflows).
pub fn styled(stroke: &Area, fill: &Area) -> (bool, bool) {
    if stroke.kind() == Kind::Ellipse {
        let r = rows(stroke);
        return (r, r);
    }
    let sure = rows(stroke) || box_any(fill);
    let worst = fill
        .corner_radii()
        .iter()
        .any(|&(a, b)| a > 0 && b > 0 && test(2 * a, 2 * b, 2 * a - 1, 2 * b - 1));
    (sure, sure || worst)
}
