//! Stand-in for primitives/line/mod.rs, which is not in docs/src and out of scope. Own code.
//! Source use: primitives/mod.rs re-exports `line::Line`; common/scanline.rs names its ends and
//! `points()` in `bresenham_intersection`, which only triangles and polylines call.

use crate::{geometry::Point, primitives::PointsIter};

pub struct Line {
    pub start: Point,
    pub end: Point,
}

impl PointsIter for Line {
    type Iter = core::iter::Empty<Point>;

    fn points(&self) -> Self::Iter {
        unreachable!("stand-in: lines are out of scope and used by nothing here")
    }
}
