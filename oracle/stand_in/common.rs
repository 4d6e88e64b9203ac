//! Stand-in for primitives/common/mod.rs, which is not in docs/src: it names the two original
//! files and supplies the one other item that the original modules import from here. Own code.

mod scanline; // the original file
mod styled_scanline; // the original file

pub use scanline::Scanline;
pub use styled_scanline::StyledScanline;

use crate::{geometry::Point, primitives::Rectangle};

/// Source use: `Circle::distances` in circle/mod.rs. (No query of ours gets here.)
pub struct DistanceIterator;

impl DistanceIterator {
    pub fn new(_center_2x: Point, _bounding_box: &Rectangle) -> Self {
        unreachable!("stand-in: DistanceIterator is named by circle/mod.rs and used by nothing here")
    }
}
