// Stand-in for what the root of the crate embedded-graphics itself supplies to
// `crate::...` paths of the original. Own code. Included at the root of the oracle's crate.

/// Source use: `crate::geometry::{Dimensions, Point, PointExt, Size}`.
pub mod geometry {
    pub use embedded_graphics_core::geometry::{Dimensions, Point, Size};

    /// Source use: `delta.length_squared()` in circle/. (No query of ours gets here: of circle/
    /// only `diameter_to_threshold` is used, by `EllipseContains::new`.)
    pub trait PointExt {
        fn length_squared(self) -> i32;
    }

    impl PointExt for Point {
        fn length_squared(self) -> i32 {
            self.x * self.x + self.y * self.y
        }
    }
}

/// Source use: `crate::pixelcolor::PixelColor`.
pub mod pixelcolor {
    pub use embedded_graphics_core::pixelcolor::PixelColor;
}

/// Source use: `crate::draw_target::DrawTarget`.
pub mod draw_target {
    pub use embedded_graphics_core::draw_target::DrawTarget;
}

/// Source use: `crate::Pixel`.
pub use embedded_graphics_core::Pixel;

/// Source use: `impl Transform for Ellipse` and others. (No query of ours gets here.)
pub mod transform {
    use crate::geometry::Point;

    pub trait Transform {
        fn translate(&self, by: Point) -> Self;
        fn translate_mut(&mut self, by: Point) -> &mut Self;
    }
}
