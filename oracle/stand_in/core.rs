//! Stand-in for the crate `embedded_graphics_core`, which is not in docs/src.
//! Own code. The original names it in rectangle/mod.rs
//! (`pub use embedded_graphics_core::primitives::{rectangle::Points, Rectangle}`) and in
//! primitives/mod.rs (`pub use embedded_graphics_core::primitives::PointsIter`).

pub mod geometry {
    //! Paper 01, 'Rectangle and offset': "`Point`, `Size` and `saturating_as` have none either:
    //! the stand-in works per axis in i32 and u32, and caps only where the name says saturating."
    //! So every operator below is the plain i32 or u32 operator of each axis; the build has
    //! overflow checks on, so that an overflow is a panic and never a wrapped answer.

    use crate::primitives::Rectangle;
    use core::ops::{Add, AddAssign, Div, Mul, Sub};

    /// Signed x and y. The derives are those that the derives of the original's own structs need.
    #[derive(Copy, Clone, Eq, PartialEq, Ord, PartialOrd, Hash, Debug, Default)]
    pub struct Point {
        pub x: i32,
        pub y: i32,
    }

    impl Point {
        #[inline]
        pub const fn new(x: i32, y: i32) -> Self {
            Point { x, y }
        }

        #[inline]
        pub const fn zero() -> Self {
            Point { x: 0, y: 0 }
        }
    }

    /// Unsigned width and height.
    #[derive(Copy, Clone, Eq, PartialEq, Ord, PartialOrd, Hash, Debug, Default)]
    pub struct Size {
        pub width: u32,
        pub height: u32,
    }

    impl Size {
        #[inline]
        pub const fn new(width: u32, height: u32) -> Self {
            Size { width, height }
        }

        /// Source use: `Size::new_equal(2 * offset as u32)` in every `offset`.
        #[inline]
        pub const fn new_equal(value: u32) -> Self {
            Size::new(value, value)
        }

        #[inline]
        pub const fn zero() -> Self {
            Size::new(0, 0)
        }

        /// "caps only where the name says saturating": at u32::MAX per axis.
        #[inline]
        pub const fn saturating_add(self, other: Self) -> Self {
            Size::new(
                self.width.saturating_add(other.width),
                self.height.saturating_add(other.height),
            )
        }

        /// "caps only where the name says saturating": at 0 per axis ("never below 0").
        #[inline]
        pub const fn saturating_sub(self, other: Self) -> Self {
            Size::new(
                self.width.saturating_sub(other.width),
                self.height.saturating_sub(other.height),
            )
        }

        /// Source use: `top_left + size.x_axis()` in `get_confined_corner_quadrant`.
        #[inline]
        pub const fn x_axis(self) -> Self {
            Size::new(self.width, 0)
        }

        /// Source use: `top_left + size.y_axis()` in `get_confined_corner_quadrant`.
        #[inline]
        pub const fn y_axis(self) -> Self {
            Size::new(0, self.height)
        }
    }

    /// A length as a signed number; above i32::MAX there is no answer per axis, so it panics.
    #[inline]
    pub(crate) const fn signed(length: u32) -> i32 {
        if length > i32::MAX as u32 {
            panic!("stand-in: a length above i32::MAX")
        }
        length as i32
    }

    /// Source use: `top_left * 2` in `center_2x`, `point * 2` in `contains`.
    impl Mul<i32> for Point {
        type Output = Point;
        #[inline]
        fn mul(self, by: i32) -> Point {
            Point::new(self.x * by, self.y * by)
        }
    }

    /// Source use: `self.top_left + by` in `translate`.
    impl Add for Point {
        type Output = Point;
        #[inline]
        fn add(self, other: Point) -> Point {
            Point::new(self.x + other.x, self.y + other.y)
        }
    }

    /// Source use: `self.top_left += by` in `translate_mut`.
    impl AddAssign for Point {
        #[inline]
        fn add_assign(&mut self, other: Point) {
            *self = *self + other;
        }
    }

    /// Source use: `point * 2 - self.center_2x()` in `contains`.
    impl Sub for Point {
        type Output = Point;
        #[inline]
        fn sub(self, other: Point) -> Point {
            Point::new(self.x - other.x, self.y - other.y)
        }
    }

    /// Source use: `top_left * 2 + radius` in `center_2x`.
    impl Add<Size> for Point {
        type Output = Point;
        #[inline]
        fn add(self, other: Size) -> Point {
            Point::new(self.x + signed(other.width), self.y + signed(other.height))
        }
    }

    /// Source use: `top_left - radius` in `EllipseQuadrant::new`.
    impl Sub<Size> for Point {
        type Output = Point;
        #[inline]
        fn sub(self, other: Size) -> Point {
            Point::new(self.x - signed(other.width), self.y - signed(other.height))
        }
    }

    /// Source use: `self.top_left * size` in `confine`, `radius * 2` in `EllipseQuadrant::new`.
    impl Mul<u32> for Size {
        type Output = Size;
        #[inline]
        fn mul(self, by: u32) -> Size {
            Size::new(self.width * by, self.height * by)
        }
    }

    /// Source use: `/ corner_size` in `confine` (paper 01: "scales every radius r to
    /// floor(r × L / S)"; u32 division rounds down).
    impl Div<u32> for Size {
        type Output = Size;
        #[inline]
        fn div(self, by: u32) -> Size {
            Size::new(self.width / by, self.height / by)
        }
    }

    /// Source use: `impl Dimensions for Ellipse`, `for RoundedRectangle`, `for EllipseQuadrant`.
    pub trait Dimensions {
        fn bounding_box(&self) -> Rectangle;
    }
}

pub mod pixelcolor {
    //! Source use: `C: PixelColor`, copied out of `Option<C>` by the pixel iterators.
    pub trait PixelColor: Copy + PartialEq {}
}

/// Source use: `Pixel(p, stroke_color)` in the pixel iterators.
#[derive(Copy, Clone, Eq, PartialEq, Debug)]
pub struct Pixel<C: pixelcolor::PixelColor>(pub geometry::Point, pub C);

pub mod draw_target {
    //! Source use: `Scanline::draw` calls `target.fill_solid` with a rectangle one row high;
    //! rectangle/styled.rs calls it with whole rectangles. Nothing else of a target is used.
    use crate::{pixelcolor::PixelColor, primitives::Rectangle};

    pub trait DrawTarget {
        type Color: PixelColor;
        type Error;

        fn fill_solid(&mut self, area: &Rectangle, color: Self::Color) -> Result<(), Self::Error>;
    }
}

pub mod primitives {
    use crate::geometry::Point;

    pub use rectangle::Rectangle;

    /// Source use: `impl PointsIter for Ellipse { type Iter = Points; fn points(&self) }`.
    pub trait PointsIter {
        type Iter: Iterator<Item = Point>;

        fn points(&self) -> Self::Iter;
    }

    pub mod rectangle {
        //! Paper 01, 'Rectangle and offset': "`center`, `with_center`, `rows` and `columns` have
        //! no body in docs/src. Here, and in the oracle's stand-in: ..."

        use super::PointsIter;
        use crate::geometry::{signed, Dimensions, Point, Size};
        use core::ops::Range;

        #[derive(Copy, Clone, Eq, PartialEq, Ord, PartialOrd, Hash, Debug, Default)]
        pub struct Rectangle {
            pub top_left: Point,
            pub size: Size,
        }

        /// "floor(max(side − 1, 0) / 2) per axis"
        #[inline]
        const fn centre_term(side: u32) -> i32 {
            signed(side.saturating_sub(1) / 2)
        }

        impl Rectangle {
            #[inline]
            pub const fn new(top_left: Point, size: Size) -> Self {
                Rectangle { top_left, size }
            }

            /// "the centre is top-left plus floor(max(side − 1, 0) / 2) per axis"
            #[inline]
            pub const fn center(&self) -> Point {
                Point::new(
                    self.top_left.x + centre_term(self.size.width),
                    self.top_left.y + centre_term(self.size.height),
                )
            }

            /// "`with_center` subtracts the same term of the new size"
            #[inline]
            pub const fn with_center(center: Point, size: Size) -> Self {
                Rectangle::new(
                    Point::new(
                        center.x - centre_term(size.width),
                        center.y - centre_term(size.height),
                    ),
                    size,
                )
            }

            /// "rows are y..y + height, ... also when the other side is 0"
            #[inline]
            pub const fn rows(&self) -> Range<i32> {
                self.top_left.y..self.top_left.y + signed(self.size.height)
            }

            /// "columns x..x + width, also when the other side is 0"
            #[inline]
            pub const fn columns(&self) -> Range<i32> {
                self.top_left.x..self.top_left.x + signed(self.size.width)
            }

            /// Source use: `ContainsPoint for Rectangle` in rectangle/mod.rs asks for an optional
            /// last point: none for a rectangle without area. (No query of ours gets here.)
            #[inline]
            pub fn bottom_right(&self) -> Option<Point> {
                if self.size.width > 0 && self.size.height > 0 {
                    Some(self.top_left + self.size - Point::new(1, 1))
                } else {
                    None
                }
            }

            /// `styled.rs` calls `Rectangle::offset` and `contains` without the traits in scope, so
            /// they are inherent functions here; this is the body of `rectangle/mod.rs`.
            #[inline]
            pub fn offset(&self, offset: i32) -> Self {
                let size = if offset >= 0 {
                    self.size.saturating_add(Size::new_equal(offset as u32 * 2))
                } else {
                    self.size
                        .saturating_sub(Size::new_equal((-offset) as u32 * 2))
                };

                Self::with_center(self.center(), size)
            }

            /// As above: the body of `ContainsPoint for Rectangle` in rectangle/mod.rs, which
            /// rectangle/styled.rs calls without the trait in scope. (No query of ours gets here.)
            #[inline]
            pub fn contains(&self, point: Point) -> bool {
                if point.x >= self.top_left.x && point.y >= self.top_left.y {
                    self.bottom_right().map_or(false, |bottom_right| {
                        point.x <= bottom_right.x && point.y <= bottom_right.y
                    })
                } else {
                    false
                }
            }
        }

        impl Dimensions for Rectangle {
            #[inline]
            fn bounding_box(&self) -> Rectangle {
                *self
            }
        }

        impl PointsIter for Rectangle {
            type Iter = Points;

            fn points(&self) -> Points {
                Points {
                    columns: self.columns(),
                    rows: self.rows(),
                    next_x: self.top_left.x,
                }
            }
        }

        /// Source use: rectangle/styled.rs walks `style.stroke_area(primitive).points()` or
        /// `Points::empty()`. (No query of ours gets here.)
        #[derive(Clone, Eq, PartialEq, Hash, Debug)]
        pub struct Points {
            columns: Range<i32>,
            rows: Range<i32>,
            next_x: i32,
        }

        impl Points {
            pub fn empty() -> Self {
                Points {
                    columns: 0..0,
                    rows: 0..0,
                    next_x: 0,
                }
            }
        }

        impl Iterator for Points {
            type Item = Point;

            fn next(&mut self) -> Option<Point> {
                if self.rows.is_empty() || self.columns.is_empty() {
                    return None;
                }
                let point = Point::new(self.next_x, self.rows.start);
                self.next_x += 1;
                if self.next_x == self.columns.end {
                    self.next_x = self.columns.start;
                    self.rows.start += 1;
                }
                Some(point)
            }
        }
    }
}
