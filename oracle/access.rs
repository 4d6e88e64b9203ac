// Included by the generated build/primitives/{ellipse,rounded_rectangle}/styled.rs as a child
// module of the ORIGINAL styled.rs, so that its private `StyledScanlines` and the `Scanlines` of
// the private sibling `points` can be walked. `Shape` is named by the generated file.

use super::{Scanlines, StyledScanlines};
use crate::{
    draw_target::DrawTarget,
    original::{Access, Byte},
    primitives::{
        styled::{StyledDimensions, StyledDrawable, StyledPixels},
        PrimitiveStyle, Rectangle,
    },
    Pixel,
};

impl Access for Shape {
    fn each_row<F: FnMut(i32, i32, i32) -> bool>(&self, mut f: F) {
        for line in Scanlines::new(self) {
            if !f(line.y, line.x.start, line.x.end) {
                return;
            }
        }
    }

    fn each_styled_row<F: FnMut(i32, [i32; 6]) -> bool>(
        &self,
        style: &PrimitiveStyle<Byte>,
        mut f: F,
    ) {
        // As in the original `StyledPixelsIterator::new`.
        for line in StyledScanlines::new(&style.stroke_area(self), &style.fill_area(self)) {
            let left = line.stroke_left();
            let fill = line.fill();
            let right = line.stroke_right();
            let runs = [
                left.x.start,
                left.x.end,
                fill.x.start,
                fill.x.end,
                right.x.start,
                right.x.end,
            ];
            if !f(left.y, runs) {
                return;
            }
        }
    }

    fn each_pixel<F: FnMut(i32, i32, u8)>(&self, style: &PrimitiveStyle<Byte>, mut f: F) {
        for Pixel(point, Byte(colour)) in StyledPixels::pixels(self, style) {
            f(point.x, point.y, colour);
        }
    }

    fn draw<D: DrawTarget<Color = Byte>>(
        &self,
        style: &PrimitiveStyle<Byte>,
        target: &mut D,
    ) -> Result<(), D::Error> {
        self.draw_styled(style, target)
    }

    fn styled_box(&self, style: &PrimitiveStyle<Byte>) -> Rectangle {
        self.styled_bounding_box(style)
    }
}
