//! Stand-in for primitives/styled.rs, which is not in docs/src. Own code.
//! Source use: primitives/mod.rs `pub use styled::{Styled, StyledDimensions, StyledDrawable}`;
//! every styled.rs implements `StyledPixels`, `StyledDrawable` and `StyledDimensions`.

use crate::{
    draw_target::DrawTarget, pixelcolor::PixelColor, primitives::Rectangle,
};

/// Source use: `Styled::new(self, style)` in `Primitive::into_styled`.
#[derive(Copy, Clone, Eq, PartialEq, Debug)]
pub struct Styled<T, S> {
    pub primitive: T,
    pub style: S,
}

impl<T, S> Styled<T, S> {
    pub const fn new(primitive: T, style: S) -> Self {
        Styled { primitive, style }
    }
}

pub trait StyledPixels<S> {
    type Iter;

    fn pixels(&self, style: &S) -> Self::Iter;
}

pub trait StyledDrawable<S> {
    type Color: PixelColor;
    type Output;

    fn draw_styled<D>(&self, style: &S, target: &mut D) -> Result<Self::Output, D::Error>
    where
        D: DrawTarget<Color = Self::Color>;
}

pub trait StyledDimensions<S> {
    fn styled_bounding_box(&self, style: &S) -> Rectangle;
}
