//! Stand-in for the crate `az`: only the trait that the original imports.
//!
//! Source use: `use az::SaturatingAs;` in primitive_style.rs and every styled.rs, where
//! `self.outside_stroke_width().saturating_as()` turns a u32 stroke width into an i32 offset.
//! Paper 01: "`Point`, `Size` and `saturating_as` have none either: the stand-in works per axis
//! in i32 and u32, and caps only where the name says saturating."

pub trait SaturatingAs {
    fn saturating_as<T>(self) -> T
    where
        Self: SaturatingCast<T>,
        Self: Sized,
    {
        self.saturating_cast()
    }
}

pub trait SaturatingCast<T> {
    fn saturating_cast(self) -> T;
}

impl SaturatingAs for u32 {}

/// The one pair of types the original uses: capped at `i32::MAX`.
impl SaturatingCast<i32> for u32 {
    #[inline]
    fn saturating_cast(self) -> i32 {
        if self > i32::MAX as u32 {
            i32::MAX
        } else {
            self as i32
        }
    }
}
