//! Stand-in for primitives/polyline/mod.rs, which is not in docs/src and out of scope.
//! Source use: primitives/mod.rs re-exports `polyline::Polyline`; nothing that we query uses it. Own code.

/// Only the name.
pub struct Polyline;
