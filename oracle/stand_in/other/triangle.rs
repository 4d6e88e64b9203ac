//! Stand-in for primitives/triangle/mod.rs, which is not in docs/src and out of scope.
//! Source use: primitives/mod.rs re-exports `triangle::Triangle`; nothing that we query uses it. Own code.

/// Only the name.
pub struct Triangle;
