//! Stand-in for primitives/sector/mod.rs, which is not in docs/src and out of scope.
//! Source use: primitives/mod.rs re-exports `sector::Sector`; nothing that we query uses it. Own code.

/// Only the name.
pub struct Sector;
