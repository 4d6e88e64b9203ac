//! Stand-in for primitives/arc/mod.rs, which is not in docs/src and out of scope.
//! Source use: primitives/mod.rs re-exports `arc::Arc`; nothing that we query uses it. Own code.

/// Only the name.
pub struct Arc;
