//! Stand-in for src/set.rs, which is not given. lib.rs names the trait; nothing uses it.

pub trait Set {}
