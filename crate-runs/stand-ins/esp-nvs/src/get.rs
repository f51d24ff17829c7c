//! Stand-in for src/get.rs, which is not given. lib.rs names the trait; nothing uses it.

pub trait Get {}
