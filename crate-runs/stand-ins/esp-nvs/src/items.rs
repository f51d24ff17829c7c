//! Stand-in for src/items.rs, which is not given. lib.rs names the module; nothing uses it.
