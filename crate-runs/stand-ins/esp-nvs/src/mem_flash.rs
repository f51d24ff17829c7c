//! Stand-in for src/mem_flash.rs, which is not given. lib.rs names the module; the flash here is that of crate-runs.
