//! Stand-in for src/statistics.rs, which is not given. lib.rs names the types; nothing uses them.

pub struct EntryStatistics;
pub struct NvsStatistics;
pub struct PageStatistics;
