//! Runs the ten given files of esp-nvs 0.6.3, unchanged, on images, beside the model of document 01. README.md
//! says what stands in for the missing files and on which images the two must agree.

pub mod class;
pub mod compare;
pub mod crate_call;
pub mod cuts;
pub mod differences;
pub mod draw;
pub mod flash;
pub mod page;
pub mod record;
pub mod stories;
pub mod timed;
pub mod words;
