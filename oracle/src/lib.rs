//! A plain model of documents 01 and 02, a generator of cases, and comparisons with the model. README.md says what each
//! file holds; main.rs has the commands.

pub mod active_order;
pub mod blob_images;
pub mod blobs;
pub mod branch;
pub mod case_branches;
pub mod compare;
pub mod cover;
pub mod crc;
pub mod describe;
pub mod draw_image;
pub mod draw_page;
pub mod draw_pieces;
pub mod duplicates;
pub mod finish;
pub mod generate;
pub mod items;
pub mod listing;
#[cfg(test)]
mod mark_tests;
pub mod mishaps;
pub mod mutants;
pub mod named;
pub mod notes;
pub mod other_marks;
pub mod other_way;
pub mod protocol;
pub mod random;
pub mod reclaim;
pub mod record;
pub mod recover;
pub mod sample;
pub mod scan;
pub mod sector;
pub mod slip;
pub mod steps;
#[cfg(test)]
mod tests;
pub mod worn_profile;
pub mod writing;
