//! A flash in memory under the crate: "Programming a word replaces it by its AND with the new word. Erasing
//! sets a sector to 0xFF. Each is one step, counted even if no bit moves."

use embedded_storage::nor_flash::{ErrorType, NorFlash, ReadNorFlash};
use esp_nvs::platform::{software_crc32, Crc};
use model::sector::SECTOR_BYTES;
use model::steps::{apply, Step};

const WORD_BYTES: usize = 4;

/// What is kept of the steps, and how many may be made.
pub trait Meter {
    /// Whether there is power for the step. What it answers no to is not made.
    fn allows(&mut self, step: Step) -> bool;
}

/// Keeps each step; a limit cuts the power.
pub struct Recorder {
    pub steps: Vec<Step>,
    pub limit: u64,
    pub cut: bool,
}

impl Recorder {
    pub fn new(limit: u64) -> Recorder {
        Recorder { steps: Vec::new(), limit, cut: false }
    }
}

impl Meter for Recorder {
    fn allows(&mut self, step: Step) -> bool {
        self.cut |= self.steps.len() as u64 == self.limit;
        if !self.cut {
            self.steps.push(step);
        }
        !self.cut
    }
}

impl<M: Meter> Meter for &mut M {
    fn allows(&mut self, step: Step) -> bool {
        (**self).allows(step)
    }
}

/// Counts only, so that a timed run pays for nothing but the crate's own work.
pub struct Counter {
    pub steps: u64,
}

impl Meter for Counter {
    fn allows(&mut self, _: Step) -> bool {
        self.steps += 1;
        true
    }
}

/// The image lent to the crate, with its meter.
pub struct Flash<'a, M> {
    pub image: &'a mut [u8],
    pub meter: M,
}

/// The power went, or the crate asked for what the flash does not have.
#[derive(Debug)]
pub struct Failed;

impl<M: Meter> Flash<'_, M> {
    fn step(&mut self, step: Step) -> Result<(), Failed> {
        if !self.meter.allows(step) {
            return Err(Failed);
        }
        apply(self.image, step);
        Ok(())
    }
}

/// The crate's own CRC.
impl<M> Crc for Flash<'_, M> {
    fn crc32(start: u32, bytes: &[u8]) -> u32 {
        software_crc32(start, bytes)
    }
}

impl<M> ErrorType for Flash<'_, M> {
    type Error = Failed;
}

impl<M> ReadNorFlash for Flash<'_, M> {
    const READ_SIZE: usize = WORD_BYTES;

    fn read(&mut self, offset: u32, bytes: &mut [u8]) -> Result<(), Failed> {
        let from = offset as usize;
        bytes.copy_from_slice(self.image.get(from..from + bytes.len()).ok_or(Failed)?);
        Ok(())
    }
}

impl<M: Meter> NorFlash for Flash<'_, M> {
    const WRITE_SIZE: usize = WORD_BYTES;
    const ERASE_SIZE: usize = SECTOR_BYTES;

    fn erase(&mut self, from: u32, to: u32) -> Result<(), Failed> {
        let sectors = from as usize / SECTOR_BYTES..to as usize / SECTOR_BYTES;
        sectors.into_iter().try_for_each(|sector| self.step(Step::Erase { sector }))
    }

    fn write(&mut self, offset: u32, bytes: &[u8]) -> Result<(), Failed> {
        for (place, word) in bytes.chunks_exact(WORD_BYTES).enumerate() {
            let at = offset as usize + WORD_BYTES * place;
            let value = u32::from_le_bytes(word.try_into().expect("4 bytes"));
            let (sector, word) = (at / SECTOR_BYTES, at % SECTOR_BYTES / WORD_BYTES);
            self.step(Step::Program { sector, word, value })?;
        }
        Ok(())
    }
}
