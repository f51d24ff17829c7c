//! Stand-in for the crate embedded-storage: the flash traits that the given files name, and no more. It decides nothing.
#![no_std]

pub mod nor_flash {
    use core::fmt::Debug;

    pub trait ErrorType {
        type Error: Debug;
    }

    pub trait ReadNorFlash: ErrorType {
        const READ_SIZE: usize;
        fn read(&mut self, offset: u32, bytes: &mut [u8]) -> Result<(), Self::Error>;
    }

    pub trait NorFlash: ReadNorFlash {
        const WRITE_SIZE: usize;
        const ERASE_SIZE: usize;
        fn erase(&mut self, from: u32, to: u32) -> Result<(), Self::Error>;
        fn write(&mut self, offset: u32, bytes: &[u8]) -> Result<(), Self::Error>;
    }
}
