//! The CRC of document 01.

/// What eight shifts make of one byte in the register.
const fn eight_shifts(byte: u32) -> u32 {
    let mut register = byte;
    let mut shift = 0;
    while shift < 8 {
        let polynomial = if register & 1 == 1 { 0xEDB8_8320 } else { 0 };
        register = (register >> 1) ^ polynomial;
        shift += 1;
    }
    register
}

const EIGHT_SHIFTS: [u32; 256] = {
    let mut table = [0; 256];
    let mut byte = 0;
    while byte < 256 {
        table[byte] = eight_shifts(byte as u32);
        byte += 1;
    }
    table
};

/// "CRC: 32 bits, reflected polynomial 0xEDB88320, register zero at the start, complemented at the end."
pub fn crc<'a>(bytes: impl IntoIterator<Item = &'a u8>) -> u32 {
    let mut register = 0u32;
    for byte in bytes {
        let low = (register as u8) ^ byte;
        register = (register >> 8) ^ EIGHT_SHIFTS[low as usize];
    }
    !register
}
