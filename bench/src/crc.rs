//! The plain table CRC, a byte a turn: what the times are held against.

const fn table() -> [u32; 256] {
    let mut t = [0u32; 256];
    let mut i = 0;
    while i < 256 {
        let (mut x, mut k) = (i as u32, 0);
        while k < 8 {
            x = (x >> 1) ^ if x & 1 == 1 { 0xEDB88320 } else { 0 };
            k += 1;
        }
        t[i] = x;
        i += 1;
    }
    t
}

static TABLE: [u32; 256] = table();

fn run(mut register: u32, bytes: &[u8]) -> u32 {
    for b in bytes {
        register = (register >> 8) ^ TABLE[((register ^ *b as u32) & 255) as usize];
    }
    register
}

pub fn header_crc(sector: &[u8]) -> u32 {
    !run(0, &sector[4..28])
}

pub fn entry_crc(entry: &[u8]) -> u32 {
    !run(run(0, &entry[..4]), &entry[8..32])
}

pub fn crc(bytes: &[u8]) -> u32 {
    !run(0, bytes)
}
