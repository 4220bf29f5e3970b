//! CRC-32 as zlib, PNG and gzip have it.

/// What is added where a one drops out of the register.
const POLYNOMIAL: u32 = 0xEDB8_8320;
/// Bytes that are taken at once.
const STRIDE: usize = 16;

/// What a byte does to the register that comes so many bytes before the end of a stride.
static TABLES: [[u32; 256]; STRIDE] = {
    let mut tables = [[0; 256]; STRIDE];
    let mut byte = 0;
    while byte < 256 {
        let mut register = byte as u32;
        let mut bit = 0;
        while bit < 8 {
            register = (register >> 1) ^ ((register & 1) * POLYNOMIAL);
            bit += 1;
        }
        tables[0][byte] = register;
        byte += 1;
    }
    let mut later = 1;
    while later < STRIDE {
        let mut byte = 0;
        while byte < 256 {
            let register = tables[later - 1][byte];
            tables[later][byte] = register >> 8 ^ tables[0][(register & 0xFF) as usize];
            byte += 1;
        }
        later += 1;
    }
    tables
};

/// The checksum of some bytes.
pub fn crc32(bytes: &[u8]) -> u32 {
    let strides = bytes.chunks_exact(STRIDE);
    let rest = strides.remainder();
    let register = strides.fold(u32::MAX, after_stride);
    !rest.iter().fold(register, after_byte)
}

fn after_byte(register: u32, &byte: &u8) -> u32 {
    register >> 8 ^ TABLES[0][usize::from(register as u8 ^ byte)]
}

/// The register is added to the first four bytes; then each byte does its part by itself.
fn after_stride(register: u32, stride: &[u8]) -> u32 {
    let mut bytes = [0; STRIDE];
    bytes.copy_from_slice(stride);
    for (byte, held) in bytes.iter_mut().zip(register.to_le_bytes()) {
        *byte ^= held;
    }
    let parts = bytes.iter().zip(TABLES.iter().rev());
    parts.fold(0, |sum, (&byte, table)| sum ^ table[usize::from(byte)])
}
