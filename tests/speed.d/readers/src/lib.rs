//! What the readers of captures and the maker of captures share: the CRC of document 01, bit 0 of its register being
//! S15.

/// The register after eight more bits.
pub const fn eight_bits(mut register: u16) -> u16 {
    let mut bit = 0;
    while bit < 8 {
        register = if register & 1 == 1 { register >> 1 ^ 0xA001 } else { register >> 1 };
        bit += 1;
    }
    register
}

/// What each byte makes of a register that is zero.
pub static TABLE: [u16; 256] = {
    let mut table = [0; 256];
    let mut byte = 0;
    while byte < 256 {
        table[byte] = eight_bits(byte as u16);
        byte += 1;
    }
    table
};

/// The data bytes of symbols 10 and 11.
pub fn crc(bytes: &[u8; 10]) -> [u8; 2] {
    let step = |register: u16, byte: &u8| register >> 8 ^ TABLE[usize::from(register as u8 ^ byte)];
    bytes.iter().fold(0, step).to_le_bytes()
}
