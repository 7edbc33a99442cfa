//! Reports of document 02, #110, as they are typed and as they are printed.

pub type Block = [u8; 128];

pub const ZERO: Block = [0; 128];

/// From 00 to 7F: byte i is i.
pub fn up() -> Block {
    let mut block = ZERO;
    (0..).zip(&mut block).for_each(|(i, byte)| *byte = i);
    block
}

/// From FF to 80: byte i is 255 - i.
pub fn down() -> Block {
    up().map(|byte| 255 - byte)
}

/// The first so many parts of one block, the others of a second.
pub fn spliced(first: &Block, parts: usize, second: &Block) -> Block {
    let mut block = *second;
    block[..8 * parts].copy_from_slice(&first[..8 * parts]);
    block
}

/// As they follow `offer`.
pub fn typed(bytes: &[u8]) -> String {
    bytes.iter().map(|byte| format!("{:02X}", byte)).collect::<Vec<_>>().join(" ")
}

/// As `pull` and `report` print a block.
pub fn printed(block: &Block) -> String {
    block.iter().map(|byte| format!("{:02X}", byte)).collect()
}
