//! The fields of a word: bit 31 is the highest, the top four bits are the kind.

pub const VARIABLE: u32 = 1;
pub const TABLE: u32 = 2;
pub const ROW: u32 = 3;
pub const TEST: u32 = 4;
pub const NOT: u32 = 5;
pub const AND: u32 = 6;
pub const OR: u32 = 7;
pub const CHANGE: u32 = 8;
pub const CONSTANT: u32 = 9;
pub const ASSERTION: u32 = 10;
pub const INPUT_EVENT: u32 = 11;

/// Stands for "every mode" in a row and for "no class" in a table.
pub const NONE: u32 = 255;

/// For each kind the bits that document 01 names beside the kind itself; all others must be zero.
const NAMED: [u32; 16] = [
    0x0000_0000, // 0: no word
    0x0FFF_FFFF, // 1 variable: 27..24, 23..12, 11..0
    0x0FFF_FF00, // 2 table: 27..24, 23..16, 15..8
    0x0FF0_00FF, // 3 row: 27..20, 7..0
    0x0FFF_00FF, // 4 test: 27..20, 19..16, 7..0
    0x0000_0000, // 5 not
    0x0000_0000, // 6 and
    0x0000_0000, // 7 or
    0x0F00_0000, // 8 change: 27..24
    0x0000_0001, // 9 constant: bit 0
    0x0F00_0000, // 10 assertion: 27..24
    0x0FF0_00FF, // 11 input event: 27..20, 7..0
    0x0000_0000, // 12 to 15: no words
    0x0000_0000,
    0x0000_0000,
    0x0000_0000,
];

pub fn kind(word: u32) -> u32 {
    word >> 28
}

/// Bits high..low of a word, both included.
pub fn field(word: u32, high: u32, low: u32) -> u32 {
    (word >> low) & ((1 << (high - low + 1)) - 1)
}

/// The bits of a word that its kind doesn't name.
pub fn spare_bits(kind: u32) -> u32 {
    0x0FFF_FFFF & !NAMED[kind as usize & 15]
}

pub fn has_spare_bits(word: u32) -> bool {
    word & spare_bits(kind(word)) != 0
}
