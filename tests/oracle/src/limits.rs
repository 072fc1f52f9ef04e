//! Every bound of document 01, in one place.

/// Words of a set.
pub const WORDS: usize = 4096;
/// Variables of a set.
pub const VARIABLES: usize = 32;
/// Rows of a table.
pub const ROWS: usize = 64;
/// Assertions of a set.
pub const ASSERTIONS: usize = 32;
/// Depth of a formula, its root being at 1.
pub const DEPTH: usize = 16;
/// Smallest size of a variable.
pub const SIZE_LEAST: u32 = 2;
/// Largest size of a variable that is no mode class.
pub const SIZE: u32 = 256;
/// Largest size of a mode class: mode 255 stands for every mode.
pub const MODES: u32 = 255;
/// Typed states of a set.
pub const STATES: u64 = 65_536;
/// Events of one run.
pub const EVENTS: usize = 4096;
/// Words that the program reads.
pub const PROGRAM_WORDS: usize = 8192;
/// Moves along a cycle before it is shown.
pub const CYCLE_MOVES: usize = 32;
