//! Compares the probe and the program with the oracle, byte by byte, on random inputs by seed.

pub mod compare;
pub mod counts;
pub mod inputs;
pub mod program;
pub mod program_inputs;
