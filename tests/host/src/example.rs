//! The words of examples/set-a.hex.

use oracle::word::{kind, INPUT_EVENT};
use std::path::PathBuf;

/// A path from the root of the repository.
pub fn path(name: &str) -> PathBuf {
    [env!("CARGO_MANIFEST_DIR"), "../..", name].iter().collect()
}

/// The words of Set A, and of the events after it.
pub fn set_a() -> (Vec<u32>, Vec<u32>) {
    let text = std::fs::read_to_string(path("examples/set-a.hex")).unwrap();
    let lines = text.lines().map(|line| line.split('#').next().unwrap());
    let words: Vec<u32> =
        lines.flat_map(str::split_whitespace).map(|word| u32::from_str_radix(word, 16).unwrap()).collect();
    let end = words.iter().position(|&word| kind(word) == INPUT_EVENT).unwrap();
    (words[..end].to_vec(), words[end..].to_vec())
}
