//! The machine host as a Rust program calls it, and what the tests compare it on.

pub mod example;
pub mod inputs;

mod library {
    extern "C" {
        pub fn scr_check(bytes: *const u8, length: usize) -> u32;
        pub fn scr_step(bytes: *const u8, length: usize, state: u32, event: u32) -> u32;
    }
}

pub fn scr_check(bytes: &[u8]) -> u32 {
    // The pointer of a slice is never null, and all of its bytes may be read.
    unsafe { library::scr_check(bytes.as_ptr(), bytes.len()) }
}

pub fn scr_step(bytes: &[u8], state: u32, event: u32) -> u32 {
    // As above.
    unsafe { library::scr_step(bytes.as_ptr(), bytes.len(), state, event) }
}
