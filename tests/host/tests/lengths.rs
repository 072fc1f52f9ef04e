//! Every length about the least and the greatest, of bytes that pass and of damaged ones.

use host::inputs::alter;
use host::{example, scr_check, scr_step};
use oracle::bytes::to_bytes;
use oracle::generate::bounds;
use oracle::random::Random;
use oracle::{host_check, host_step};

/// How many damaged versions of the bytes are tried at each length.
const DAMAGED: u64 = 25;
const GUARD_TO_1: u32 = 0xB000_0001;

fn compare(bytes: &[u8]) {
    let length = bytes.len();
    assert_eq!(scr_check(bytes), host_check(bytes), "{length} bytes");
    for (state, event) in [(0, GUARD_TO_1), (1, GUARD_TO_1), (u32::MAX, u32::MAX)] {
        assert_eq!(
            scr_step(bytes, state, event),
            host_step(bytes, state, event),
            "{length} bytes, {state}, {event:08x}"
        );
    }
}

fn compare_fronts(bytes: &[u8], lengths: impl Iterator<Item = usize>) {
    for length in lengths {
        let front = &bytes[..length];
        compare(front);
        for version in 0..DAMAGED {
            let mut random = Random::of_item(length as u64, version);
            let mut damaged = front.to_vec();
            (0..random.between(1, 4)).for_each(|_| alter(&mut random, &mut damaged));
            compare(&damaged);
        }
    }
}

#[test]
fn short() {
    compare_fronts(&to_bytes(&example::set_a().0), 0..=40);
    // Inputs of size 2 are a set wherever they are cut.
    let inputs = to_bytes(&bounds::inputs(10));
    assert!((4..=40).step_by(4).all(|length| scr_check(&inputs[..length]) == 0));
    compare_fronts(&inputs, 0..=40);
}

#[test]
fn long() {
    let longest = to_bytes(&bounds::words(4096));
    assert_eq!(longest.len(), 16_384);
    assert_eq!(scr_check(&longest), 0);
    assert_eq!(scr_check(&to_bytes(&bounds::words(4097))), 1);
    // What follows the longest set is its front again.
    compare_fronts(&longest.repeat(2), 16_380..=16_392);
    compare(&longest.repeat(64));
}
