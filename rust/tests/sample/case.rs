//! A bench with its vectors, predicates and ZA, all of them right or wrong.

use super::Random;
use crate::pseudocode::{Bench, check_run};
use std::iter;

/// What words are executed on.
pub struct Case {
    pub bench: Bench,
    pub z: Vec<u8>,
    pub p: Vec<u8>,
    pub za: Vec<u8>,
}

/// The vector lengths, short ones more often.
pub const LENGTHS: [usize; 9] = [16, 16, 16, 32, 32, 64, 64, 128, 256];

/// Vector lengths that are refused; among them some whose low bits, or whose wrapped square, would be right.
const WRONG: [usize; 13] =
    [0, 1, 15, 17, 24, 48, 512, (1 << 16) + 16, 1 << 32, (1 << 32) + 16, 1 << 60, (1 << 63) + 16, usize::MAX];

impl Case {
    /// A case at one of these vector lengths, in which each thing is wrong now and then.
    pub fn new(random: &mut Random, lengths: &[usize]) -> Case {
        let lengths = if random.chance(16) { &WRONG } else { lengths };
        let vb = random.pick(lengths);
        let low = vb as u16 as usize;
        let flags = if random.chance(8) { super::flags(random) } else { 15 };
        let bench = Bench { flags, streaming: !random.chance(12), za_on: !random.chance(12), vb };
        Case {
            bench,
            z: buffer(random, low.saturating_mul(32)),
            p: buffer(random, low.saturating_mul(2)),
            za: buffer(random, low.saturating_mul(low)),
        }
    }

    /// A case on which a run begins, though modes or features may be off.
    pub fn legal(random: &mut Random, lengths: &[usize]) -> Case {
        let begins = |case: &Case| check_run(case.bench, &case.z, &case.p, &case.za, &[]).is_ok();
        iter::repeat_with(|| Case::new(random, lengths)).find(begins).expect("most cases are legal")
    }
}

/// A buffer of the right length, if memory can be spared for it, and once in sixteen of another.
fn buffer(random: &mut Random, right: usize) -> Vec<u8> {
    let right = if right > 512 * 512 { 0 } else { right };
    let length = if random.chance(16) {
        let less = right.saturating_sub(1);
        random.pick(&[0, less, right / 2, right + 1, right + 16, 2 * right])
    } else {
        right
    };
    fill(random, length)
}

/// Random bytes, random extremes, or one byte all over.
fn fill(random: &mut Random, length: usize) -> Vec<u8> {
    const EXTREMES: [u8; 5] = [0x00, 0xFF, 0x80, 0x7F, 0x01];
    match random.below(5) {
        0 => vec![random.pick(&EXTREMES[..4]); length],
        1 => (0..length).map(|_| random.pick(&EXTREMES)).collect(),
        _ => random.bytes(length),
    }
}
