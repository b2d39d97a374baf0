//! Repeatable random inputs, buffers with guards around them, programs to try, and a tally of what the cases came to.

mod case;
mod file;
mod guarded;
mod instruction;
mod library;
mod line;
mod program;
mod random;
mod tally;
mod tiles;

pub use case::{Case, LENGTHS};
pub use file::{FILE_DAMAGES, capture, capture_length, joined, lies, parts, with_lie};
pub use guarded::Guarded;
pub use instruction::instruction;
pub use library::{bench, packed, refused};
pub use line::{DAMAGES, SMALL, text};
pub use program::{interrupt, start};
pub use random::Random;
pub use tally::Tally;

use std::env;
use std::iter;
use std::ops::Range;

/// The seven lines of the encoding table: the bits that are fixed, and a mask of those that are free. First the 4-way
/// outer products and ZERO, then the 2-way outer products.
pub const LINES: [(u32, u32); 7] = [
    (0xA080_0000, 0x013F_FFF3),
    (0xA0C0_0000, 0x013F_FFF7),
    (0x8000_8000, 0x013E_03D3),
    (0xA0C0_0008, 0x013E_03D7),
    (0xC008_0000, 0x0000_00FF),
    (0xA080_0008, 0x011F_FFF3),
    (0x8000_8008, 0x011E_03D3),
];

/// A sort of damage to a line of text, or to a file.
#[derive(Clone, Copy)]
pub struct Damage {
    pub name: &'static str,
    /// The damage to what was good; now and then it finds nothing to do.
    pub harm: fn(&mut Random, Vec<u8>) -> Vec<u8>,
    /// Whether what comes of it may be good too.
    pub leaves_good: bool,
}

/// ZERO of all of ZA.
pub const ZERO_ALL: u32 = 0xC008_00FF;

/// One seed for each case. To repeat a case, set BIRDAGHOL_SEED to the seed that its failure shows; it then comes first.
pub fn seeds(count: u64) -> Range<u64> {
    let given = env::var("BIRDAGHOL_SEED").ok();
    let first = given.map_or(0, |seed| seed.parse().expect("a seed is a number"));
    first..first + count
}

/// Every listed word, line by line of the table.
pub fn every_listed() -> impl Iterator<Item = u32> {
    LINES.into_iter().flat_map(|(fixed, free)| {
        let next = move |bits: &u32| Some(bits.wrapping_sub(free) & free).filter(|&bits| bits != 0);
        iter::successors(Some(0), next).map(move |bits| fixed | bits)
    })
}

/// A word of some line of the table, its fields random.
pub fn listed(random: &mut Random) -> u32 {
    of_lines(random, &LINES)
}

/// An outer product of some line of the table, its fields random.
pub fn outer_product(random: &mut Random) -> u32 {
    let lines = if random.chance(3) { &LINES[5..] } else { &LINES[..4] };
    of_lines(random, lines)
}

/// What a list begins with: mostly a ZERO of all, otherwise up to three ZEROs of random masks, that may clear too little.
pub fn zeros(random: &mut Random) -> Vec<u32> {
    if random.chance(3) {
        let count = random.below(4);
        (0..count).map(|_| of_lines(random, &LINES[4..5])).collect()
    } else {
        vec![ZERO_ALL]
    }
}

/// The mask of a ZERO; 0 of any other word.
pub fn zero_mask(word: u32) -> u8 {
    let (fixed, free) = LINES[4];
    if word & !free == fixed { (word & free) as u8 } else { 0 }
}

/// A word of one of these lines, its fields random.
pub fn of_lines(random: &mut Random, lines: &[(u32, u32)]) -> u32 {
    let (fixed, free) = random.pick(lines);
    fixed | random.u32() & free
}

/// A listed word with one to three bits flipped, which may be listed still.
pub fn damaged(random: &mut Random) -> u32 {
    let flips = 1 + random.below(3);
    (0..flips).fold(listed(random), |word, _| word ^ 1 << random.below(32))
}

/// A word that is listed in `good` cases of 8, otherwise damaged or random.
pub fn word(random: &mut Random, good: u64) -> u32 {
    if random.below(8) < good {
        listed(random)
    } else if random.chance(2) {
        damaged(random)
    } else {
        random.u32()
    }
}

/// Flags, in and out of range.
pub fn flags(random: &mut Random) -> u32 {
    if random.chance(16) { random.u32() } else { random.below(18) as u32 }
}
