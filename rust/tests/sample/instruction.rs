//! Instructions with fields in range and out of it, for `encode`.

use super::Random;
use crate::pseudocode::{Instruction, OuterProduct, Source, Sources};
use std::ops::RangeInclusive;

/// An instruction of any kind, with a field out of range now and then; two products come with all signs and widths.
pub fn instruction(random: &mut Random) -> Instruction {
    if random.chance(8) {
        let mask = random.u32() as u8;
        return Instruction::Zero { mask };
    }
    let element_bytes = one_of(random, &[4, 8], &[0, 1, 2, 3, 5, 7, 9, 12, 16, 260, u32::MAX]);
    let products = one_of(random, &[2, 4], &[0, 1, 3, 5, 6, 8, 16, 258, 260, 65_538, 65_540, 1 << 31, u32::MAX]);
    let tiles = if element_bytes == 4 { 0..=3 } else { 0..=7 };
    Instruction::Outer(OuterProduct {
        element_bytes,
        products,
        first_unsigned: random.chance(2),
        second_unsigned: random.chance(2),
        subtract: random.chance(2),
        tile: field(random, tiles, 1),
        sources: sources(random),
    })
}

/// The sources of either family.
fn sources(random: &mut Random) -> Sources {
    if random.chance(2) {
        Sources::Predicated {
            pn: field(random, 0..=7, 1),
            pm: field(random, 0..=7, 1),
            zn: field(random, 0..=31, 1),
            zm: field(random, 0..=31, 1),
        }
    } else {
        let mut source = |range| Source { register: field(random, range, 2), pair: random.chance(2) };
        Sources::Quarter { first: source(0..=14), second: source(16..=30) }
    }
}

/// One of the good numbers; or, once in twelve, one of the others, or any.
fn one_of(random: &mut Random, good: &[u32], others: &[u32]) -> u32 {
    if !random.chance(12) {
        return random.pick(good);
    }
    let any = random.u32();
    random.pick(&[others, &[any]].concat())
}

/// A number of the range by steps; or, once in twelve, one between the steps, one near the range or far from it, or
/// one that is good but for its high bytes.
fn field(random: &mut Random, range: RangeInclusive<u32>, step: u32) -> u32 {
    let (first, last) = range.into_inner();
    let steps = u64::from((last - first) / step);
    let good = first + step * random.below(steps + 1) as u32;
    if !random.chance(12) {
        return good;
    }
    let near = random.below(4) as u32;
    let near = [good + 1, last + near, first.wrapping_sub(near)];
    let far = [good + 256, good + 65_536, 1 << 31, u32::MAX, random.u32()];
    random.pick(&[near.as_slice(), &far].concat())
}
