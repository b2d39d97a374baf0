//! What can be wrong with a ZERO's list of tiles. The ZERO is another word than the line's, as few lines are one.

use super::Random;
use crate::pseudocode::{NAMES, Name, shortest};
use std::iter;

/// Exchanges two neighbours.
pub fn exchange(random: &mut Random, _: Vec<u8>) -> Vec<u8> {
    let mut names = names(random, |names| names.len() > 1);
    let at = random.below(names.len() as u64 - 1) as usize;
    names.swap(at, at + 1);
    zero(&names)
}

/// Splits a name into its two halves, then more names in most cases: in the end, all are of 64-bit tiles.
pub fn split(random: &mut Random, _: Vec<u8>) -> Vec<u8> {
    let wide = |name: &Name| name.1.count_ones() > 1;
    let mut names = names(random, |names| names.iter().any(wide));
    let first = random.below(names.len() as u64) as usize;
    names.rotate_left(first);
    while let Some(at) = names.iter().position(wide) {
        let (_, tiles) = names.remove(at);
        let half = |name: &Name| name.1 & tiles == name.1 && 2 * name.1.count_ones() == tiles.count_ones();
        names.extend(NAMES.into_iter().filter(half));
        if random.chance(3) {
            break;
        }
    }
    zero_in_order(names)
}

/// Adds a name that one of the list holds, or is.
pub fn repeat(random: &mut Random, _: Vec<u8>) -> Vec<u8> {
    let mut names = names(random, |_| true);
    let held = |name: &Name| names.iter().any(|other| name.1 & other.1 == name.1);
    let held: Vec<Name> = NAMES.into_iter().filter(held).collect();
    let at = random.below(names.len() as u64 + 1) as usize;
    names.insert(at, random.pick(&held));
    zero_in_order(names)
}

/// Puts a name of another width or number in the place of one, or a name that no tile has.
pub fn rename(random: &mut Random, _: Vec<u8>) -> Vec<u8> {
    const NONE: [&str; 9] = ["za0.b", "za0.q", "za2.h", "za4.s", "za8.d", "za00.d", "za0", "za.d", ""];
    let mut names = names(random, |_| true);
    let at = random.below(names.len() as u64) as usize;
    names[at].0 = if random.chance(4) { random.pick(&NONE) } else { random.pick(&NAMES).0 };
    zero(&names)
}

/// The names of a ZERO that has any, and that can be harmed.
fn names(random: &mut Random, can: impl Fn(&[Name]) -> bool) -> Vec<Name> {
    let lists = iter::repeat_with(|| shortest(random.u32() as u8));
    lists.filter(|names| !names.is_empty()).find(|names| can(names)).expect("a list").to_vec()
}

/// The line of a ZERO with these names in the order of their lowest tiles; where these are the same, as they come.
fn zero_in_order(mut names: Vec<Name>) -> Vec<u8> {
    names.sort_by_key(|(_, tiles)| tiles.trailing_zeros());
    zero(&names)
}

/// The line of a ZERO with these names.
fn zero(names: &[Name]) -> Vec<u8> {
    let names: Vec<&str> = names.iter().map(|&(name, _)| name).collect();
    format!("zero {{ {} }}", names.join(", ")).into_bytes()
}
