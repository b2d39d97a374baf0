//! Lines of text and what can be wrong with them, for `read`.

use super::{Damage, Random, tiles};
use crate::pseudocode;
use std::iter;

/// How many sorts of damage are to a byte or a part of a line; these come first.
pub const SMALL: usize = 17;

/// The sorts of damage to a line; where one leaves a good line, that is the text of another word.
pub const DAMAGES: [Damage; 22] = [
    Damage { name: "a byte changed", harm: change, leaves_good: true },
    Damage { name: "a byte left out", harm: leave_out, leaves_good: true },
    Damage { name: "a byte doubled", harm: double, leaves_good: true },
    Damage { name: "neighbours exchanged", harm: exchange, leaves_good: true },
    Damage { name: "capitals", harm: capitals, leaves_good: false },
    Damage { name: "a space more", harm: space, leaves_good: false },
    Damage { name: "a leading zero", harm: leading_zero, leaves_good: false },
    Damage { name: "another number", harm: number, leaves_good: true },
    Damage { name: "another suffix", harm: suffix, leaves_good: true },
    Damage { name: "another name", harm: name, leaves_good: true },
    Damage { name: "operands exchanged", harm: exchange_operands, leaves_good: true },
    Damage { name: "an operand repeated", harm: repeat_operand, leaves_good: true },
    Damage { name: "braces", harm: braces, leaves_good: false },
    Damage { name: "tiles in another order", harm: tiles::exchange, leaves_good: false },
    Damage { name: "a tile in halves", harm: tiles::split, leaves_good: false },
    Damage { name: "a tile beside one that holds it", harm: tiles::repeat, leaves_good: false },
    Damage { name: "another tile", harm: tiles::rename, leaves_good: true },
    Damage { name: "cut short", harm: cut, leaves_good: false },
    Damage { name: "a line end", harm: line_end, leaves_good: false },
    Damage { name: "a great length", harm: lengthen, leaves_good: false },
    Damage { name: "other bytes", harm: other_bytes, leaves_good: false },
    Damage { name: "no bytes", harm: |_, _| Vec::new(), leaves_good: false },
];

/// What texts are made of.
const CHARACTERS: &[u8] = b" ,-./0123456789abdehmoprsuz{}";

/// The names of the outer products and of ZERO, and some that have no place in a text.
const NAMES: [&str; 22] = [
    "smopa", "sumopa", "usmopa", "umopa", "smops", "sumops", "usmops", "umops", "smop4a", "sumop4a", "usmop4a",
    "umop4a", "smop4s", "sumop4s", "usmop4s", "umop4s", "zero", "mopa", "ssmopa", "uumop4s", "fmopa", "addha",
];

/// The text of a listed word.
pub fn text(word: u32) -> Vec<u8> {
    let instruction = pseudocode::decode(15, word).expect("a listed word");
    instruction.to_string().into_bytes()
}

/// Puts another byte in the place of one, most often one that texts are made of.
fn change(random: &mut Random, mut line: Vec<u8>) -> Vec<u8> {
    let at = place(random, &line);
    line[at] = if random.chance(4) { random.u32() as u8 } else { random.pick(CHARACTERS) };
    line
}

/// Leaves one byte out, by which z12 may become z2, and `sumopa` become `umopa`.
fn leave_out(random: &mut Random, mut line: Vec<u8>) -> Vec<u8> {
    line.remove(place(random, &line));
    line
}

/// Has one byte twice, by which z1 may become z11.
fn double(random: &mut Random, mut line: Vec<u8>) -> Vec<u8> {
    let at = place(random, &line);
    line.insert(at, line[at]);
    line
}

/// Exchanges two neighbours, by which z12 may become z21, and `sumopa` become `usmopa`.
fn exchange(random: &mut Random, mut line: Vec<u8>) -> Vec<u8> {
    let at = place(random, &line[1..]);
    line.swap(at, at + 1);
    line
}

/// Puts a stretch of any length in capitals.
fn capitals(random: &mut Random, mut line: Vec<u8>) -> Vec<u8> {
    let (one, other) = (place(random, &line), place(random, &line));
    line[one.min(other)..=one.max(other)].make_ascii_uppercase();
    line
}

/// Puts a space anywhere, before or behind the text too.
fn space(random: &mut Random, mut line: Vec<u8>) -> Vec<u8> {
    let at = random.below(line.len() as u64 + 1);
    line.insert(at as usize, b' ');
    line
}

/// Spells a number in a second way.
fn leading_zero(random: &mut Random, line: Vec<u8>) -> Vec<u8> {
    renumber(random, &line, |number| format!("0{number}"))
}

/// Puts a number in or near the ranges of tiles, predicates and vectors, or one that wraps to the number it replaces.
fn number(random: &mut Random, line: Vec<u8>) -> Vec<u8> {
    let bound = random.pick(&[5, 9, 34]);
    let (near, power) = (random.below(bound), random.pick(&[8, 16, 32, 64]));
    let wraps = random.chance(4);
    renumber(random, &line, |number| if wraps { number + (1 << power) } else { near.into() }.to_string())
}

/// Puts something else in the place of a number; numbers are the odd parts of a line.
fn renumber(random: &mut Random, line: &[u8], other: impl Fn(u128) -> String) -> Vec<u8> {
    let mut parts = parts(line, u8::is_ascii_digit);
    let at = random.below(parts.len() as u64) as usize | 1;
    if let Some(part) = parts.get_mut(at) {
        let number = str::from_utf8(part).expect("digits").parse().expect("a number");
        *part = other(number).into_bytes();
    }
    parts.concat()
}

/// Puts a suffix in the place of another, all over or from somewhere on.
fn suffix(random: &mut Random, mut line: Vec<u8>) -> Vec<u8> {
    let (old, new) = (random.pick(b"bhsd"), random.pick(b"bhsdq"));
    let start = if random.chance(2) { 1 } else { place(random, &line) + 1 };
    for at in start..line.len() {
        if line[at - 1] == b'.' && line[at] == old {
            line[at] = new;
        }
    }
    line
}

/// Gives the operands another name, which may fit them.
fn name(random: &mut Random, line: Vec<u8>) -> Vec<u8> {
    let mut parts = name_and_operands(&line);
    parts[0] = random.pick(&NAMES).into();
    parts.concat()
}

/// Takes operands, or the tiles of a list, in another order.
fn exchange_operands(random: &mut Random, line: Vec<u8>) -> Vec<u8> {
    let mut parts = name_and_operands(&line);
    let [one, other] = two_operands(random, &parts);
    parts.swap(one, other);
    parts.concat()
}

/// Puts an operand, or a tile of a list, in the place of another.
fn repeat_operand(random: &mut Random, line: Vec<u8>) -> Vec<u8> {
    let mut parts = name_and_operands(&line);
    let [one, other] = two_operands(random, &parts);
    parts[one] = parts[other].clone();
    parts.concat()
}

/// Puts an operand in braces, as if it were a list.
fn braces(random: &mut Random, line: Vec<u8>) -> Vec<u8> {
    let mut parts = name_and_operands(&line);
    let [at, _] = two_operands(random, &parts);
    parts[at] = [b"{ ", &parts[at][..], b" }"].concat();
    parts.concat()
}

/// Leaves nothing from some place on.
fn cut(random: &mut Random, mut line: Vec<u8>) -> Vec<u8> {
    line.truncate(place(random, &line));
    line
}

/// Adds what may end a line or a string.
fn line_end(random: &mut Random, mut line: Vec<u8>) -> Vec<u8> {
    line.extend(random.pick(&["\n", "\r", "\r\n", "\n\n", "\0", ";"]).bytes());
    line
}

/// Repeats a byte in a line or behind it, up to 10,000 bytes, or to a length that wraps to that of the text.
fn lengthen(random: &mut Random, mut line: Vec<u8>) -> Vec<u8> {
    let at = random.below(line.len() as u64 + 1) as usize;
    let count = random.pick(&[256, 256, 10_000 - line.len(), 65_536]);
    line.splice(at..at, iter::repeat_n(random.pick(CHARACTERS), count));
    line
}

/// Any bytes, or any that texts are made of.
fn other_bytes(random: &mut Random, _: Vec<u8>) -> Vec<u8> {
    let length = 1 + random.below(80) as usize;
    let mut line = random.bytes(length);
    if random.chance(2) {
        line.iter_mut().for_each(|byte| *byte = random.pick(CHARACTERS));
    }
    line
}

/// A place in a line, every second time that of a digit, where other texts are near.
fn place(random: &mut Random, line: &[u8]) -> usize {
    let any = random.below(line.len() as u64) as usize;
    let digit = line[any..].iter().position(u8::is_ascii_digit);
    if random.chance(2) { any + digit.unwrap_or(0) } else { any }
}

/// The longest parts of a line that are by turns outside and inside a class of bytes; texts start outside.
fn parts(line: &[u8], class: fn(&u8) -> bool) -> Vec<Vec<u8>> {
    line.chunk_by(|a, b| class(a) == class(b)).map(<[u8]>::to_vec).collect()
}

/// The parts of a line, the even ones of which are its name, its operands and their braces.
fn name_and_operands(line: &[u8]) -> Vec<Vec<u8>> {
    parts(line, |byte| b" ,-".contains(byte))
}

/// The places of two operands among these parts.
fn two_operands(random: &mut Random, parts: &[Vec<u8>]) -> [usize; 2] {
    let operands = parts.len() as u64 / 2;
    [(); 2].map(|()| 2 + 2 * random.below(operands) as usize)
}
