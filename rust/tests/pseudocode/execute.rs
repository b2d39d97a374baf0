//! One word executed, and a list of words run, on lent vectors, predicates and ZA.

use super::{Instruction, OuterProduct, Refused, Source, Sources, decode};
use std::array;

/// What all words of a list are executed with: features, modes, and the vector length in bytes.
#[derive(Clone, Copy, Debug)]
pub struct Bench {
    pub flags: u32,
    pub streaming: bool,
    pub za_on: bool,
    pub vb: usize,
}

/// A source as signed numbers: the K elements that meet each row or column of the tile.
type Groups<const K: usize> = Vec<[i32; K]>;

/// The most words that a run takes.
pub const MOST_WORDS: usize = 65_536;

/// Executes one word, or refuses it by 1 to 5 or 7 to 10.
pub fn execute(bench: Bench, z: &[u8], p: &[u8], za: &mut [u8], word: u32) -> Result<(), Refused> {
    check(bench, z, p, za)?;
    let instruction = admit(bench, word)?;
    perform(instruction, z, p, za, bench.vb);
    Ok(())
}

/// Runs a list up to the first word refused: the number of words executed, and the refusal.
pub fn run(bench: Bench, z: &[u8], p: &[u8], za: &mut [u8], words: &[u32]) -> (usize, Option<Refused>) {
    if let Err(refused) = check_run(bench, z, p, za, words) {
        return (0, Some(refused));
    }
    let mut cleared = vec![false; bench.vb];
    for (count, &word) in words.iter().enumerate() {
        match admit_next(bench, &mut cleared, word) {
            Ok(instruction) => perform(instruction, z, p, za, bench.vb),
            Err(refused) => return (count, Some(refused)),
        }
    }
    (words.len(), None)
}

/// The next word of a run, or why it is refused: by 7 to 10, or by 14 where its tile has a row that no word has cleared.
/// A ZERO adds its rows to those cleared.
fn admit_next(bench: Bench, cleared: &mut [bool], word: u32) -> Result<Instruction, Refused> {
    let instruction = admit(bench, word)?;
    match instruction {
        Instruction::Outer(op) => {
            let mut rows = cleared.iter().skip(op.tile as usize).step_by(op.element_bytes as usize);
            rows.all(|&row| row).then_some(instruction).ok_or(Refused::by(14))
        }
        Instruction::Zero { mask } => {
            cleared.iter_mut().enumerate().for_each(|(row, cleared)| *cleared |= in_mask(mask, row));
            Ok(instruction)
        }
    }
}

/// Refusals 1 to 6, by which no run begins.
pub fn check_run(bench: Bench, z: &[u8], p: &[u8], za: &[u8], words: &[u32]) -> Result<(), Refused> {
    check(bench, z, p, za)?;
    if words.len() > MOST_WORDS { Err(Refused::by(6)) } else { Ok(()) }
}

/// Refusals 1 to 5, which no word has a part in.
fn check(bench: Bench, z: &[u8], p: &[u8], za: &[u8]) -> Result<(), Refused> {
    let vb = bench.vb;
    if bench.flags > 15 {
        Err(Refused::by(1))
    } else if ![16, 32, 64, 128, 256].contains(&vb) {
        Err(Refused::by(2))
    } else if z.len() != 32 * vb {
        Err(Refused::by(3))
    } else if p.len() != 2 * vb {
        Err(Refused::by(4))
    } else if za.len() != vb * vb {
        Err(Refused::by(5))
    } else {
        Ok(())
    }
}

/// A word's instruction, or why it is refused by 7 to 10.
fn admit(bench: Bench, word: u32) -> Result<Instruction, Refused> {
    let instruction = decode(bench.flags, word)?;
    if matches!(instruction, Instruction::Outer(_)) && !bench.streaming {
        return Err(Refused::by(9));
    }
    if !bench.za_on {
        return Err(Refused::by(10));
    }
    Ok(instruction)
}

/// What an instruction does on buffers of the right lengths.
fn perform(instruction: Instruction, z: &[u8], p: &[u8], za: &mut [u8], vb: usize) {
    match instruction {
        Instruction::Outer(op) => match (op.element_bytes, op.products) {
            (4, 4) => update::<4, 4>(op, z, p, za, vb),
            (4, _) => update::<4, 2>(op, z, p, za, vb),
            _ => update::<8, 4>(op, z, p, za, vb),
        },
        Instruction::Zero { mask } => clear(mask, za, vb),
    }
}

/// Whether a row is of a 64-bit tile whose bit is set; every eighth row of ZA belongs to the same one.
fn in_mask(mask: u8, row: usize) -> bool {
    mask >> (row % 8) & 1 == 1
}

/// Clears the rows of a mask.
fn clear(mask: u8, za: &mut [u8], vb: usize) {
    for (row, line) in za.chunks_exact_mut(vb).enumerate() {
        if in_mask(mask, row) {
            line.fill(0);
        }
    }
}

/// Reads the sources of an outer product and adds their products to its tile, K to each element of E bytes.
fn update<const E: usize, const K: usize>(op: OuterProduct, z: &[u8], p: &[u8], za: &mut [u8], vb: usize) {
    let vectors = |n: u32, count: usize| &z[n as usize * vb..][..count * vb];
    let (mut first, second) = match op.sources {
        Sources::Predicated { pn, pm, zn, zm } => (
            groups::<E, K>(vectors(zn, 1), op.first_unsigned, |byte| is_set(p, pn, byte, vb)),
            groups::<E, K>(vectors(zm, 1), op.second_unsigned, |byte| is_set(p, pm, byte, vb)),
        ),
        Sources::Quarter { first, second } => {
            let all = |Source { register, pair }| vectors(register, if pair { 2 } else { 1 });
            (
                groups::<E, K>(all(first), op.first_unsigned, |_| true),
                groups::<E, K>(all(second), op.second_unsigned, |_| true),
            )
        }
    };
    if op.subtract {
        first.iter_mut().flatten().for_each(|element| *element = -*element);
    }
    add_products::<E, K>(&first, &second, op.tile as usize, za, vb);
}

/// Whether predicate `n` holds the bit of a vector's byte.
fn is_set(p: &[u8], n: u32, byte: usize, vb: usize) -> bool {
    p[n as usize * (vb / 8) + byte / 8] >> (byte % 8) & 1 == 1
}

/// The elements of a source, each of E/K bytes; one is active by the bit of its first byte, and counts as 0 if it is not.
fn groups<const E: usize, const K: usize>(source: &[u8], unsigned: bool, active: impl Fn(usize) -> bool) -> Groups<K> {
    let element = |at: usize| {
        if active(at) { number(&source[at..at + E / K], unsigned) } else { 0 }
    };
    let starts = (0..source.len()).step_by(E);
    starts.map(|start| array::from_fn(|k| element(start + k * E / K))).collect()
}

/// An element of one or two bytes as a signed number.
fn number(element: &[u8], unsigned: bool) -> i32 {
    match *element {
        [byte] if unsigned => byte.into(),
        [byte] => (byte as i8).into(),
        [low, high] if unsigned => u16::from_le_bytes([low, high]).into(),
        [low, high] => i16::from_le_bytes([low, high]).into(),
        _ => unreachable!("source elements have one or two bytes"),
    }
}

/// Adds to each element of the tile its K products. The column half picks the first register, the row half the second.
fn add_products<const E: usize, const K: usize>(
    first: &[[i32; K]],
    second: &[[i32; K]],
    tile: usize,
    za: &mut [u8],
    vb: usize,
) {
    let dim = vb / E;
    for row in 0..dim {
        let line = &mut za[(row * E + tile) * vb..][..vb];
        let second = register(second, 2 * row / dim, dim);
        for (half, elements) in line.chunks_exact_mut(vb / 2).enumerate() {
            let first = register(first, half, dim)[row];
            let columns = &second[half * dim / 2..];
            for (element, column) in elements.as_chunks_mut::<E>().0.iter_mut().zip(columns) {
                add(element, dot(&first, column));
            }
        }
    }
}

/// The register of a source that serves one half of the tile: its own of a pair, otherwise the only one.
fn register<const K: usize>(source: &[[i32; K]], half: usize, dim: usize) -> &[[i32; K]] {
    &source[half * (source.len() - dim)..][..dim]
}

/// The sum of K products, none of which is cut.
fn dot<const K: usize>(first: &[i32; K], second: &[i32; K]) -> i64 {
    (0..K).map(|k| i64::from(first[k]) * i64::from(second[k])).sum()
}

/// Adds to a little-endian element modulo 2 to the power of its bits.
fn add<const E: usize>(element: &mut [u8; E], sum: i64) {
    let mut wide = [0; 8];
    wide[..E].copy_from_slice(element);
    let wide = i64::from_le_bytes(wide).wrapping_add(sum).to_le_bytes();
    element.copy_from_slice(&wide[..E]);
}
