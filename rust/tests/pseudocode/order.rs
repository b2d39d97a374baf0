//! Whether the order of two outer products matters.

use super::{Instruction, OuterProduct, decode};

/// Whether both words are outer products of different widths, on tiles that have a row of the longest ZA in common.
pub fn order_matters(flags: u32, first: u32, second: u32) -> bool {
    match [first, second].map(|word| decode(flags, word)) {
        [Ok(Instruction::Outer(a)), Ok(Instruction::Outer(b))] => {
            a.element_bytes != b.element_bytes && rows(a).any(|row| rows(b).any(|other| other == row))
        }
        _ => false,
    }
}

/// The rows of a tile in a ZA of 256.
fn rows(op: OuterProduct) -> impl Iterator<Item = usize> {
    (op.tile as usize..256).step_by(op.element_bytes as usize)
}
