//! The numbers that describe an instruction, and their copy into a lent room.

use super::{Instruction, OuterProduct, Refused, Sources, decode};

/// Writes the numbers of a word to the start of the room, or refuses by 1, 7, 8 or 12.
pub fn describe(flags: u32, word: u32, room: &mut [u32]) -> Result<(), Refused> {
    let fields = match decode(flags, word)? {
        Instruction::Outer(op) => outer(op),
        Instruction::Zero { mask } => [3, mask.into(), 0, 0, 0, 0, 0, 0, 0, 0, 0],
    };
    let start = room.get_mut(..fields.len()).ok_or(Refused::by(12))?;
    start.copy_from_slice(&fields);
    Ok(())
}

/// The kind of an outer product, then its fields in the order that the encoding functions take them.
fn outer(op: OuterProduct) -> [u32; 11] {
    let (kind, [a, b, c, d]) = match op.sources {
        Sources::Predicated { pn, pm, zn, zm } => (1, [pn, pm, zn, zm]),
        Sources::Quarter { first, second } => {
            (2, [first.register, first.pair.into(), second.register, second.pair.into()])
        }
    };
    let [first, second, subtract] = [op.first_unsigned, op.second_unsigned, op.subtract].map(u32::from);
    [kind, op.element_bytes, op.products, first, second, subtract, op.tile, a, b, c, d]
}
