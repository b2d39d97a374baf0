//! The text of an instruction, and its copy into a lent room.

use super::{Instruction, OuterProduct, Refused, Source, Sources, decode, shortest};
use std::fmt;

/// Writes the text of a word to the start of the room and gives its length, or refuses by 1, 7, 8 or 12.
pub fn print(flags: u32, word: u32, room: &mut [u8]) -> Result<usize, Refused> {
    let text = decode(flags, word)?.to_string();
    let start = room.get_mut(..text.len()).ok_or(Refused::by(12))?;
    start.copy_from_slice(text.as_bytes());
    Ok(text.len())
}

impl fmt::Display for Instruction {
    /// ZERO has the shortest list of tiles.
    fn fmt(&self, f: &mut fmt::Formatter) -> fmt::Result {
        match self {
            Instruction::Outer(op) => op.fmt(f),
            Instruction::Zero { mask: 0 } => f.write_str("zero {}"),
            Instruction::Zero { mask } => {
                let names: Vec<&str> = shortest(*mask).iter().map(|&(name, _)| name).collect();
                write!(f, "zero {{ {} }}", names.join(", "))
            }
        }
    }
}

impl fmt::Display for OuterProduct {
    /// The name tells the signs, the family and the sum; the suffixes tell the widths.
    fn fmt(&self, f: &mut fmt::Formatter) -> fmt::Result {
        let signs = match (self.first_unsigned, self.second_unsigned) {
            (false, false) => "s",
            (false, true) => "su",
            (true, false) => "us",
            (true, true) => "u",
        };
        let (tile, last) = (self.tile, if self.subtract { 's' } else { 'a' });
        let d = if self.element_bytes == 8 { 'd' } else { 's' };
        let h = if self.element_bytes / self.products == 2 { 'h' } else { 'b' };
        match self.sources {
            Sources::Predicated { pn, pm, zn, zm } => {
                write!(f, "{signs}mop{last} za{tile}.{d}, p{pn}/m, p{pm}/m, z{zn}.{h}, z{zm}.{h}")
            }
            Sources::Quarter { first, second } => {
                write!(f, "{signs}mop4{last} za{tile}.{d}, ")?;
                registers(f, first, h)?;
                f.write_str(", ")?;
                registers(f, second, h)
            }
        }
    }
}

/// The name of one register, or of both of a pair.
fn registers(f: &mut fmt::Formatter, source: Source, suffix: char) -> fmt::Result {
    let n = source.register;
    if source.pair { write!(f, "{{ z{n}.{suffix}-z{}.{suffix} }}", n + 1) } else { write!(f, "z{n}.{suffix}") }
}
