//! An independent implementation, written from Arm's pseudocode and the rules of the bench, to hold the library
//! against. Refusals are plain numbers here, and so are the flags that a word lacks.

pub mod capture;
mod execute;
mod fields;
mod order;
mod read;
mod text;
mod tiles;

pub use execute::{Bench, MOST_WORDS, check_run, execute, run};
pub use fields::describe;
pub use order::order_matters;
pub use read::read;
pub use text::print;
pub use tiles::{NAMES, Name, shortest};

/// The features, summed to flags.
const SME: u32 = 1;
const I16I64: u32 = 2;
const MOP4: u32 = 4;
const SME2: u32 = 8;

/// An instruction; numbers out of range can be held, and are for `encode` to refuse.
#[derive(Clone, Copy, Debug, PartialEq, Eq)]
pub enum Instruction {
    Outer(OuterProduct),
    Zero { mask: u8 },
}

/// An outer product of either family on a tile with elements of 4 or 8 bytes, each of which gets 2 or 4 products.
#[derive(Clone, Copy, Debug, PartialEq, Eq)]
pub struct OuterProduct {
    pub element_bytes: u32,
    pub products: u32,
    pub first_unsigned: bool,
    pub second_unsigned: bool,
    pub subtract: bool,
    pub tile: u32,
    pub sources: Sources,
}

/// What the predicated and the quarter-tile family multiply.
#[derive(Clone, Copy, Debug, PartialEq, Eq)]
pub enum Sources {
    Predicated { pn: u32, pm: u32, zn: u32, zm: u32 },
    Quarter { first: Source, second: Source },
}

/// A quarter-tile source: one register, or the pair that starts at it.
#[derive(Clone, Copy, Debug, PartialEq, Eq)]
pub struct Source {
    pub register: u32,
    pub pair: bool,
}

/// A refusal: its number and, beside 8, the sum of the flags that the word needs and that are off, otherwise 0.
#[derive(Clone, Copy, Debug, PartialEq, Eq)]
pub struct Refused {
    pub number: u32,
    pub missing: u32,
}

impl Refused {
    /// A refusal other than 8, which is its number alone.
    pub fn by(number: u32) -> Refused {
        Refused { number, missing: 0 }
    }
}

/// The instruction of a word, or refusal 1, 7 or 8.
pub fn decode(flags: u32, word: u32) -> Result<Instruction, Refused> {
    if flags > SME + I16I64 + MOP4 + SME2 {
        return Err(Refused::by(1));
    }
    let (instruction, needed) = listed(word).ok_or(Refused::by(7))?;
    let missing = needed & !flags;
    if missing == 0 { Ok(instruction) } else { Err(Refused { number: 8, missing }) }
}

/// The instruction and the features on the line of the encoding table that a word matches.
fn listed(word: u32) -> Option<(Instruction, u32)> {
    let fixed = (bits(word, 31, 25), bits(word, 23, 22));
    let low = (bits(word, 3, 3), bits(word, 2, 2));
    let quarter = (bits(word, 16, 16), bits(word, 15, 10), bits(word, 5, 5));
    let one_sign = bits(word, 21, 21) == 0;
    match (fixed, quarter, low) {
        ((0b1010000, 0b10), _, (0, 0)) => Some((outer(word, 4, 4, predicated(word)), SME)),
        ((0b1010000, 0b11), _, (0, _)) => Some((outer(word, 8, 4, predicated(word)), I16I64)),
        ((0b1010000, 0b10), _, (1, 0)) if one_sign => Some((outer(word, 4, 2, predicated(word)), SME2)),
        ((0b1000000, 0b00), (0, 0b100000, 0), (0, 0)) => Some((outer(word, 4, 4, quarter_tile(word)), MOP4)),
        ((0b1010000, 0b11), (0, 0b000000, 0), (1, _)) => Some((outer(word, 8, 4, quarter_tile(word)), MOP4 + I16I64)),
        ((0b1000000, 0b00), (0, 0b100000, 0), (1, 0)) if one_sign => {
            Some((outer(word, 4, 2, quarter_tile(word)), MOP4))
        }
        _ if bits(word, 31, 8) == 0b110000000000100000000000 => {
            let mask = bits(word, 7, 0) as u8;
            Some((Instruction::Zero { mask }, SME))
        }
        _ => None,
    }
}

/// Bits `high` down to `low` of a word, as a number.
fn bits(word: u32, high: u32, low: u32) -> u32 {
    (word << (31 - high)) >> (31 - high + low)
}

/// Adds the fields that all outer products have. A tile has two bits beside 32-bit elements, three beside 64-bit ones;
/// of two products, one bit is the sign of both sources.
fn outer(word: u32, element_bytes: u32, products: u32, sources: Sources) -> Instruction {
    let second_sign = if products == 2 { 24 } else { 21 };
    Instruction::Outer(OuterProduct {
        element_bytes,
        products,
        first_unsigned: bits(word, 24, 24) == 1,
        second_unsigned: bits(word, second_sign, second_sign) == 1,
        subtract: bits(word, 4, 4) == 1,
        tile: word % element_bytes,
        sources,
    })
}

/// The source fields of the predicated family.
fn predicated(word: u32) -> Sources {
    Sources::Predicated { pn: bits(word, 12, 10), pm: bits(word, 15, 13), zn: bits(word, 9, 5), zm: bits(word, 20, 16) }
}

/// The source fields of the quarter-tile family.
fn quarter_tile(word: u32) -> Sources {
    let first = Source { register: 2 * bits(word, 8, 6), pair: bits(word, 9, 9) == 1 };
    let second = Source { register: 16 + 2 * bits(word, 19, 17), pair: bits(word, 20, 20) == 1 };
    Sources::Quarter { first, second }
}

/// The word of an instruction, or refusal 11.
pub fn encode(instruction: Instruction) -> Result<u32, Refused> {
    let op = match instruction {
        Instruction::Outer(op) if in_range(op) => op,
        Instruction::Outer(_) => return Err(Refused::by(11)),
        Instruction::Zero { mask } => return Ok(0xC008_0000 | u32::from(mask)),
    };
    let second_sign = if op.products == 2 { 0 } else { u32::from(op.second_unsigned) << 21 };
    let signs = u32::from(op.first_unsigned) << 24 | second_sign;
    let common = signs | u32::from(op.subtract) << 4 | op.tile;
    let (predicated, quarter_tile) = match (op.element_bytes, op.products) {
        (4, 4) => (0xA080_0000, 0x8000_8000),
        (4, _) => (0xA080_0008, 0x8000_8008),
        _ => (0xA0C0_0000, 0xA0C0_0008),
    };
    Ok(match op.sources {
        Sources::Predicated { pn, pm, zn, zm } => predicated | common | zm << 16 | pm << 13 | pn << 10 | zn << 5,
        Sources::Quarter { first, second } => {
            let pairs = u32::from(second.pair) << 20 | u32::from(first.pair) << 9;
            let registers = ((second.register - 16) / 2) << 17 | (first.register / 2) << 6;
            quarter_tile | common | pairs | registers
        }
    })
}

/// Whether all fields are in range; of each width there are as many tiles as an element has bytes.
fn in_range(op: OuterProduct) -> bool {
    let sources = match op.sources {
        Sources::Predicated { pn, pm, zn, zm } => pn <= 7 && pm <= 7 && zn <= 31 && zm <= 31,
        Sources::Quarter { first, second } => {
            let even = first.register % 2 == 0 && second.register % 2 == 0;
            even && first.register <= 14 && (16..=30).contains(&second.register)
        }
    };
    let shape = match (op.element_bytes, op.products) {
        (4 | 8, 4) => true,
        (4, 2) => op.first_unsigned == op.second_unsigned,
        _ => false,
    };
    shape && op.tile < op.element_bytes && sources
}
