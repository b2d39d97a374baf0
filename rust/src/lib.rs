//! Safe functions over slices for Birdaghol's proved library, which replays Arm SME integer outer products on a bench.
//!
//! Any word, line, flags, modes, vector length, buffers, lists and files may be handed in. Bad input gets a [`Refusal`],
//! and a refusal changes no byte; only a list stopped in its middle leaves ZA as the words before the stop left it.
//! [`order_matters`] refuses nothing, and answers false.

mod abi;
mod capture;
mod refusal;

pub use capture::{Capture, Contents, LONGEST_CAPTURE, capture_read, capture_write};
pub use refusal::Refusal;

/// The examples of the repository's front page, compiled and run.
#[cfg(doctest)]
#[doc = include_str!("../../README.md")]
struct Readme;

/// What words are executed with.
#[derive(Clone, Copy, Debug, PartialEq, Eq)]
pub struct Bench {
    /// The sum of the features that are on: 1 SME, 2 I16I64, 4 MOP4, 8 SME2.
    pub flags: u32,
    /// Streaming mode, which outer products need.
    pub streaming: bool,
    /// Whether ZA is on, which every word needs.
    pub za_on: bool,
    /// The vector length in bytes: 16, 32, 64, 128 or 256.
    pub vb: usize,
}

/// What an outer product does.
#[derive(Clone, Copy, Debug, PartialEq, Eq)]
pub struct Operation {
    /// The bytes of a tile element, 4 or 8.
    pub element_bytes: u32,
    /// The products that each element gets: 4, or 2 where elements have 4 bytes and both sources one sign.
    pub products: u32,
    /// Whether the elements of the first source are unsigned.
    pub first_unsigned: bool,
    /// Whether the elements of the second source are unsigned.
    pub second_unsigned: bool,
    /// Whether products are taken from the tile, and not added to it.
    pub subtract: bool,
}

/// A source of a quarter-tile product, which starts at an even vector: 0 to 14 for the first, 16 to 30 for the second.
#[derive(Clone, Copy, Debug, PartialEq, Eq)]
pub enum Source {
    /// One vector for the whole tile.
    One(u32),
    /// This vector and the next, one for each half.
    Pair(u32),
}

/// The description of a word. A tile is 0 to 3 with elements of 4 bytes, 0 to 7 with elements of 8; a predicate is 0 to
/// 7, a vector 0 to 31. Other numbers can be held, and are for [`encode`] to refuse.
#[derive(Clone, Copy, Debug, PartialEq, Eq)]
pub enum Instruction {
    /// The outer product of `zn` under `pn` and `zm` under `pm`.
    Predicated { op: Operation, tile: u32, pn: u32, pm: u32, zn: u32, zm: u32 },
    /// The quarter-tile outer product of two sources.
    Quarter { op: Operation, tile: u32, first: Source, second: Source },
    /// The clearing of the 64-bit tiles whose mask bits are set.
    Zero { mask: u8 },
}

/// How a run ended.
#[must_use]
#[derive(Clone, Copy, Debug, PartialEq, Eq)]
pub struct Ended {
    /// How many words were executed, 65,536 at most.
    pub count: usize,
    /// Why the run did not begin, or stopped at the next word.
    pub refusal: Option<Refusal>,
}

/// Tells whether a word is listed and its features are on.
#[inline]
pub fn decode(flags: u32, word: u32) -> Result<(), Refusal> {
    accepted(abi::birdaghol_decode(flags, word))
}

/// Writes the text of a word, 47 bytes at most, to the start of the room and gives its length; the bytes after it stay.
#[inline]
pub fn print(flags: u32, word: u32, room: &mut [u8]) -> Result<usize, Refusal> {
    // SAFETY: the address and the length are those of one slice, lent for this call alone.
    let answer = unsafe { abi::birdaghol_print(flags, word, room.as_mut_ptr(), room.len()) };
    value(answer).map(|length| length as usize)
}

/// The one word whose text a line is, byte for byte as [`print`] writes it. Takes a `&str`, or a `&[u8]` of any bytes.
pub fn read(flags: u32, line: impl AsRef<[u8]>) -> Result<u32, Refusal> {
    let line = line.as_ref();
    // SAFETY: the address and the length are those of one slice, which nothing writes while it is lent.
    let answer = unsafe { abi::birdaghol_read(flags, line.as_ptr(), line.len()) };
    value(answer).map(|word| word as u32)
}

/// The one word of a description.
pub fn encode(instruction: Instruction) -> Result<u32, Refusal> {
    let answer = match instruction {
        Instruction::Predicated { op, tile, pn, pm, zn, zm } => abi::birdaghol_encode_predicated(
            op.element_bytes,
            op.products,
            op.first_unsigned,
            op.second_unsigned,
            op.subtract,
            tile,
            pn,
            pm,
            zn,
            zm,
        ),
        Instruction::Quarter { op, tile, first, second } => abi::birdaghol_encode_quarter(
            op.element_bytes,
            op.products,
            op.first_unsigned,
            op.second_unsigned,
            op.subtract,
            tile,
            first.register(),
            first.is_pair(),
            second.register(),
            second.is_pair(),
        ),
        Instruction::Zero { mask } => abi::birdaghol_encode_zero(mask),
    };
    value(answer).map(|word| word as u32)
}

/// The description of a word that is listed and has its features on; [`encode`] makes it that word again.
pub fn describe(flags: u32, word: u32) -> Result<Instruction, Refusal> {
    let mut fields = [0; abi::FIELDS];
    // SAFETY: the address and the length are those of one array, lent for this call alone.
    accepted(unsafe { abi::birdaghol_describe(flags, word, fields.as_mut_ptr(), fields.len()) })?;
    Ok(Instruction::of(fields))
}

/// Executes one word, whatever `za` holds. `z` is 32 vectors of `vb` bytes, `p` 16 predicates of `vb` bits, `za` `vb` rows of `vb` bytes.
pub fn execute(bench: Bench, z: &[u8], p: &[u8], za: &mut [u8], word: u32) -> Result<(), Refusal> {
    // SAFETY: each address stands beside the length of its own slice; `za`, the only one written, is lent alone.
    accepted(unsafe {
        abi::birdaghol_execute(
            bench.flags,
            bench.streaming,
            bench.za_on,
            bench.vb,
            z.as_ptr(),
            z.len(),
            p.as_ptr(),
            p.len(),
            za.as_mut_ptr(),
            za.len(),
            word,
        )
    })
}

/// Executes a list of at most 65,536 words in turn on the same buffers, up to the first word refused; of a longer one, none.
/// An outer product is refused too where its tile has a row that no ZERO before it in the list has cleared; 32-bit tile t has
/// the rows of 64-bit tiles t and t + 4. What `za` held before reaches no tile that an executed word names.
pub fn run(bench: Bench, z: &[u8], p: &[u8], za: &mut [u8], words: &[u32]) -> Ended {
    // SAFETY: each address stands beside the length of its own slice; `za`, the only one written, is lent alone.
    let (count, refusal) = unpack(unsafe {
        abi::birdaghol_run(
            bench.flags,
            bench.streaming,
            bench.za_on,
            bench.vb,
            z.as_ptr(),
            z.len(),
            p.as_ptr(),
            p.len(),
            za.as_mut_ptr(),
            za.len(),
            words.as_ptr(),
            words.len(),
        )
    });
    Ended { count: count as usize, refusal }
}

/// Tells whether the order of two words matters: both are outer products, listed and with their features on, and their
/// tiles share rows and differ in width. Then there are contents of Z, P and ZA, at every vector length, on which the two
/// orders end differently; otherwise the order of two accepted outer products never changes ZA. False for any other word,
/// of whose order it says nothing, a ZERO's too, and for flags above 15. 32-bit tile t has the rows of 64-bit tiles t and
/// t + 4.
#[inline]
#[must_use]
pub fn order_matters(flags: u32, a: u32, b: u32) -> bool {
    abi::birdaghol_order_matters(flags, a, b)
}

impl Instruction {
    /// The instruction that these numbers describe.
    fn of(fields: [u32; abi::FIELDS]) -> Instruction {
        match fields {
            [abi::PREDICATED, op @ .., tile, pn, pm, zn, zm] => {
                Instruction::Predicated { op: Operation::of(op), tile, pn, pm, zn, zm }
            }
            [abi::QUARTER, op @ .., tile, first, first_pair, second, second_pair] => {
                let (first, second) = (Source::of(first, first_pair), Source::of(second, second_pair));
                Instruction::Quarter { op: Operation::of(op), tile, first, second }
            }
            [abi::ZERO, mask, ..] => Instruction::Zero { mask: mask as u8 },
            [kind, ..] => unreachable!("{kind} is no kind of instruction"),
        }
    }
}

impl Operation {
    /// The operation of these numbers, in the order of its fields.
    fn of([element_bytes, products, first_unsigned, second_unsigned, subtract]: [u32; 5]) -> Operation {
        Operation {
            element_bytes,
            products,
            first_unsigned: first_unsigned == 1,
            second_unsigned: second_unsigned == 1,
            subtract: subtract == 1,
        }
    }
}

impl Source {
    /// The source that starts at a register, a pair if 1 says so.
    fn of(register: u32, pair: u32) -> Source {
        if pair == 1 { Source::Pair(register) } else { Source::One(register) }
    }

    /// The first register.
    fn register(self) -> u32 {
        match self {
            Source::One(register) | Source::Pair(register) => register,
        }
    }

    /// Whether a second register follows.
    fn is_pair(self) -> bool {
        matches!(self, Source::Pair(_))
    }
}

/// Takes value * 65536 + missing * 256 + refusal apart. Inlined, as a call for it takes a third of a decode or more.
#[inline]
fn unpack(answer: u64) -> (u64, Option<Refusal>) {
    let (missing, number) = (answer / 256 % 256, answer % 256);
    (answer / 65536, Refusal::of(number as u32, missing as u32))
}

/// The value of an answer that has one beside no refusal.
#[inline]
fn value(answer: u64) -> Result<u64, Refusal> {
    let (value, refusal) = unpack(answer);
    refusal.map_or(Ok(value), Err)
}

/// An answer that has no value.
#[inline]
fn accepted(answer: u64) -> Result<(), Refusal> {
    value(answer).map(|_| ())
}
