//! The word of a line of text, taken apart by the rules for text; the ranges are for `encode` to test.

use super::{Instruction, NAMES, OuterProduct, Refused, Source, Sources, decode, encode, shortest};

/// The word of a line, or refusal 1, 13 or 8.
pub fn read(flags: u32, line: &[u8]) -> Result<u32, Refused> {
    if flags > 15 {
        return Err(Refused::by(1));
    }
    let word = instruction(line).and_then(|instruction| encode(instruction).ok()).ok_or(Refused::by(13))?;
    decode(flags, word).map(|_| word)
}

/// The instruction of a whole line, some of its numbers perhaps out of range.
fn instruction(line: &[u8]) -> Option<Instruction> {
    let mut rest = Rest(line);
    let instruction = match rest.skip("zero ") {
        Some(()) => Instruction::Zero { mask: rest.tiles()? },
        None => Instruction::Outer(rest.outer()?),
    };
    rest.0.is_empty().then_some(instruction)
}

/// What is left of a line. A part that is not there gives `None`, and the line is no text.
struct Rest<'a>(&'a [u8]);

impl Rest<'_> {
    /// Skips these characters.
    fn skip(&mut self, text: &str) -> Option<()> {
        self.0 = self.0.strip_prefix(text.as_bytes())?;
        Some(())
    }

    /// Skips the first of these texts that is there, for what it stands for.
    fn one_of<T: Copy>(&mut self, texts: &[(&str, T)]) -> Option<T> {
        texts.iter().find_map(|&(text, meaning)| self.skip(text).map(|()| meaning))
    }

    /// A number without leading zeros; no register has one of over a byte.
    fn number(&mut self) -> Option<u32> {
        let digits = self.0.iter().take_while(|byte| byte.is_ascii_digit()).count();
        let (number, rest) = self.0.split_at(digits);
        self.0 = rest;
        if number.len() > 1 && number[0] == b'0' {
            return None;
        }
        str::from_utf8(number).ok()?.parse::<u8>().ok().map(u32::from)
    }

    /// The list of a ZERO as a mask. Any list of names has one, but only the shortest, in order, is a text.
    fn tiles(&mut self) -> Option<u8> {
        if self.skip("{}").is_some() {
            return Some(0);
        }
        self.skip("{ ")?;
        let (mut list, mut mask) = (Vec::new(), 0);
        loop {
            let name = NAMES.into_iter().find(|(text, _)| self.skip(text).is_some())?;
            list.push(name);
            mask |= name.1;
            if self.skip(" }").is_some() {
                return (list == shortest(mask)).then_some(mask);
            }
            self.skip(", ")?;
        }
    }

    /// An outer product: the name gives the signs, the family and the sum, the suffixes give the products.
    fn outer(&mut self) -> Option<OuterProduct> {
        let signs = [("su", (false, true)), ("us", (true, false)), ("s", (false, false)), ("u", (true, true))];
        let (first_unsigned, second_unsigned) = self.one_of(&signs)?;
        let quarter = self.one_of(&[("mop4", true), ("mop", false)])?;
        let subtract = self.one_of(&[("a za", false), ("s za", true)])?;
        let tile = self.number()?;
        let element_bytes = self.one_of(&[(".s, ", 4), (".d, ", 8)])?;
        let (sources, source_bytes) = if quarter { self.quarter_tile()? } else { self.predicated()? };
        let products = element_bytes / source_bytes;
        Some(OuterProduct { element_bytes, products, first_unsigned, second_unsigned, subtract, tile, sources })
    }

    /// Two predicates and two vectors, with the bytes that an element of both vectors has.
    fn predicated(&mut self) -> Option<(Sources, u32)> {
        let (pn, pm) = (self.predicate()?, self.predicate()?);
        let (zn, bytes) = self.vector()?;
        self.skip(", ")?;
        let (zm, second_bytes) = self.vector()?;
        (second_bytes == bytes).then_some((Sources::Predicated { pn, pm, zn, zm }, bytes))
    }

    /// Two sources of a quarter-tile product, with the bytes that an element of both has.
    fn quarter_tile(&mut self) -> Option<(Sources, u32)> {
        let (first, bytes) = self.source()?;
        self.skip(", ")?;
        let (second, second_bytes) = self.source()?;
        (second_bytes == bytes).then_some((Sources::Quarter { first, second }, bytes))
    }

    /// The number of a merging predicate, which a vector or another predicate follows.
    fn predicate(&mut self) -> Option<u32> {
        self.skip("p")?;
        let number = self.number()?;
        self.skip("/m, ")?;
        Some(number)
    }

    /// A vector, or a pair in braces: neighbours with elements of one size.
    fn source(&mut self) -> Option<(Source, u32)> {
        let pair = self.skip("{ ").is_some();
        let (register, bytes) = self.vector()?;
        if pair {
            self.skip("-")?;
            (self.vector()? == (register + 1, bytes)).then_some(())?;
            self.skip(" }")?;
        }
        Some((Source { register, pair }, bytes))
    }

    /// The number of a vector, and the bytes of its elements.
    fn vector(&mut self) -> Option<(u32, u32)> {
        self.skip("z")?;
        let number = self.number()?;
        let bytes = self.one_of(&[(".b", 1), (".h", 2)])?;
        Some((number, bytes))
    }
}
