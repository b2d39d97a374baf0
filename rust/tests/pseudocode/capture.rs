//! Capture files: a legal capture as bytes, and bytes taken apart by splitting off part after part.

use super::{Bench, Refused, check_run};

/// The byte at the front of every file.
const VERSION: u8 = 1;

/// What a file holds.
struct Contents<'a> {
    bench: Bench,
    words: Vec<u32>,
    z: &'a [u8],
    p: &'a [u8],
    za: &'a [u8],
}

/// Writes the file of a capture to the start of the room and gives its length, or refuses by 1 to 6 or 12.
pub fn write(bench: Bench, words: &[u32], z: &[u8], p: &[u8], za: &[u8], room: &mut [u8]) -> Result<usize, Refused> {
    check_run(bench, z, p, za, words)?;
    let modes = u8::from(bench.streaming) + 2 * u8::from(bench.za_on);
    let [high, low] = (bench.vb as u16).to_be_bytes();
    let words: Vec<u8> = words.iter().flat_map(|word| word.to_be_bytes()).collect();
    let mut file = vec![VERSION];
    for part in [&[bench.flags as u8, modes, high, low], &words[..], z, p, za] {
        file.extend((part.len() as u32).to_be_bytes());
        file.extend(part);
    }
    start(room, &file)?.copy_from_slice(&file);
    Ok(file.len())
}

/// Reads a file to the starts of the rooms and gives its bench and its number of words, or refuses by 15, 16 or 12.
pub fn read(
    file: &[u8],
    words: &mut [u32],
    z: &mut [u8],
    p: &mut [u8],
    za: &mut [u8],
) -> Result<(Bench, usize), Refused> {
    let (&version, parts) = file.split_first().ok_or(Refused::by(16))?;
    if version != VERSION {
        return Err(Refused::by(15));
    }
    let held = contents(parts).ok_or(Refused::by(16))?;
    // Nothing is written before there is room for all of it.
    let (words, z) = (start(words, &held.words)?, start(z, held.z)?);
    let (p, za) = (start(p, held.p)?, start(za, held.za)?);
    words.copy_from_slice(&held.words);
    z.copy_from_slice(held.z);
    p.copy_from_slice(held.p);
    za.copy_from_slice(held.za);
    Ok((held.bench, held.words.len()))
}

/// The start of a room that these elements fill, or refusal 12.
fn start<'a, T>(room: &'a mut [T], elements: &[T]) -> Result<&'a mut [T], Refused> {
    room.get_mut(..elements.len()).ok_or(Refused::by(12))
}

/// The five parts that these bytes are, if a run would begin on them.
fn contents(bytes: &[u8]) -> Option<Contents<'_>> {
    let mut rest = Rest(bytes);
    let (first, words) = (rest.part()?, rest.part()?);
    let (z, p, za) = (rest.part()?, rest.part()?, rest.part()?);
    let &[flags, modes @ 0..=3, high, low] = first else { return None };
    let (words, []) = words.as_chunks() else { return None };
    let words: Vec<u32> = words.iter().map(|&word| u32::from_be_bytes(word)).collect();
    let bench = Bench {
        flags: flags.into(),
        streaming: modes & 1 != 0,
        za_on: modes & 2 != 0,
        vb: u16::from_be_bytes([high, low]).into(),
    };
    check_run(bench, z, p, za, &words).ok()?;
    rest.0.is_empty().then_some(Contents { bench, words, z, p, za })
}

/// What is left of a file. A part that is not all there gives `None`, and the file is no capture.
struct Rest<'a>(&'a [u8]);

impl<'a> Rest<'a> {
    /// Splits a length off, and as many bytes behind it.
    fn part(&mut self) -> Option<&'a [u8]> {
        let (&length, behind) = self.0.split_first_chunk()?;
        let (part, rest) = behind.split_at_checked(u32::from_be_bytes(length) as usize)?;
        self.0 = rest;
        Some(part)
    }
}
