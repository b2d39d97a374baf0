//! Capture files: what a run takes, as bytes. A file is the version, 1, then five parts, each behind its length of four
//! bytes: flags, modes and vector length; words; Z; P; ZA. Lengths, words and the vector length are big-endian.

use crate::{Bench, Ended, Refusal, abi, run, value};

/// The most words of a capture.
const MOST_WORDS: usize = 65_536;

// The most bytes of Z, P and ZA, those of vectors of 256 bytes.
const MOST_Z: usize = 32 * 256;
const MOST_P: usize = 2 * 256;
const MOST_ZA: usize = 256 * 256;

/// The bytes of a file beside its words, Z, P and ZA: the version, five lengths and the first part.
const FRAME: usize = 25;

/// The bytes of the longest capture file, that of 65,536 words on vectors of 256 bytes.
pub const LONGEST_CAPTURE: usize = FRAME + 4 * MOST_WORDS + MOST_Z + MOST_P + MOST_ZA;

/// What a run takes, as a capture file holds it. Any contents can be held, and are for [`Capture::write`] to refuse.
#[derive(Clone, Debug, PartialEq, Eq)]
pub struct Capture {
    /// Flags, modes and vector length.
    pub bench: Bench,
    /// The list, 65,536 words at most.
    pub words: Vec<u32>,
    /// 32 vectors of `vb` bytes.
    pub z: Vec<u8>,
    /// 16 predicates of `vb` bits.
    pub p: Vec<u8>,
    /// `vb` rows of `vb` bytes.
    pub za: Vec<u8>,
}

/// What a file holds beside the contents of the buffers that it was read to.
#[derive(Clone, Copy, Debug, PartialEq, Eq)]
pub struct Contents {
    /// Flags, modes and vector length, which gives the lengths of Z, P and ZA.
    pub bench: Bench,
    /// How many words there are.
    pub words: usize,
}

impl Capture {
    /// The capture that a file holds, or `Version` or `Format`.
    pub fn read(file: &[u8]) -> Result<Capture, Refusal> {
        // No part is longer than its file, nor longer than it can be; so there is room for each.
        let room = |most: usize| vec![0; most.min(file.len())];
        let [mut z, mut p, mut za] = [MOST_Z, MOST_P, MOST_ZA].map(room);
        let mut words = vec![0; MOST_WORDS.min(file.len() / 4)];
        let contents = capture_read(file, &mut words, &mut z, &mut p, &mut za)?;
        let (bench, vb) = (contents.bench, contents.bench.vb);
        words.truncate(contents.words);
        z.truncate(32 * vb);
        p.truncate(2 * vb);
        za.truncate(vb * vb);
        Ok(Capture { bench, words, z, p, za })
    }

    /// The one file of this capture, or why no run would begin on it.
    pub fn write(&self) -> Result<Vec<u8>, Refusal> {
        // What would come to more than the longest file is refused, whatever the room.
        let length = FRAME + 4 * self.words.len() + self.z.len() + self.p.len() + self.za.len();
        let mut file = vec![0; length.min(LONGEST_CAPTURE)];
        let written = capture_write(self.bench, &self.words, &self.z, &self.p, &self.za, &mut file)?;
        file.truncate(written);
        Ok(file)
    }

    /// Runs the words on this capture's own ZA, as [`run`] does.
    pub fn run(&mut self) -> Ended {
        run(self.bench, &self.z, &self.p, &mut self.za, &self.words)
    }
}

impl Contents {
    /// Takes words * 65536 + vb * 64 + modes * 16 + flags apart; of the modes, streaming is 1 and ZA 2.
    fn of(value: u64) -> Contents {
        let modes = value / 16 % 4;
        let bench = Bench {
            flags: (value % 16) as u32,
            streaming: modes % 2 == 1,
            za_on: modes / 2 == 1,
            vb: (value % 65536 / 64) as usize,
        };
        Contents { bench, words: (value / 65536) as usize }
    }
}

/// Writes the file of a capture, [`LONGEST_CAPTURE`] bytes at most, to the start of `file` and gives its length; later
/// bytes stay. Refuses what [`run`] does not begin on, by the same tests, and then a `file` that is too short.
pub fn capture_write(
    bench: Bench,
    words: &[u32],
    z: &[u8],
    p: &[u8],
    za: &[u8],
    file: &mut [u8],
) -> Result<usize, Refusal> {
    // SAFETY: each address stands beside the length of its own slice; `file`, the only one written, is lent alone.
    let answer = unsafe {
        abi::birdaghol_capture_write(
            bench.flags,
            bench.streaming,
            bench.za_on,
            bench.vb,
            words.as_ptr(),
            words.len(),
            z.as_ptr(),
            z.len(),
            p.as_ptr(),
            p.len(),
            za.as_ptr(),
            za.len(),
            file.as_mut_ptr(),
            file.len(),
        )
    };
    value(answer).map(|length| length as usize)
}

/// Reads a file to the starts of four buffers; what they hold past its contents stays. Refuses a file of another
/// version, then one that is not, to its last byte, what [`capture_write`] writes for some capture, then a buffer that is
/// too short.
pub fn capture_read(
    file: &[u8],
    words: &mut [u32],
    z: &mut [u8],
    p: &mut [u8],
    za: &mut [u8],
) -> Result<Contents, Refusal> {
    // SAFETY: each address stands beside the length of its own slice; those that are written are each lent alone.
    let answer = unsafe {
        abi::birdaghol_capture_read(
            file.as_ptr(),
            file.len(),
            words.as_mut_ptr(),
            words.len(),
            z.as_mut_ptr(),
            z.len(),
            p.as_mut_ptr(),
            p.len(),
            za.as_mut_ptr(),
            za.len(),
        )
    };
    value(answer).map(Contents::of)
}
