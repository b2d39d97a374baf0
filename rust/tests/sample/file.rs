//! Capture files and what can be wrong with them, for their reader.

use super::{Case, Damage, Random};
use crate::pseudocode;
use std::ops::Range;

/// The sorts of damage to a file.
pub const FILE_DAMAGES: [Damage; 14] = [
    Damage { name: "a byte changed", harm: change, leaves_good: true },
    Damage { name: "a byte of the bench changed", harm: change_bench, leaves_good: true },
    Damage { name: "another vector length", harm: vector_length, leaves_good: false },
    Damage { name: "another version", harm: version, leaves_good: false },
    Damage { name: "a length that lies", harm: lie, leaves_good: false },
    Damage { name: "a part of another length", harm: resize, leaves_good: true },
    Damage { name: "bytes moved to the next part", harm: move_bytes, leaves_good: false },
    Damage { name: "parts exchanged", harm: exchange, leaves_good: true },
    Damage { name: "a part left out", harm: leave_out, leaves_good: false },
    Damage { name: "a part doubled", harm: double, leaves_good: false },
    Damage { name: "cut short", harm: cut, leaves_good: false },
    Damage { name: "bytes left over", harm: leave_over, leaves_good: false },
    Damage { name: "other bytes", harm: other_bytes, leaves_good: false },
    Damage { name: "no bytes", harm: |_, _| Vec::new(), leaves_good: false },
];

/// The file of a legal case and a list.
pub fn capture(case: &Case, words: &[u32]) -> Vec<u8> {
    let Case { bench, z, p, za } = case;
    let mut file = vec![0; capture_length(case, words)];
    let written = pseudocode::capture::write(*bench, words, z, p, za, &mut file).expect("a legal case");
    assert_eq!(written, file.len());
    file
}

/// The length of that file.
pub fn capture_length(case: &Case, words: &[u32]) -> usize {
    25 + 4 * words.len() + case.z.len() + case.p.len() + case.za.len()
}

/// Where the five parts of a file stand, each without the four bytes of its length.
pub fn places(file: &[u8]) -> [Range<usize>; 5] {
    let mut end = 1;
    [(); 5].map(|()| {
        let length = file[end..].first_chunk().expect("a length");
        let start = end + 4;
        end = start + u32::from_be_bytes(*length) as usize;
        start..end
    })
}

/// The five parts of a file.
pub fn parts(file: &[u8]) -> Vec<Vec<u8>> {
    places(file).map(|place| file[place].to_vec()).into()
}

/// A file of any parts, each behind its length.
pub fn joined(parts: &[Vec<u8>]) -> Vec<u8> {
    let part = |part: &Vec<u8>| [&(part.len() as u32).to_be_bytes(), &part[..]].concat();
    [1].into_iter().chain(parts.iter().flat_map(part)).collect()
}

/// A lie in the place of a length, which starts at a byte of the file.
pub type Lie = (usize, u32);

/// Lies about every length: near the truth and far from it, all the rest of the file and near that, the truth with its bytes
/// or its sign turned round.
pub fn lies(file: &[u8]) -> Vec<Lie> {
    let about = |Range { start, end }: Range<usize>| {
        let (truth, rest) = ((end - start) as u32, (file.len() - start) as u32);
        let near = [1, 2, 3, 4, 8, 256, 65_536].map(|by| [truth.wrapping_add(by), truth.wrapping_sub(by)]);
        let far = [0, 1 << 31, u32::MAX, u32::MAX - 3, i32::MAX as u32, truth.swap_bytes(), truth.wrapping_neg()];
        let lies = [near.as_flattened(), &far, &[rest - 4, rest - 1, rest, rest + 1]].concat();
        lies.into_iter().filter(move |&lie| lie != truth).map(move |lie| (start - 4, lie))
    };
    places(file).into_iter().flat_map(about).collect()
}

/// The file with a lie in it.
pub fn with_lie(mut file: Vec<u8>, (at, lie): Lie) -> Vec<u8> {
    file[at..at + 4].copy_from_slice(&lie.to_be_bytes());
    file
}

/// Puts another byte in the place of one.
fn change(random: &mut Random, mut file: Vec<u8>) -> Vec<u8> {
    let at = random.below(file.len() as u64) as usize;
    file[at] = random.u32() as u8;
    file
}

/// Puts flags and modes in or near their ranges, or any others, one of them or both.
fn change_bench(random: &mut Random, mut file: Vec<u8>) -> Vec<u8> {
    let any = random.u32() as u8;
    let (flags, modes) = (random.below(18) as u8, random.below(6) as u8);
    let (flags, modes) = random.pick(&[(flags, file[6]), (file[5], modes), (flags, modes), (any, modes), (flags, any)]);
    file[5..7].copy_from_slice(&[flags, modes]);
    file
}

/// Puts a vector length that is legal but another, one that is near the truth, the truth with its bytes turned round, or any.
fn vector_length(random: &mut Random, mut file: Vec<u8>) -> Vec<u8> {
    let truth = u16::from_be_bytes([file[7], file[8]]);
    let others = [16, 32, 64, 128, 256, 0, 512, truth + 1, truth - 1, truth.swap_bytes(), random.u32() as u16];
    file[7..9].copy_from_slice(&random.pick(&others).to_be_bytes());
    file
}

/// Has another version, and in some cases nothing or something else behind it.
fn version(random: &mut Random, file: Vec<u8>) -> Vec<u8> {
    let mut file = match random.below(4) {
        0 => cut(random, file),
        1 => lie(random, file),
        2 => other_bytes(random, file),
        _ => file,
    };
    let versions = [0, 2, 3, 0x31, 0x80, 0x81, 0xFF];
    file.splice(..file.len().min(1), [random.pick(&versions)]);
    file
}

/// Lies about one length.
fn lie(random: &mut Random, file: Vec<u8>) -> Vec<u8> {
    let lie = random.pick(&lies(&file));
    with_lie(file, lie)
}

/// Gives a part more bytes, or fewer, and says so.
fn resize(random: &mut Random, file: Vec<u8>) -> Vec<u8> {
    let mut parts = parts(&file);
    let part = &mut parts[random.below(5) as usize];
    let length = part.len();
    let lengths =
        [length + 1, length + 4, 2 * length, length / 2, length.saturating_sub(1), length.saturating_sub(4), 0];
    part.resize(random.pick(&lengths), 0);
    joined(&parts)
}

/// Moves bytes from the end of a part to the start of the next, if there are as many.
fn move_bytes(random: &mut Random, file: Vec<u8>) -> Vec<u8> {
    let mut parts = parts(&file);
    let (at, count) = (random.below(4) as usize, random.pick(&[1, 4, 8, 256]));
    let kept = parts[at].len().saturating_sub(count);
    let moved = parts[at].split_off(kept);
    parts[at + 1].splice(..0, moved);
    joined(&parts)
}

/// Exchanges two parts, by which another capture comes of two that have the same length and no rules of their own.
fn exchange(random: &mut Random, file: Vec<u8>) -> Vec<u8> {
    let mut parts = parts(&file);
    let [one, other] = [(); 2].map(|()| random.below(5) as usize);
    parts.swap(one, other);
    joined(&parts)
}

/// Has four parts.
fn leave_out(random: &mut Random, file: Vec<u8>) -> Vec<u8> {
    let mut parts = parts(&file);
    parts.remove(random.below(5) as usize);
    joined(&parts)
}

/// Has six parts.
fn double(random: &mut Random, file: Vec<u8>) -> Vec<u8> {
    let mut parts = parts(&file);
    let at = random.below(5) as usize;
    parts.insert(at, parts[at].clone());
    joined(&parts)
}

/// Leaves nothing from some place on, every second time from one near the front or the end.
fn cut(random: &mut Random, mut file: Vec<u8>) -> Vec<u8> {
    let any = random.below(file.len() as u64) as usize;
    let near = random.below(30) as usize;
    file.truncate(random.pick(&[any, any, near, file.len() - 1 - near]));
    file
}

/// Adds bytes, or another file.
fn leave_over(random: &mut Random, file: Vec<u8>) -> Vec<u8> {
    let length = random.pick(&[1, 2, 3, 4, 8, 1_000]);
    let bytes = random.bytes(length);
    let more = random.pick(&[&file, &bytes, &[0; 1_000][..length]]);
    [&file, more].concat()
}

/// Any bytes behind the version.
fn other_bytes(random: &mut Random, _: Vec<u8>) -> Vec<u8> {
    let length = random.below(1_000) as usize;
    [vec![1], random.bytes(length)].concat()
}
