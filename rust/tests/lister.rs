//! Holds the program `lister`, which `tools/build lister` leaves in target/bin, against the independent implementation: words in
//! pieces of random sizes, as a pipe hands them over.

#[allow(dead_code, unused_imports)]
mod pseudocode;
#[allow(dead_code, unused_imports)]
mod sample;

use sample::{Random, seeds};
use std::io::{Read, Write};
use std::process::{Child, ChildStdin, ChildStdout};
use std::thread;
use std::time::Duration;

/// Words of every line, listed ones, damaged ones and random ones, with an odd end or none, in pieces of random sizes.
#[test]
fn pieces() {
    for seed in seeds(400) {
        let random = &mut Random::new(seed);
        let bytes = words(random, 3_000);
        let most = random.pick(&[3, 9, 100, 5_000, 20_000]);
        let text = listed(&bytes, |mut bytes, input| {
            while !bytes.is_empty() {
                let length = (1 + random.below(most) as usize).min(bytes.len());
                let (piece, rest) = bytes.split_at(length);
                input.write_all(piece).expect("the program reads all of its input");
                bytes = rest;
            }
        });
        assert_eq!(text, listing(&bytes), "seed {seed}");
    }
}

/// A byte at a time, with the line of a word before the next byte is handed over: nothing is kept back.
#[test]
fn byte_by_byte() {
    let random = &mut Random::new(1);
    let bytes: Vec<u8> = (0..64).flat_map(|_| sample::listed(random).to_le_bytes()).chain([5, 6]).collect();
    let (child, mut input, mut output) = start();
    let mut text = String::new();
    for end in 1..=bytes.len() {
        input.write_all(&bytes[end - 1..end]).expect("the program reads all of its input");
        thread::sleep(Duration::from_millis(1));
        if end % 4 == 0 {
            let due = listing(&bytes[..end]).len() - text.len();
            let mut line = vec![0; due];
            output.read_exact(&mut line).expect("a line for each word");
            text += &String::from_utf8(line).expect("ASCII");
        }
    }
    drop(input);
    output.read_to_string(&mut text).expect("the end");
    assert_silent(child);
    assert_eq!(text, listing(&bytes));
}

/// A read that fails is no end: it is told, and the lines before it stay, without one for the odd end.
#[test]
fn failed_read() {
    let bytes = [0x10, 0x00, 0xA0, 0xA0, 0x10, 0x00, 0x00, 0x81, 0x05];
    let ended = sample::interrupt("lister", &bytes);
    assert_eq!(String::from_utf8_lossy(&ended.stdout), listing(&bytes[..8]));
    let told = String::from_utf8_lossy(&ended.stderr);
    assert_eq!(told, "the input can't be read to its end, and is not listed whole\n");
}

/// Nothing, and every short input.
#[test]
fn short_inputs() {
    let bytes = [0x10, 0x00, 0xA0, 0xA0, 0x10, 0x00, 0x00, 0x81, 0x05];
    for length in 0..=bytes.len() {
        let text =
            listed(&bytes[..length], |bytes, input| input.write_all(bytes).expect("the program reads its input"));
        assert_eq!(text, listing(&bytes[..length]), "{length} bytes");
    }
}

/// A long input, by words of every sort: 4 MB and an odd end.
#[test]
fn long_input() {
    let random = &mut Random::new(2);
    let words = (0..1_000_000).flat_map(|_| sample::word(random, 5).to_le_bytes());
    let bytes: Vec<u8> = words.chain([1, 2, 3]).collect();
    let text = listed(&bytes, |bytes, input| input.write_all(bytes).expect("the program reads its input"));
    assert!(text == listing(&bytes), "another listing");
}

/// The listing, by the independent implementation: a line for each little-endian word, with its address modulo 2^32, and one
/// for what is left of the bytes; every feature is on.
fn listing(bytes: &[u8]) -> String {
    let (words, rest) = bytes.as_chunks::<4>();
    let mut text = String::new();
    for (place, &word) in words.iter().enumerate() {
        let (address, word) = ((4 * place) as u32, u32::from_le_bytes(word));
        let said =
            pseudocode::decode(15, word).map_or_else(|refused| format!("-{}", refused.number), |i| i.to_string());
        text += &format!("{address:08x} {word:08x} {said}\n");
    }
    if !rest.is_empty() {
        text += &format!("end {}\n", rest.len());
    }
    text
}

/// Fewer than so many words as bytes, and up to three bytes more.
fn words(random: &mut Random, most: u64) -> Vec<u8> {
    let (count, odd) = (random.below(most), random.below(4) as usize);
    let words: Vec<u8> = (0..count).flat_map(|_| sample::word(random, 5).to_le_bytes()).collect();
    [words, random.bytes(odd)].concat()
}

/// The program, and the ends of its pipes.
fn start() -> (Child, ChildStdin, ChildStdout) {
    let mut child = sample::start("lister");
    let (input, output) = (child.stdin.take().expect("a pipe"), child.stdout.take().expect("a pipe"));
    (child, input, output)
}

/// What the program writes for bytes that are fed to it; it must tell nothing on standard error.
fn listed(bytes: &[u8], feed: impl FnOnce(&[u8], &mut ChildStdin) + Send) -> String {
    let (child, mut input, mut output) = start();
    let mut text = String::new();
    thread::scope(|scope| {
        scope.spawn(move || feed(bytes, &mut input));
        output.read_to_string(&mut text).expect("ASCII");
    });
    assert_silent(child);
    text
}

/// The program ends well, and told nothing.
fn assert_silent(child: Child) {
    let ended = child.wait_with_output().expect("the program ends");
    assert!(ended.status.success() && ended.stderr.is_empty(), "{}", String::from_utf8_lossy(&ended.stderr));
}
