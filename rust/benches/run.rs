//! Times the library beside the independent implementation, an ordinary Rust program, in one process and by turns.

#[allow(dead_code, unused_imports)]
#[path = "../tests/pseudocode/mod.rs"]
mod pseudocode;
#[allow(dead_code, unused_imports)]
#[path = "../tests/sample/mod.rs"]
mod sample;

use birdaghol::{Bench, Ended};
use sample::{DAMAGES, LINES, Random, SMALL};
use std::hint::black_box;
use std::iter;
use std::time::Instant;

/// Every feature.
const FLAGS: u32 = 15;

/// The outer products of a run: UMOPA on 32-bit elements, and SMOP4S on 64-bit ones.
const FOUR_WAY: [u32; 2] = [0xA1A0_0000, 0xA0C0_0018];

/// The 2-way UMOPA and SMOP4S.
const TWO_WAY: [u32; 2] = [0xA180_0008, 0x8000_8018];

/// Words, or lines of text, for each rate.
const WORDS: u64 = 200_000;

/// A predicate byte that has every second pair of bits set: half of the elements are active, of one byte or of two.
const HALF: u8 = 0x33;

/// Prints one table: the runs first, then the rates.
fn main() {
    println!("{:<32}{:>12}{:>16}{:>8}", "", "library", "ordinary Rust", "ratio");
    for (vb, rounds) in [(16, 500), (64, 200), (256, 50)] {
        runs(vb, rounds);
    }
    rates();
    println!("A ratio is the library's time divided by that of the ordinary program.");
}

/// The lines for the runs at one vector length.
fn runs(vb: usize, rounds: usize) {
    for (name, products, predicates) in
        [("all active", FOUR_WAY, 0xFF), ("half active", FOUR_WAY, HALF), ("2-way, all active", TWO_WAY, 0xFF)]
    {
        let times = run(vb, rounds, products, predicates);
        row(&format!("run, VB {vb}, {name}"), "ms", times.map(|seconds| seconds * 1e3));
    }
}

/// The rows for listed words but the 2-way ones, for these, and for random words; then for the texts of the first two,
/// and for damaged ones.
fn rates() {
    let random = &mut Random::new(1);
    let (lines, two_way_lines) = LINES.split_at(5);
    let listed: Vec<u32> = (0..WORDS).map(|_| sample::of_lines(random, lines)).collect();
    let any: Vec<u32> = (0..WORDS).map(|_| random.u32()).collect();
    let two_way: Vec<u32> = (0..WORDS).map(|_| sample::of_lines(random, two_way_lines)).collect();
    let [texts, two_way_texts] = [&listed, &two_way].map(|words| texts(words));
    let damaged = damaged(random, &texts);
    for (mix, words) in [("listed words", listed), ("2-way words", two_way), ("random words", any)] {
        row(&format!("decode, {mix}"), "M/s", decode(&words).map(rate));
        row(&format!("print, {mix}"), "M/s", print(&words).map(rate));
    }
    for (mix, texts) in [("listed words", texts), ("2-way words", two_way_texts), ("damaged lines", damaged)] {
        row(&format!("read, {mix}"), "M/s", read(&texts).map(rate));
    }
}

/// The texts of the words.
fn texts(words: &[u32]) -> Vec<Vec<u8>> {
    words.iter().map(|&word| sample::text(word)).collect()
}

/// The texts with a byte or a part of each damaged, so that all are refused.
fn damaged(random: &mut Random, texts: &[Vec<u8>]) -> Vec<Vec<u8>> {
    let mut harmed = |text: &Vec<u8>| (random.pick(&DAMAGES[..SMALL]).harm)(random, text.clone());
    let refused = |line: &Vec<u8>| pseudocode::read(FLAGS, line).is_err();
    texts.iter().map(|text| iter::repeat_with(|| harmed(text)).find(refused).expect("a refused line")).collect()
}

/// One line of the table; where figures are rates, the ratio of times is that of the rates turned over.
fn row(name: &str, unit: &str, [library, ordinary]: [f64; 2]) {
    let ratio = if unit == "ms" { library / ordinary } else { ordinary / library };
    println!("{name:<32}{library:>8.3} {unit:<3}{ordinary:>12.3} {unit:<3}{ratio:>8.2}");
}

/// Millions of words, or of lines, a second.
fn rate(seconds: f64) -> f64 {
    WORDS as f64 / seconds / 1e6
}

/// The list that the bench is measured by: ZERO of all, then two outer products in turn.
fn words(products: [u32; 2]) -> Vec<u32> {
    let products = products.into_iter().cycle().take(4095);
    [0xC008_00FF].into_iter().chain(products).collect()
}

/// Times both runs of the list, with the same byte throughout the predicates, and makes sure that they end alike.
fn run(vb: usize, rounds: usize, products: [u32; 2], predicates: u8) -> [f64; 2] {
    let z: Vec<u8> = (0..32 * vb).map(|i| (i % 251) as u8).collect();
    let p = vec![predicates; 2 * vb];
    let (mut za, mut ordinary_za) = (vec![0xA5; vb * vb], vec![0xA5; vb * vb]);
    let words = words(products);
    let bench = Bench { flags: FLAGS, streaming: true, za_on: true, vb };
    let ordinary_bench = pseudocode::Bench { flags: FLAGS, streaming: true, za_on: true, vb };

    let times = race(
        rounds,
        || {
            let ended = birdaghol::run(black_box(bench), &z, &p, &mut za, black_box(&words));
            assert_eq!(ended, Ended { count: 4096, refusal: None });
        },
        || {
            let ended = pseudocode::run(black_box(ordinary_bench), &z, &p, &mut ordinary_za, black_box(&words));
            assert_eq!(ended, (4096, None));
        },
    );
    assert!(za == ordinary_za, "the two runs end with different ZA");
    times
}

/// Times both decoders over the words.
fn decode(words: &[u32]) -> [f64; 2] {
    let each = |accepts: fn(u32) -> bool| words.iter().filter(|&&word| accepts(black_box(word))).count();
    let library = || each(|word| birdaghol::decode(FLAGS, word).is_ok());
    let ordinary = || each(|word| black_box(pseudocode::decode(FLAGS, word)).is_ok());
    assert_eq!(library(), ordinary());
    race(20, || _ = black_box(library()), || _ = black_box(ordinary()))
}

/// Times both printers over the words, with a room that is long enough.
fn print(words: &[u32]) -> [f64; 2] {
    let each = |length: fn(u32, &mut [u8]) -> usize| {
        let room = &mut [0; 64];
        words.iter().map(|&word| length(black_box(word), black_box(room))).sum::<usize>()
    };
    let library = || each(|word, room| birdaghol::print(FLAGS, word, room).unwrap_or(0));
    let ordinary = || each(|word, room| pseudocode::print(FLAGS, word, room).unwrap_or(0));
    assert_eq!(library(), ordinary());
    race(20, || _ = black_box(library()), || _ = black_box(ordinary()))
}

/// Times both readers over the lines.
fn read(lines: &[Vec<u8>]) -> [f64; 2] {
    let each = |word: fn(&[u8]) -> u32| lines.iter().map(|line| u64::from(word(black_box(line)))).sum::<u64>();
    let library = || each(|line| birdaghol::read(FLAGS, line).unwrap_or(0));
    let ordinary = || each(|line| pseudocode::read(FLAGS, line).unwrap_or(0));
    assert_eq!(library(), ordinary());
    race(20, || _ = black_box(library()), || _ = black_box(ordinary()))
}

/// The best time of each side in seconds, taken by turns so that both meet the same machine.
fn race(rounds: usize, mut library: impl FnMut(), mut ordinary: impl FnMut()) -> [f64; 2] {
    (0..rounds).fold([f64::INFINITY; 2], |[first, second], _| {
        [first.min(seconds(&mut library)), second.min(seconds(&mut ordinary))]
    })
}

/// The time that some work takes.
fn seconds(work: &mut impl FnMut()) -> f64 {
    let start = Instant::now();
    work();
    start.elapsed().as_secs_f64()
}
