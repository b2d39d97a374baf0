//! Holds the library against the independent implementation, on random input of every sort.

#[allow(dead_code)]
#[path = "../src/abi.rs"]
mod abi;
#[allow(dead_code, unused_imports)]
mod pseudocode;
#[allow(dead_code, unused_imports)]
mod sample;

use birdaghol::{Bench, Operation, Refusal, Source};
use pseudocode::{Instruction, MOST_WORDS, OuterProduct, Refused, Sources};
use sample::{Case, DAMAGES, Guarded, LENGTHS, Random, Tally, packed, refused, seeds};
use std::fmt::{Arguments, Debug};

/// A word gets the same answer under any flags, as C gets it too.
#[test]
fn decode() {
    let mut tally = Tally::default();
    for seed in seeds(2_000_000) {
        let random = &mut Random::new(seed);
        let (flags, word) = (sample::flags(random), sample::word(random, 4));
        let expected = pseudocode::decode(flags, word).map(|_| ());
        let answer = birdaghol::decode(flags, word).map_err(refused);
        assert_eq!(answer, expected, "seed {seed}: flags {flags}, word {word:08x}");
        let answer = abi::birdaghol_decode(flags, word);
        assert_eq!(answer, packed(expected.map(|()| 0)), "seed {seed}: flags {flags}, word {word:08x}");
        tally.count(word, &expected);
    }
    tally.assert_covers(&[1, 7, 8], 10_000);
    tally.assert_missing(10_000);
}

/// A room of any length gets the same text, or stays as it was.
#[test]
fn print() {
    let mut tally = Tally::default();
    for seed in seeds(500_000) {
        let random = &mut Random::new(seed);
        let (flags, word) = (sample::flags(random), sample::word(random, 6));
        let length = random.below(71) as usize;
        let mut text = random.bytes(length);
        let mut room = Guarded::new(&text);
        let case = format!("seed {seed}: flags {flags}, word {word:08x}, room {length}");

        let expected = pseudocode::print(flags, word, &mut text);
        let answer = birdaghol::print(flags, word, room.lend()).map_err(refused);
        assert_eq!(answer, expected, "{case}");
        assert!(room.holds(&text), "{case}: other bytes");
        tally.count(word, &expected);
    }
    tally.assert_covers(&[1, 7, 8, 12], 5_000);
    tally.assert_missing(5_000);
}

/// The text of a listed word is read to that word, unless its flags refuse it.
#[test]
fn read() {
    let mut tally = Tally::default();
    for seed in seeds(500_000) {
        let random = &mut Random::new(seed);
        let (flags, word) = (sample::flags(random), sample::listed(random));
        let expected = pseudocode::decode(flags, word).map(|_| word);
        let answer = read_both(format_args!("seed {seed}"), flags, &sample::text(word));
        assert_eq!(answer, expected, "seed {seed}: flags {flags}, word {word:08x}");
        tally.count(word, &expected);
    }
    tally.assert_covers(&[1, 8], 5_000);
    tally.assert_missing(5_000);
}

/// A damaged line gets the same answer, and is refused by 13 unless the damage made it the text of another word.
#[test]
fn read_damaged_lines() {
    let mut tally = Tally::default();
    for seed in seeds(1_000_000) {
        let random = &mut Random::new(seed);
        let flags = if random.chance(2) { sample::flags(random) } else { 15 };
        let text = sample::text(sample::listed(random));
        let damage = random.pick(&DAMAGES);
        let line = (damage.harm)(random, text.clone());
        let answer = read_both(format_args!("seed {seed}, {}", damage.name), flags, &line);
        if line != text {
            tally.count(answer.unwrap_or(0), &answer);
            tally.damage(damage, !matches!(answer, Err(Refused { number: 1 | 13, .. })));
        }
    }
    tally.assert_covers(&[1, 8, 13], 500);
    tally.assert_missing(200);
    tally.assert_damaged(&DAMAGES, 10_000, 100);
}

/// Every listed word is printed and read back, on both sides. The start of its text is refused, though the rest lies
/// behind it, and the text without one of its bytes gets the same answer.
#[test]
fn read_every_text() {
    let (mut words, mut longest) = (0, 0);
    for word in sample::every_listed() {
        let mut room = [0; 47];
        let length = birdaghol::print(15, word, &mut room).expect("a listed word");
        let (line, at) = (&room[..length], words % length);
        assert_eq!(read_both(format_args!("word {word:08x}"), 15, line), Ok(word), "word {word:08x}");
        assert_eq!(birdaghol::read(15, &line[..at]), Err(Refusal::NotText), "word {word:08x} up to byte {at}");
        let without = [&line[..at], &line[at + 1..]].concat();
        _ = read_both(format_args!("word {word:08x} without byte {at}"), 15, &without);
        words += 1;
        longest = longest.max(length);
    }
    assert_eq!((words, longest), (7_368_960, 47));
}

/// Reads a line on both sides, and makes sure that it stays as it was.
fn read_both(case: Arguments, flags: u32, line: &[u8]) -> Result<u32, Refused> {
    let mut lent = Guarded::new(line);
    let expected = pseudocode::read(flags, line);
    let answer = birdaghol::read(flags, lent.lend()).map_err(refused);
    assert_eq!(answer, expected, "{case}: flags {flags}, line `{}`", line.escape_ascii());
    assert!(lent.holds(line), "{case}: the line was written, or a guard fell");
    expected
}

/// A word gets the same description under any flags, and that description the word.
#[test]
fn describe() {
    let mut tally = Tally::default();
    for seed in seeds(1_000_000) {
        let random = &mut Random::new(seed);
        let (flags, word) = (sample::flags(random), sample::word(random, 6));
        let expected = pseudocode::decode(flags, word).map(described);
        let answer = birdaghol::describe(flags, word).map_err(refused);
        assert_eq!(answer, expected, "seed {seed}: flags {flags}, word {word:08x}");
        if let Ok(instruction) = answer {
            assert_eq!(birdaghol::encode(instruction), Ok(word), "seed {seed}: {instruction:?}");
        }
        tally.count(word, &expected);
    }
    tally.assert_covers(&[1, 7, 8], 10_000);
    tally.assert_missing(10_000);
}

/// A room of any length gets the same numbers, or stays as it was.
#[test]
fn describe_in_rooms() {
    let mut tally = Tally::default();
    for seed in seeds(500_000) {
        let random = &mut Random::new(seed);
        let (flags, word) = (sample::flags(random), sample::word(random, 6));
        let length = random.pick(&[0, 1, 2, 6, 9, 10, 10, 11, 11, 11, 12, 13, 22, 64]);
        let mut fields: Vec<u32> = (0..length).map(|_| random.u32()).collect();
        let mut room = Guarded::new(&fields);
        let case = format!("seed {seed}: flags {flags}, word {word:08x}, room {length}");

        let expected = pseudocode::describe(flags, word, &mut fields);
        let lent = room.lend();
        // SAFETY: the address and the length are those of one slice, lent for this call alone.
        let answer = unsafe { abi::birdaghol_describe(flags, word, lent.as_mut_ptr(), lent.len()) };
        assert_eq!(answer, packed(expected.map(|()| 0)), "{case}");
        assert!(room.holds(&fields), "{case}: other numbers");
        tally.count(word, &expected);
    }
    tally.assert_covers(&[1, 7, 8, 12], 5_000);
    tally.assert_missing(5_000);
}

/// Fields in range get the same word, others are refused.
#[test]
fn encode() {
    let mut tally = Tally::default();
    for seed in seeds(1_000_000) {
        let instruction = sample::instruction(&mut Random::new(seed));
        let expected = pseudocode::encode(instruction);
        let answer = birdaghol::encode(described(instruction)).map_err(refused);
        assert_eq!(answer, expected, "seed {seed}: {instruction:?}");
        tally.count(expected.unwrap_or(0), &expected);
    }
    tally.assert_covers(&[11], 10_000);
}

/// The description that the independent implementation reads off a word is encoded to that word again.
#[test]
fn encode_undoes_decode() {
    for seed in seeds(500_000) {
        let word = sample::listed(&mut Random::new(seed));
        let instruction = pseudocode::decode(15, word).expect("a listed word");
        assert_eq!(birdaghol::encode(described(instruction)), Ok(word), "seed {seed}: {instruction:?}");
    }
}

/// One word leaves the same ZA, on benches right and wrong.
#[test]
fn execute() {
    let mut tally = Tally::default();
    for seed in seeds(200_000) {
        let random = &mut Random::new(seed);
        let case = Case::new(random, &LENGTHS);
        let word = sample::word(random, 7);
        let expected = compare(
            &case,
            &format!("seed {seed}: {:?}, word {word:08x}", case.bench),
            |z, p, za| pseudocode::execute(case.bench, z, p, za, word),
            |z, p, za| birdaghol::execute(sample::bench(case.bench), z, p, za, word).map_err(refused),
        );
        tally.count(word, &expected);
        tally.accept_at(case.bench.vb, usize::from(expected.is_ok()));
    }
    tally.assert_covers(&[1, 2, 3, 4, 5, 7, 8, 9, 10], 500);
    tally.assert_missing(200);
    tally.assert_lengths(5_000);
}

/// A list stops at the same word and leaves the same ZA.
#[test]
fn run() {
    let mut tally = Tally::default();
    for seed in seeds(40_000) {
        let random = &mut Random::new(seed);
        let case = Case::new(random, &LENGTHS);
        let length = if random.chance(50) { MOST_WORDS as u64 + 1 + random.below(99) } else { random.below(33) };
        let good = random.pick(&[7, 8]);
        let mut words = sample::zeros(random);
        words.extend((0..length).map(|_| sample::word(random, good)));
        let (count, refused) = run_both(seed, &case, &words);
        words[..count].iter().for_each(|&word| tally.accept(word));
        tally.accept_at(case.bench.vb, count);
        if let Some(refused) = refused {
            tally.refuse(refused);
        }
    }
    tally.assert_covers(&[1, 2, 3, 4, 5, 6, 7, 8, 9, 10, 14], 100);
    tally.assert_missing(50);
    tally.assert_lengths(5_000);
}

/// From another ZA a list ends alike: with the same answer, and the same bytes in the rows that it cleared. Every other row
/// stays as it was.
#[test]
fn run_from_another_za() {
    let mut ends = [0; 2];
    for seed in seeds(20_000) {
        let random = &mut Random::new(seed);
        let case = Case::new(random, &LENGTHS);
        let mut words = sample::zeros(random);
        words.extend((0..random.below(33)).map(|_| sample::word(random, 8)));

        let starts = [case.za.clone(), random.bytes(case.za.len())];
        let mut left = starts.clone();
        let bench = sample::bench(case.bench);
        let [one, other] = left.each_mut().map(|za| birdaghol::run(bench, &case.z, &case.p, za, &words));
        assert_eq!(one, other, "seed {seed}: {:?}", case.bench);

        let cleared = words[..one.count].iter().fold(0, |mask, &word| mask | sample::zero_mask(word));
        for (at, bytes) in left[0].iter().zip(&left[1]).enumerate() {
            let row = at / case.bench.vb.max(1);
            if cleared >> (row % 8) & 1 == 1 {
                assert_eq!(bytes.0, bytes.1, "seed {seed}: byte {at}, in a row that was cleared");
            } else {
                assert_eq!((*bytes.0, *bytes.1), (starts[0][at], starts[1][at]), "seed {seed}: byte {at}");
            }
        }
        ends[usize::from(one.refusal.is_some())] += 1;
    }
    assert!(ends.iter().all(|&count| count >= 2_000), "too few runs end so: {ends:?}");
}

/// The longest list is run, one word more is refused. After a later ZERO, the words before it would not count.
#[test]
fn run_longest_lists() {
    let mut ends = Vec::new();
    for seed in seeds(200) {
        let random = &mut Random::new(seed);
        let case = Case::new(random, &[16]);
        let mut words = vec![sample::ZERO_ALL];
        words.extend((0..MOST_WORDS).map(|_| sample::outer_product(random)));
        ends.push(run_both(seed, &case, &words[..MOST_WORDS]));
        ends.push(run_both(seed, &case, &words));
    }
    for end in [(MOST_WORDS, None), (0, Some(Refused::by(6)))] {
        assert!(ends.iter().filter(|&&e| e == end).count() >= 50, "{end:?} is too rare");
    }
}

/// Any two words get the same answer, whichever comes first.
#[test]
fn order_matters() {
    let mut answers = [0; 2];
    for seed in seeds(1_000_000) {
        let random = &mut Random::new(seed);
        let flags = if random.chance(4) { sample::flags(random) } else { 15 };
        let [a, b] = [(); 2].map(|()| sample::word(random, 7));
        let expected = pseudocode::order_matters(flags, a, b);
        let given = [(a, b), (b, a)].map(|(first, second)| birdaghol::order_matters(flags, first, second));
        assert_eq!(given, [expected; 2], "seed {seed}: flags {flags}, words {a:08x} and {b:08x}");
        answers[usize::from(expected)] += 1;
    }
    assert!(answers.iter().all(|&count| count >= 50_000), "an answer is too rare: {answers:?}");
}

/// Where the order of two outer products matters, both orders end differently on vectors of ones, predicates of all
/// bits, and a ZA just short of the 32-bit word's carry or borrow. Where it does not, they end alike on random contents.
#[test]
fn both_orders() {
    let mut ends = [[0; 2]; 5];
    for seed in seeds(40_000) {
        let random = &mut Random::new(seed);
        let vb = random.pick(&LENGTHS);
        let bench = Bench { flags: 15, streaming: true, za_on: true, vb };
        let words = [(); 2].map(|()| sample::outer_product(random));
        let matters = birdaghol::order_matters(15, words[0], words[1]);
        let [z, p, start] = if matters {
            let byte = if words.into_iter().any(narrow_subtracts) { 0x00 } else { 0xFF };
            [vec![1; 32 * vb], vec![0xFF; 2 * vb], vec![byte; vb * vb]]
        } else {
            [32 * vb, 2 * vb, vb * vb].map(|length| random.bytes(length))
        };

        let [one, other] = [[0, 1], [1, 0]].map(|order| {
            let mut za = start.clone();
            for place in order {
                birdaghol::execute(bench, &z, &p, &mut za, words[place]).expect("an outer product");
            }
            za
        });
        assert_eq!(one != other, matters, "seed {seed}: vb {vb}, words {:08x} and {:08x}", words[0], words[1]);
        ends[vb.ilog2() as usize - 4][usize::from(matters)] += 1;
    }
    assert!(ends.iter().flatten().all(|&count| count >= 300), "too few pairs of a kind at a length: {ends:?}");
}

/// Whether a word is an outer product that subtracts from a 32-bit tile.
fn narrow_subtracts(word: u32) -> bool {
    let decoded = pseudocode::decode(15, word);
    matches!(decoded, Ok(Instruction::Outer(OuterProduct { element_bytes: 4, subtract: true, .. })))
}

/// Runs a list on both sides: the number of words executed, and the refusal.
fn run_both(seed: u64, case: &Case, words: &[u32]) -> (usize, Option<Refused>) {
    let before = words.to_vec();
    let label = format!("seed {seed}: {:?}, {} words", case.bench, words.len());
    let ended = compare(
        case,
        &label,
        |z, p, za| pseudocode::run(case.bench, z, p, za, words),
        |z, p, za| {
            let ended = birdaghol::run(sample::bench(case.bench), z, p, za, words);
            (ended.count, ended.refusal.map(refused))
        },
    );
    assert_eq!(words, before, "{label}: the list was written");
    ended
}

/// Gives both sides the same buffers, and compares their answers and every byte that they leave.
fn compare<T: PartialEq + Debug>(
    case: &Case,
    label: &str,
    reference: impl FnOnce(&[u8], &[u8], &mut [u8]) -> T,
    library: impl FnOnce(&[u8], &[u8], &mut [u8]) -> T,
) -> T {
    let mut left = case.za.clone();
    let expected = reference(&case.z, &case.p, &mut left);
    let [mut z, mut p, mut za] = [&case.z, &case.p, &case.za].map(|bytes| Guarded::new(bytes));
    let answer = library(z.lend(), p.lend(), za.lend());
    assert_eq!(answer, expected, "{label}");
    assert!(za.holds(&left), "{label}: another ZA, or a guard fell");
    assert!(z.holds(&case.z) && p.holds(&case.p), "{label}: Z or P was written");
    expected
}

/// The library's description for an instruction of the independent implementation.
fn described(instruction: Instruction) -> birdaghol::Instruction {
    let OuterProduct { element_bytes, products, first_unsigned, second_unsigned, subtract, tile, sources } =
        match instruction {
            Instruction::Outer(op) => op,
            Instruction::Zero { mask } => return birdaghol::Instruction::Zero { mask },
        };
    let op = Operation { element_bytes, products, first_unsigned, second_unsigned, subtract };
    let source = |pseudocode::Source { register, pair }| match pair {
        false => Source::One(register),
        true => Source::Pair(register),
    };
    match sources {
        Sources::Predicated { pn, pm, zn, zm } => birdaghol::Instruction::Predicated { op, tile, pn, pm, zn, zm },
        Sources::Quarter { first, second } => {
            birdaghol::Instruction::Quarter { op, tile, first: source(first), second: source(second) }
        }
    }
}
