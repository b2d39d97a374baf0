//! Holds what the library writes and reads of capture files against the independent implementation: every byte of good
//! captures, of wrong ones and of damaged files.

#[allow(dead_code)]
#[path = "../src/abi.rs"]
mod abi;
#[allow(dead_code, unused_imports)]
mod pseudocode;
#[allow(dead_code, unused_imports)]
mod sample;

use birdaghol::{Bench, Capture, Contents, LONGEST_CAPTURE};
use pseudocode::{MOST_WORDS, Refused};
use sample::{Case, FILE_DAMAGES, Guarded, LENGTHS, Random, Tally, packed, refused, seeds};
use std::array;
use std::fmt::Arguments;

/// The words of the small file, which stands on vectors of 16 bytes.
const SMALL_WORDS: [u32; 3] = [0xC008_00FF, 0xA0A0_0000, 0xDEAD_BEEF];

/// The bytes of the small file: its frame, words, Z, P and ZA.
const SMALL_LENGTH: usize = 25 + 12 + 512 + 32 + 256;

/// Captures right and wrong, in rooms of any length.
#[test]
fn write() {
    let mut tally = Tally::default();
    for seed in seeds(20_000) {
        let random = &mut Random::new(seed);
        let case = Case::new(random, &LENGTHS);
        let more = if random.chance(50) { MOST_WORDS + 1 } else { 0 };
        let count = more + count(random, 16);
        let words = words(random, count);
        let length = sample::capture_length(&case, &words);
        let room = random.pick(&[0, 1, length / 2, length - 1, length, length, length, length + 1, length + 99]);
        let room = random.bytes(room);
        match write_both(format_args!("seed {seed}"), &case, &words, &room) {
            Ok(_) => tally.accept_at(case.bench.vb, 1),
            Err(refused) => tally.refuse(refused),
        }
    }
    tally.assert_refusals(&[1, 2, 3, 4, 5, 6, 12], 200);
    tally.assert_lengths(500);
}

/// Good files, into buffers of any lengths.
#[test]
fn read() {
    let mut tally = Tally::default();
    for seed in seeds(20_000) {
        let random = &mut Random::new(seed);
        let (case, words) = legal(random);
        let rooms = rooms(random, &case, &words);
        let answer = read_both(format_args!("seed {seed}"), &sample::capture(&case, &words), &rooms);
        tally_read(&mut tally, answer);
    }
    tally.assert_refusals(&[12], 2_000);
    tally.assert_lengths(500);
}

/// Damaged files, into buffers of any lengths; a file that is no capture is refused before they are looked at.
#[test]
fn read_damaged() {
    let mut tally = Tally::default();
    for seed in seeds(40_000) {
        let random = &mut Random::new(seed);
        let (case, words) = legal(random);
        let (file, rooms) = (sample::capture(&case, &words), rooms(random, &case, &words));
        let damage = random.pick(&FILE_DAMAGES);
        let damaged = (damage.harm)(random, file.clone());
        let answer = read_both(format_args!("seed {seed}, {}", damage.name), &damaged, &rooms);
        if damaged != file {
            tally.damage(damage, !matches!(answer, Err(Refused { number: 15 | 16, .. })));
            tally_read(&mut tally, answer);
        }
    }
    tally.assert_refusals(&[12, 15, 16], 1_000);
    tally.assert_damaged(&FILE_DAMAGES, 1_000, 50);
}

/// A changed byte of words, Z, P or ZA leaves a capture, and so do other flags up to 15 and other modes up to 3.
#[test]
fn every_byte_changed() {
    let file = small();
    let changes = (0..file.len()).flat_map(|at| (1..=255).map(move |by| (at, by)));
    let files = changes.map(|(at, by)| {
        let mut other = file.clone();
        other[at] ^= by;
        other
    });
    let (contents, lengths, vector_length) = (SMALL_LENGTH - 25, 20, 2);
    let no_capture = (lengths + vector_length) * 255 + 240 + 252;
    assert_eq!(ends(16, files), [contents * 255 + 15 + 3, 255, no_capture]);
}

/// Cut at every length, the empty file among them.
#[test]
fn every_cut() {
    let file = small();
    assert_eq!(ends(16, (0..file.len()).map(|length| file[..length].to_vec())), [0, 0, SMALL_LENGTH]);
}

/// Every byte behind a file, up to 300 of them, the same file again, and one of its parts again.
#[test]
fn bytes_left_over() {
    let file = small();
    let bytes = (0..=255).map(|byte| vec![byte]).chain((2..=300).map(|count| vec![0; count]));
    let again = [file.clone(), file[1..].to_vec(), file[SMALL_LENGTH - 260..].to_vec()];
    let files = bytes.chain(again).map(|more| [&file[..], &more].concat());
    assert_eq!(ends(16, files), [0, 0, 256 + 299 + 3]);
}

/// Five lengths, each with 25 lies; but of the last part all the rest is the truth.
#[test]
fn every_length_lying() {
    let file = small();
    let files = sample::lies(&file).into_iter().map(|lie| sample::with_lie(file.clone(), lie));
    assert_eq!(ends(16, files), [0, 0, 5 * 25 - 1]);
}

/// Every part with every other length up to eight bytes more, said as it is: words may be any multiple of 4.
#[test]
fn parts_of_other_lengths() {
    let parts = sample::parts(&small());
    let lengths = (0..5).flat_map(|at| (0..=parts[at].len() + 8).map(move |length| (at, length)));
    let files = lengths.filter(|&(at, length)| length != parts[at].len()).map(|(at, length)| {
        let mut others = parts.clone();
        others[at].resize(length, 0);
        sample::joined(&others)
    });
    assert_eq!(ends(16, files), [5, 0, 12 + 15 + 520 + 40 + 264]);
}

/// One to four bytes more in a part and as many fewer in its neighbour, so that the file has the same length.
#[test]
fn parts_split_elsewhere() {
    let parts = sample::parts(&small());
    let splits = (0..4).flat_map(|at| (1..=4).flat_map(move |by| [(at, by, true), (at, by, false)]));
    let files = splits.map(|(at, by, forth)| {
        let mut others = parts.clone();
        let both = [&parts[at][..], &parts[at + 1]].concat();
        let first = if forth { parts[at].len() + by } else { parts[at].len() - by };
        others[at] = both[..first].to_vec();
        others[at + 1] = both[first..].to_vec();
        sample::joined(&others)
    });
    assert_eq!(ends(16, files), [0, 0, 32]);
}

/// Every choice of fewer than five parts, and one part twice, an empty one more, or a capture more.
#[test]
fn other_numbers_of_parts() {
    let parts = sample::parts(&small());
    let some = (0..31).map(|chosen| (0..5).filter(|at| chosen >> at & 1 == 1).map(|at| parts[at].clone()).collect());
    let with = |at: usize, part: &[u8]| {
        let mut others = parts.clone();
        others.insert(at, part.to_vec());
        others
    };
    let twice = (0..5).map(|at| with(at, &parts[at]));
    let more = (0..=5).flat_map(|at| [with(at, &[]), with(at, &small())]);
    let files = some.chain(twice).chain(more).map(|parts: Vec<Vec<u8>>| sample::joined(&parts));
    assert_eq!(ends(16, files), [0, 0, 31 + 5 + 12]);
}

/// Every order of the parts: those of one length can stand for each other, and a first part for one word that is a bench.
#[test]
fn every_order_of_parts() {
    for (vb, count, good) in
        [(16, 3, 1), (16, 8, 2), (16, 64, 2), (16, 128, 2), (32, 3, 2), (32, 256, 6), (64, 3, 1), (64, 32, 2)]
    {
        let random = &mut Random::new(count as u64);
        let file = sample::capture(&Case::legal(random, &[vb]), &words(random, count));
        assert_eq!(ends(vb, orders(&file)), [good, 0, 120 - good], "vb {vb}, {count} words");
    }
    let case = Case::legal(&mut Random::new(1), &[16]);
    assert_eq!(ends(16, orders(&sample::capture(&case, &[0x0703_0010]))), [2, 0, 118], "a word that is a bench");
}

/// Every vector length that the file can say, beside parts for 16.
#[test]
fn every_vector_length() {
    let file = small();
    let files = (0..=u16::MAX).map(|vb| [&file[..7], &vb.to_be_bytes(), &file[9..]].concat());
    assert_eq!(ends(16, files), [1, 0, 65_535]);
}

/// Every other version, before the rest of a capture and before what is no capture.
#[test]
fn every_other_version() {
    let file = small();
    let lying = sample::with_lie(file.clone(), (1, 5));
    let rests = [&file[1..], &file[1..9], &lying[1..], &[], &file];
    let versions = (0..=255_u8).filter(|&version| version != 1);
    let files = versions.flat_map(|version| rests.map(|rest| [&[version], rest].concat()));
    assert_eq!(ends(16, files), [0, 5 * 255, 0]);
}

/// Each of the four buffers empty, too short by one, just long enough, and longer, in every combination: 12 wherever one is
/// too short, but 16 of a file that is no capture, and 15 of another version.
#[test]
fn every_room() {
    let file = small();
    let (cut, other) = (&file[..SMALL_LENGTH - 1], [&[2], &file[1..]].concat());
    let exact = [3, 512, 32, 256];
    let mut good = 0;
    for choice in 0..5_usize.pow(4) {
        let lengths = array::from_fn(|at| {
            let length = exact[at];
            [0, length - 1, length, length + 1, length + 61][choice / 5_usize.pow(at as u32) % 5]
        });
        let enough = lengths.iter().zip(exact).all(|(&length, exact)| length >= exact);
        let rooms = Rooms::new(&mut Random::new(choice as u64), lengths);
        let number = |file| read_both(format_args!("lengths {lengths:?}"), file, &rooms).err().map(|by| by.number);
        let expected = if enough { None } else { Some(12) };
        assert_eq!([&file, cut, &other].map(number), [expected, Some(16), Some(15)], "lengths {lengths:?}");
        good += usize::from(enough);
    }
    assert_eq!(good, 81);
}

/// No word, one, as many as there may be and one more, at every vector length, from and to buffers that are longer.
#[test]
fn longest() {
    let mut longest = 0;
    for (seed, vb) in (0..).zip([16, 32, 64, 128, 256]) {
        let random = &mut Random::new(seed);
        let case = Case::legal(random, &[vb]);
        let words = words(random, MOST_WORDS + 1);
        let lengths = [MOST_WORDS + 9, 32 * vb + 9, 2 * vb + 9, vb * vb + 9];
        let rooms = Rooms::new(random, lengths);
        let room = random.bytes(LONGEST_CAPTURE + 9);
        for count in [0, 1, MOST_WORDS - 1, MOST_WORDS] {
            let file = sample::capture(&case, &words[..count]);
            longest = longest.max(file.len());
            let written = write_both(format_args!("vb {vb}"), &case, &words[..count], &room);
            assert_eq!(written, Ok(file.len()), "vb {vb}, {count} words");
            let contents = Contents { bench: sample::bench(case.bench), words: count };
            assert_eq!(read_both(format_args!("vb {vb}"), &file, &rooms), Ok(contents), "vb {vb}, {count} words");
        }

        assert_eq!(write_both(format_args!("vb {vb}"), &case, &words, &room), Err(Refused::by(6)));
        let mut parts = sample::parts(&sample::capture(&case, &words[..MOST_WORDS]));
        parts[1].extend([0; 4]);
        assert_eq!(read_both(format_args!("vb {vb}"), &sample::joined(&parts), &rooms), Err(Refused::by(16)));
    }
    assert_eq!(longest, LONGEST_CAPTURE);
}

/// A capture runs on its own ZA, and can be written again.
#[test]
fn run() {
    let mut ends = [0; 2];
    for seed in seeds(2_000) {
        let random = &mut Random::new(seed);
        let case = Case::legal(random, &LENGTHS);
        let mut words = sample::zeros(random);
        words.extend((0..random.below(9)).map(|_| sample::word(random, 8)));
        let mut capture = Capture::read(&sample::capture(&case, &words)).expect("a capture");
        let ended = capture.run();

        let mut left = case;
        let expected = pseudocode::run(left.bench, &left.z, &left.p, &mut left.za, &words);
        assert_eq!((ended.count, ended.refusal.map(refused)), expected, "seed {seed}");
        assert!(capture.write() == Ok(sample::capture(&left, &words)), "seed {seed}: another file");
        ends[usize::from(ended.refusal.is_some())] += 1;
    }
    assert!(ends.iter().all(|&count| count >= 200), "too few runs end so: {ends:?}");
}

/// Buffers that a file is read to.
#[derive(Clone)]
struct Rooms {
    words: Vec<u32>,
    z: Vec<u8>,
    p: Vec<u8>,
    za: Vec<u8>,
}

impl Rooms {
    /// Random contents of these lengths.
    fn new(random: &mut Random, [words, z, p, za]: [usize; 4]) -> Rooms {
        let words = self::words(random, words);
        let [z, p, za] = [z, p, za].map(|length| random.bytes(length));
        Rooms { words, z, p, za }
    }
}

/// The words, Z, P and ZA of a capture, or buffers for them, between guards.
struct Lent {
    words: Guarded<u32>,
    bytes: [Guarded<u8>; 3],
}

impl Lent {
    /// Copies between guards.
    fn new(words: &[u32], bytes: [&[u8]; 3]) -> Lent {
        Lent { words: Guarded::new(words), bytes: bytes.map(Guarded::new) }
    }

    /// The buffers without their guards.
    fn lend(&mut self) -> (&mut [u32], [&mut [u8]; 3]) {
        (self.words.lend(), self.bytes.each_mut().map(Guarded::lend))
    }

    /// Whether the buffers hold this and all guards stand.
    fn hold(&self, words: &[u32], bytes: [&[u8]; 3]) -> bool {
        self.words.holds(words) && self.bytes.iter().zip(bytes).all(|(lent, bytes)| lent.holds(bytes))
    }
}

/// Writes a capture on both sides, as Rust and as C do it, and compares answers and every byte of the room; the capture must
/// stay as it was. Where there is a file, the capture is read of it.
fn write_both(label: Arguments, case: &Case, words: &[u32], room: &[u8]) -> Result<usize, Refused> {
    let Case { bench, z, p, za } = case;
    let mut left = room.to_vec();
    let expected = pseudocode::capture::write(*bench, words, z, p, za, &mut left);

    let bench = sample::bench(*bench);
    let (mut lent, mut file) = (Lent::new(words, [z, p, za]), Guarded::new(room));
    let answer = write_lent(bench, lent.lend(), file.lend());
    assert_eq!(answer, expected, "{label}: {bench:?}");
    assert!(file.holds(&left), "{label}: other bytes, or a guard fell");
    assert!(lent.hold(words, [z, p, za]), "{label}: the capture was written, or a guard fell");

    let capture = Capture { bench, words: words.to_vec(), z: z.clone(), p: p.clone(), za: za.clone() };
    match capture.write() {
        Ok(file) => {
            let fits = if file.len() <= room.len() { Ok(file.len()) } else { Err(Refused::by(12)) };
            assert_eq!(expected, fits, "{label}");
            assert!(Capture::read(&file) == Ok(capture), "{label}: another capture is read");
        }
        Err(refusal) => assert_eq!(expected, Err(refused(refusal)), "{label}"),
    }
    expected
}

/// Writes to the same room twice, by the safe function and as C does it; both must answer the same.
fn write_lent(bench: Bench, lent: (&mut [u32], [&mut [u8]; 3]), file: &mut [u8]) -> Result<usize, Refused> {
    let (words, [z, p, za]) = lent;
    let answer = birdaghol::capture_write(bench, words, z, p, za, file).map_err(refused);
    // SAFETY: each address stands beside the length of its own slice; `file`, the only one written, is lent alone.
    let number = unsafe {
        abi::birdaghol_capture_write(
            bench.flags,
            bench.streaming,
            bench.za_on,
            bench.vb,
            words.as_ptr(),
            words.len(),
            z.as_ptr(),
            z.len(),
            p.as_ptr(),
            p.len(),
            za.as_ptr(),
            za.len(),
            file.as_mut_ptr(),
            file.len(),
        )
    };
    assert_eq!(number, packed(answer.map(|length| length as u64)));
    answer
}

/// Reads a file on both sides, as Rust and as C do it, and compares answers and every element of the buffers; the file must
/// stay as it was. Where there is a capture, the file is written of it.
fn read_both(label: Arguments, file: &[u8], rooms: &Rooms) -> Result<Contents, Refused> {
    let mut left = rooms.clone();
    let expected = pseudocode::capture::read(file, &mut left.words, &mut left.z, &mut left.p, &mut left.za);
    let expected = expected.map(|(bench, words)| Contents { bench: sample::bench(bench), words });

    let (mut lent, mut whole) = (Lent::new(&rooms.words, [&rooms.z, &rooms.p, &rooms.za]), Guarded::new(file));
    let answer = read_lent(whole.lend(), lent.lend());
    assert_eq!(answer, expected, "{label}");
    assert!(lent.hold(&left.words, [&left.z, &left.p, &left.za]), "{label}: other contents, or a guard fell");
    assert!(whole.holds(file), "{label}: the file was written, or a guard fell");

    let again = Capture::read(file).and_then(|capture| capture.write());
    match expected {
        Err(by @ Refused { number: 15 | 16, .. }) => assert!(again.map_err(refused) == Err(by), "{label}"),
        _ => assert!(again.as_deref() == Ok(file), "{label}: another file is written"),
    }
    expected
}

/// Reads to the same buffers twice, by the safe function and as C does it; both must answer the same.
fn read_lent(file: &[u8], lent: (&mut [u32], [&mut [u8]; 3])) -> Result<Contents, Refused> {
    let (words, [z, p, za]) = lent;
    let answer = birdaghol::capture_read(file, words, z, p, za).map_err(refused);
    // SAFETY: each address stands beside the length of its own slice; those that are written are each lent alone.
    let number = unsafe {
        abi::birdaghol_capture_read(
            file.as_ptr(),
            file.len(),
            words.as_mut_ptr(),
            words.len(),
            z.as_mut_ptr(),
            z.len(),
            p.as_mut_ptr(),
            p.len(),
            za.as_mut_ptr(),
            za.len(),
        )
    };
    let value = |Contents { bench, words }: Contents| {
        let modes = u64::from(bench.streaming) + 2 * u64::from(bench.za_on);
        words as u64 * 65536 + bench.vb as u64 * 64 + modes * 16 + u64::from(bench.flags)
    };
    assert_eq!(number, packed(answer.map(value)));
    answer
}

/// Counts what came of a file.
fn tally_read(tally: &mut Tally, answer: Result<Contents, Refused>) {
    match answer {
        Ok(contents) => tally.accept_at(contents.bench.vb, 1),
        Err(refused) => tally.refuse(refused),
    }
}

/// How many files are captures, how many have another version, and how many are no captures, read to buffers with room for
/// 300 words on vectors of so many bytes.
fn ends(vb: usize, files: impl IntoIterator<Item = Vec<u8>>) -> [usize; 3] {
    let rooms = Rooms::new(&mut Random::new(vb as u64), [300, 32 * vb + 5, 2 * vb + 5, vb * vb + 5]);
    let mut ends = [0; 3];
    for (number, file) in files.into_iter().enumerate() {
        match read_both(format_args!("file {number}"), &file, &rooms) {
            Ok(_) => ends[0] += 1,
            Err(Refused { number: 15, .. }) => ends[1] += 1,
            Err(refused) => {
                assert_eq!(refused, Refused::by(16), "file {number}");
                ends[2] += 1;
            }
        }
    }
    ends
}

/// The small file, with random Z, P and ZA.
fn small() -> Vec<u8> {
    let file = sample::capture(&Case::legal(&mut Random::new(20), &[16]), &SMALL_WORDS);
    assert_eq!(file.len(), SMALL_LENGTH);
    file
}

/// The files of the same parts in every order, the right one too.
fn orders(file: &[u8]) -> impl Iterator<Item = Vec<u8>> {
    let parts = sample::parts(file);
    let choices = (0..5_usize.pow(5)).map(|n| [n / 625, n / 125 % 5, n / 25 % 5, n / 5 % 5, n % 5]);
    let orders = choices.filter(|order| (0..5).all(|part| order.contains(&part)));
    orders.map(move |order| sample::joined(&order.map(|at| parts[at].clone())))
}

/// A legal capture: a case and its words.
fn legal(random: &mut Random) -> (Case, Vec<u32>) {
    let case = Case::legal(random, &LENGTHS);
    let count = count(random, case.bench.vb);
    (case, words(random, count))
}

/// A number of words: mostly few, else so many that they have the length of P, or as many as there may be.
fn count(random: &mut Random, vb: usize) -> usize {
    match random.below(40) {
        0 => MOST_WORDS,
        1..=8 => vb / 2,
        _ => random.below(33) as usize,
    }
}

/// So many random words.
fn words(random: &mut Random, count: usize) -> Vec<u32> {
    (0..count).map(|_| random.u32()).collect()
}

/// Buffers for a capture, each now and then empty, too short by one, or longer.
fn rooms(random: &mut Random, case: &Case, words: &[u32]) -> Rooms {
    let lengths = [words.len(), case.z.len(), case.p.len(), case.za.len()].map(|length| match random.below(16) {
        0 => 0,
        1 => length.saturating_sub(1),
        2..=5 => length + 1 + random.below(99) as usize,
        _ => length,
    });
    Rooms::new(random, lengths)
}
