//! Holds the program `replay`, which `tools/build replay` leaves in target/bin, against the independent implementation: the
//! capture that it writes, and its report.

#[allow(dead_code, unused_imports)]
mod pseudocode;
#[allow(dead_code, unused_imports)]
mod sample;

use birdaghol::{LONGEST_CAPTURE, Refusal};
use pseudocode::{Bench, MOST_WORDS, Refused};
use sample::{Case, FILE_DAMAGES, Random, Tally, seeds};
use std::fmt::Arguments;
use std::fs;
use std::io::Write;
use std::path::Path;
use std::thread;

/// The features, each with its flag.
const FEATURES: [(u32, &str); 4] = [(1, "SME"), (2, "I16I64"), (4, "MOP4"), (8, "SME2")];

/// What comes of a file: a capture on standard output, or nothing, and a report on standard error.
#[derive(Debug, PartialEq)]
struct Replayed {
    capture: Vec<u8>,
    report: String,
}

/// Captures at every vector length, with lists that end well and lists that stop.
#[test]
fn captures() {
    let mut tally = Tally::default();
    let mut changed = [0; 2];
    for seed in seeds(400) {
        let random = &mut Random::new(seed);
        let case = Case::legal(random, &[16 << (seed % 5)]);
        let words = list(random);
        let replayed = replay_both(format_args!("seed {seed}"), &sample::capture(&case, &words));
        match run(&case, &words).1 {
            Some(refused) => tally.refuse(refused),
            None => tally.accept_at(case.bench.vb, 1),
        }
        changed[usize::from(!replayed.report.ends_with("\nbytes of ZA changed: 0\n"))] += 1;
    }
    tally.assert_refusals(&[7, 8, 9, 10, 14], 10);
    tally.assert_lengths(10);
    assert!(changed.iter().all(|&count| count >= 50), "too few captures end so: {changed:?}");
}

/// Damaged files: those that are no captures have no output but the refusal. On vectors of 32 bytes Z and ZA have the same
/// length, so that either can stand for the other.
#[test]
fn damaged_files() {
    let mut tally = Tally::default();
    for seed in seeds(1_200) {
        let random = &mut Random::new(seed);
        let (case, words) = (Case::legal(random, &[32]), list(random));
        let file = sample::capture(&case, &words);
        let damage = random.pick(&FILE_DAMAGES);
        let damaged = (damage.harm)(random, file.clone());
        let replayed = replay_both(format_args!("seed {seed}, {}", damage.name), &damaged);
        let number = ["refused 15: ", "refused 16: "].iter().position(|start| replayed.report.starts_with(start));
        if let Some(number) = number {
            assert!(replayed.capture.is_empty(), "seed {seed}: a refused file was written");
            tally.refuse(Refused::by(15 + number as u32));
        }
        if damaged != file {
            tally.damage(damage, number.is_none());
        }
    }
    tally.assert_refusals(&[15, 16], 40);
    tally.assert_damaged(&FILE_DAMAGES, 40, 1);
}

/// What is said of files that are refused, and of files that are longer than the program reads.
#[test]
fn refusals() {
    let (version, format) =
        ("refused 15: the file has another version than 1\n", "refused 16: the file is no capture\n");
    let [long, long_other] = [1, 2].map(|version| [vec![version], vec![0; 1 << 22]].concat());
    let cases: [(&[u8], &str); 6] = [
        (&[], format),
        (&[1], format),
        (&[0], version),
        (&[2, 0, 0, 0, 4], version),
        (&long, format),
        (&long_other, version),
    ];
    for (file, report) in cases {
        let replayed = replay_both(format_args!("{} bytes", file.len()), file);
        assert_eq!(replayed, Replayed { capture: Vec::new(), report: report.into() });
    }
}

/// The longest file, and the longest list of outer products.
#[test]
fn longest() {
    let random = &mut Random::new(1);
    let mut words = vec![sample::ZERO_ALL];
    words.extend((1..MOST_WORDS).map(|_| sample::outer_product(random)));
    replay_both(format_args!("vb 16"), &sample::capture(&Case::legal(random, &[16]), &words));
    // The other words clear nothing, so that most of what the first ones leave stands at the end.
    words[99..].fill(0xC008_0000);
    let file = sample::capture(&Case::legal(random, &[256]), &words);
    assert_eq!(file.len(), LONGEST_CAPTURE);
    replay_both(format_args!("vb 256"), &file);
}

/// A report, line by line: a list that stops at its fourth word, and why.
#[test]
fn report_by_hand() {
    let bench = Bench { flags: 15, streaming: true, za_on: true, vb: 16 };
    let case = Case { bench, z: vec![0; 512], p: vec![0; 32], za: vec![0xA5; 256] };
    let words = [0xC008_0008, 0xC008_0000, 0xC008_0001, 0xA0A0_0000, 0xC008_00FF];
    let report = "flags 15 SME I16I64 MOP4 SME2\n\
                  streaming mode on, ZA on\n\
                  vector length 16 bytes\n\
                  words 5, executed 3\n\
                  stopped at word 4, a0a00000, sumopa za0.s, p0/m, p0/m, z0.b, z0.b\n\
                  refused 14: the tile has a row that no earlier ZERO of the list cleared\n\
                  bytes of ZA changed: 64, za0.d 32, za3.d 32\n";
    assert_eq!(replay_both(format_args!("by hand"), &sample::capture(&case, &words)).report, report);

    let bench = Bench { flags: 1, streaming: false, za_on: false, ..bench };
    let report = "flags 1 SME\n\
                  streaming mode off, ZA off\n\
                  vector length 16 bytes\n\
                  words 1, executed 0\n\
                  stopped at word 1, a1c0001f, usmop4s za7.d, z0.h, z16.h\n\
                  refused 8: needs I16I64 and MOP4\n\
                  bytes of ZA changed: 0\n";
    let file = sample::capture(&Case { bench, ..case }, &[0xA1C0_001F]);
    assert_eq!(replay_both(format_args!("by hand"), &file).report, report);
}

/// A read that fails is no end: nothing is replayed, though all of a capture came before it.
#[test]
fn failed_read() {
    let random = &mut Random::new(1);
    let file = sample::capture(&Case::legal(random, &[16]), &[sample::ZERO_ALL]);
    let ended = sample::interrupt("replay", &file);
    let told = String::from_utf8_lossy(&ended.stderr);
    assert_eq!(told, "the input can't be read to its end, and is not replayed\n");
    assert!(ended.stdout.is_empty());
}

/// The gate compares the program's output with a stored file: that is what the independent implementation makes too.
#[test]
fn stored_files() {
    let folder = Path::new(env!("CARGO_MANIFEST_DIR")).join("../crates/replay");
    let [file, stored] = ["stdin", "stdout"].map(|name| fs::read(folder.join(name)).expect("a stored file"));
    assert!(replay_both(format_args!("stored"), &file).capture == stored, "another capture is stored");
}

/// A list that begins with ZEROs, mostly enough of them, and has a word that is not listed now and then.
fn list(random: &mut Random) -> Vec<u32> {
    let mut words = sample::zeros(random);
    let good = random.pick(&[7, 8, 8]);
    words.extend((0..random.below(33)).map(|_| sample::word(random, good)));
    words
}

/// How a list ends on a case, which stays as it is.
fn run(case: &Case, words: &[u32]) -> (usize, Option<Refused>) {
    pseudocode::run(case.bench, &case.z, &case.p, &mut case.za.clone(), words)
}

/// What the program makes of a file, which must be what the independent implementation does.
fn replay_both(label: Arguments, file: &[u8]) -> Replayed {
    let (expected, replayed) = (expect(file), replay(file));
    assert_eq!(replayed.report, expected.report, "{label}");
    assert!(replayed.capture == expected.capture, "{label}: another capture");
    replayed
}

/// What the program writes to standard output and standard error.
fn replay(file: &[u8]) -> Replayed {
    let mut child = sample::start("replay");
    let mut input = child.stdin.take().expect("a pipe");
    let ended = thread::scope(|scope| {
        // A file that is too long is not read to its end.
        scope.spawn(move || _ = input.write_all(file));
        child.wait_with_output().expect("the program ends")
    });
    assert!(ended.status.success(), "{}", ended.status);
    Replayed { capture: ended.stdout, report: String::from_utf8(ended.stderr).expect("ASCII") }
}

/// What the independent implementation makes of a file: the capture with ZA as the run left it, and the report.
fn expect(file: &[u8]) -> Replayed {
    let mut words = vec![0; MOST_WORDS];
    let [mut z, mut p, mut za] = [32 * 256, 2 * 256, 256 * 256].map(|length| vec![0; length]);
    let (bench, count) = match pseudocode::capture::read(file, &mut words, &mut z, &mut p, &mut za) {
        Ok(contents) => contents,
        Err(refused) => return Replayed { capture: Vec::new(), report: refusal(refused) },
    };
    words.truncate(count);
    z.truncate(32 * bench.vb);
    p.truncate(2 * bench.vb);
    za.truncate(bench.vb * bench.vb);

    let mut case = Case { bench, z, p, za };
    let before = case.za.clone();
    let (executed, refused) = pseudocode::run(bench, &case.z, &case.p, &mut case.za, &words);
    let report = [settings(bench), end(&words, executed, refused), changes(bench.vb, &before, &case.za)].concat();
    Replayed { capture: sample::capture(&case, &words), report }
}

/// The lines for the bench.
fn settings(bench: Bench) -> String {
    let on = |mode| if mode { "on" } else { "off" };
    let features: String = features(bench.flags).iter().map(|name| format!(" {name}")).collect();
    let (streaming, za) = (on(bench.streaming), on(bench.za_on));
    let flags = format!("flags {}{features}\n", bench.flags);
    flags + &format!("streaming mode {streaming}, ZA {za}\nvector length {} bytes\n", bench.vb)
}

/// The lines for the run, and for the word where it stopped; its text has nothing to do with the features that are on.
fn end(words: &[u32], executed: usize, refused: Option<Refused>) -> String {
    let mut lines = format!("words {}, executed {executed}\n", words.len());
    if let Some(refused) = refused {
        let word = words[executed];
        let text = pseudocode::decode(15, word).map_or(String::new(), |instruction| format!(", {instruction}"));
        lines += &format!("stopped at word {}, {word:08x}{text}\n", executed + 1);
        lines += &refusal(refused);
    }
    lines
}

/// The line for a refusal: the sentence is the library's, but for 8.
fn refusal(refused: Refused) -> String {
    let meaning = match refused.number {
        7 => Refusal::Unlisted.to_string(),
        8 => format!("needs {}", features(refused.missing).join(" and ")),
        9 => Refusal::StreamingOff.to_string(),
        10 => Refusal::ZaOff.to_string(),
        14 => Refusal::NotCleared.to_string(),
        15 => Refusal::Version.to_string(),
        16 => Refusal::Format.to_string(),
        other => unreachable!("a capture and its words are not refused by {other}"),
    };
    format!("refused {}: {meaning}\n", refused.number)
}

/// The line for the bytes of ZA that differ, and for those in the rows of each 64-bit tile, every eighth of which is its own.
fn changes(vb: usize, before: &[u8], after: &[u8]) -> String {
    let mut tiles = [0; 8];
    let rows = before.chunks_exact(vb).zip(after.chunks_exact(vb));
    for (row, (before, after)) in rows.enumerate() {
        tiles[row % 8] += before.iter().zip(after).filter(|(old, new)| old != new).count();
    }
    let changed = tiles.iter().enumerate().filter(|&(_, &bytes)| bytes > 0);
    let parts: String = changed.map(|(tile, bytes)| format!(", za{tile}.d {bytes}")).collect();
    format!("bytes of ZA changed: {}{parts}\n", tiles.iter().sum::<usize>())
}

/// The features of a sum of flags, by name.
fn features(flags: u32) -> Vec<&'static str> {
    FEATURES.into_iter().filter(|(flag, _)| flags & flag != 0).map(|(_, name)| name).collect()
}
