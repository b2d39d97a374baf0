//! The bench examples of the rules, through the safe functions.

use birdaghol::{
    Bench, Capture, Contents, Ended, Instruction, LONGEST_CAPTURE, Operation, Refusal, Source, capture_read,
    capture_write, decode, describe, encode, execute, order_matters, print, read, run,
};
use std::array;

/// Every feature and both modes on, vectors of 16 bytes.
const BENCH: Bench = Bench { flags: 15, streaming: true, za_on: true, vb: 16 };

/// The clearing of all of ZA.
const ZERO: u32 = 0xC008_00FF;

/// A word with one of the longest texts.
const LONGEST: u32 = 0x811E_8352;

/// A word that is listed nowhere.
const UNLISTED: u32 = 0x8100_0010;

/// The word of `usmop4s za7.d, z0.h, z16.h`, which needs two features: I16I64 and MOP4.
const USMOP4S_WIDE: u32 = 0xA1C0_001F;

/// The names of tiles in the order of the lowest 64-bit tile that each holds, and all that it holds, as a mask.
const TILES: [(&str, u8); 15] = [
    ("za", 0xFF),
    ("za0.h", 0x55),
    ("za0.s", 0x11),
    ("za0.d", 0x01),
    ("za1.h", 0xAA),
    ("za1.s", 0x22),
    ("za1.d", 0x02),
    ("za2.s", 0x44),
    ("za2.d", 0x04),
    ("za3.s", 0x88),
    ("za3.d", 0x08),
    ("za4.d", 0x10),
    ("za5.d", 0x20),
    ("za6.d", 0x40),
    ("za7.d", 0x80),
];

// Outer products of z0 and z1 into tile 0 under p0 and p1.
const SUMOPA: u32 = 0xA0A1_2000;
const SUMOPS: u32 = 0xA0A1_2010;
const UMOPA: u32 = 0xA1A1_2000;
const UMOPA_WIDE: u32 = 0xA1E1_2000;
const SMOPA_2WAY: u32 = 0xA081_2008;
const SMOPS_2WAY: u32 = 0xA081_2018;
const UMOPA_2WAY: u32 = 0xA181_2008;
const UMOPS_2WAY: u32 = 0xA181_2018;

/// A 2-way operation on signed elements.
const SIGNED_2WAY: Operation =
    Operation { element_bytes: 4, products: 2, first_unsigned: false, second_unsigned: false, subtract: false };

/// The text of a word.
fn text(flags: u32, word: u32) -> Result<String, Refusal> {
    let mut room = [0; 47];
    let length = print(flags, word, &mut room)?;
    Ok(String::from_utf8_lossy(&room[..length]).into_owned())
}

/// The names of tiles at the places whose bits are set, and the mask of what they hold.
fn tiles(places: u32) -> (u8, Vec<&'static str>) {
    let chosen = (0..).zip(TILES).filter(|(place, _)| places >> place & 1 == 1);
    let (names, held): (Vec<&str>, Vec<u8>) = chosen.map(|(_, tile)| tile).unzip();
    (held.into_iter().fold(0, |mask, held| mask | held), names)
}

/// The line of a ZERO with these names.
fn zero(names: &[&str]) -> String {
    if names.is_empty() { "zero {}".into() } else { format!("zero {{ {} }}", names.join(", ")) }
}

/// ZA after words executed singly at VB 16 with all predicate bits set, from vectors z0 and z1 and the first bytes of ZA.
fn replay(z0: [u8; 16], z1: [u8; 16], start: &[u8], words: &[u32]) -> Vec<u8> {
    let mut z = [z0, z1].concat();
    z.resize(512, 0);
    let mut za = start.to_vec();
    za.resize(256, 0);
    for &word in words {
        assert_eq!(execute(BENCH, &z, &[0xFF; 32], &mut za, word), Ok(()));
    }
    za
}

/// One word executed on zeros.
fn try_word(bench: Bench, word: u32) -> Result<(), Refusal> {
    execute(bench, &[0; 512], &[0; 32], &mut [0; 256], word)
}

/// A list run on zeros.
fn try_list(bench: Bench, words: &[u32]) -> Ended {
    run(bench, &[0; 512], &[0; 32], &mut [0; 256], words)
}

/// A vector of zeros but for a 1 in one byte.
fn one(byte: usize) -> [u8; 16] {
    let mut vector = [0; 16];
    vector[byte] = 1;
    vector
}

#[test]
fn texts_and_refused_words() {
    for (word, line) in [
        (0xA0A0_0010, "sumops za0.s, p0/m, p0/m, z0.b, z0.b"),
        (0xA0B1_A873, "sumops za3.s, p2/m, p5/m, z3.b, z17.b"),
        (LONGEST, "usmop4s za2.s, { z10.b-z11.b }, { z30.b-z31.b }"),
        (0x8100_8010, "usmop4s za0.s, z0.b, z16.b"),
        (0xA0E0_0018, "sumop4s za0.d, z0.h, z16.h"),
        (0xC008_0011, "zero { za0.s }"),
        (0xC008_0055, "zero { za0.h }"),
        (0xC008_0057, "zero { za0.h, za1.d }"),
        (0xC008_0077, "zero { za0.h, za1.s }"),
        (0xC008_0012, "zero { za1.d, za4.d }"),
        (0xC008_00FE, "zero { za1.h, za2.s, za4.d }"),
        (0xC008_00FF, "zero { za }"),
        (0xC008_0000, "zero {}"),
    ] {
        assert_eq!(text(7, word).as_deref(), Ok(line));
        assert_eq!(read(7, line), Ok(word));
    }
    for word in [UNLISTED, 0xA0E1_0018, 0xA0E0_0038, 0xC008_0100] {
        assert_eq!(decode(7, word), Err(Refusal::Unlisted));
    }
    assert_eq!(decode(4, USMOP4S_WIDE), Err(Refusal::FeatureOff { missing: 2 }));
    assert_eq!(text(6, USMOP4S_WIDE).as_deref(), Ok("usmop4s za7.d, z0.h, z16.h"));
}

#[test]
fn two_way_texts_and_refused_words() {
    for (flags, word, line) in [
        (15, 0xA080_0008, "smopa za0.s, p0/m, p0/m, z0.h, z0.h"),
        (8, 0xA180_0018, "umops za0.s, p0/m, p0/m, z0.h, z0.h"),
        (15, 0x8000_8008, "smop4a za0.s, z0.h, z16.h"),
        (4, 0x8000_8008, "smop4a za0.s, z0.h, z16.h"),
        (4, 0x8100_8018, "umop4s za0.s, z0.h, z16.h"),
        (15, 0x811E_835A, "umop4s za2.s, { z10.h-z11.h }, { z30.h-z31.h }"),
    ] {
        assert_eq!(text(flags, word).as_deref(), Ok(line));
        assert_eq!(read(flags, line.as_bytes()), Ok(word));
    }
    for word in [0xA0A0_0008, 0x8020_8008] {
        assert_eq!(decode(15, word), Err(Refusal::Unlisted), "mixed signs");
    }
    assert_eq!(decode(7, 0xA080_0008), Err(Refusal::FeatureOff { missing: 8 }));
    assert_eq!(decode(11, 0x8000_8008), Err(Refusal::FeatureOff { missing: 4 }));
    assert_eq!(decode(16, 0xA080_0008), Err(Refusal::Flags));
}

/// Every call hands back what a word needs and lacks, whatever else is on; with that on too, the word is accepted.
#[test]
fn missing_features() {
    for (flags, word, missing) in [
        (0, USMOP4S_WIDE, 2 + 4),
        (1 + 8, USMOP4S_WIDE, 2 + 4),
        (4, USMOP4S_WIDE, 2),
        (1 + 4 + 8, USMOP4S_WIDE, 2),
        (2, USMOP4S_WIDE, 4),
        (1 + 2 + 8, USMOP4S_WIDE, 4),
        (0, SUMOPA, 1),
        (2 + 4 + 8, SUMOPA, 1),
        (0, UMOPA_WIDE, 2),
        (1 + 4 + 8, UMOPA_WIDE, 2),
        (0, SMOPA_2WAY, 8),
        (1 + 2 + 4, SMOPA_2WAY, 8),
        (0, LONGEST, 4),
        (1 + 2 + 8, LONGEST, 4),
        (0, 0x8000_8008, 4),
        (1 + 2 + 8, 0x8000_8008, 4),
        (0, ZERO, 1),
        (2 + 4 + 8, ZERO, 1),
    ] {
        let refusal = Refusal::FeatureOff { missing };
        let line = text(15, word).expect("a listed word");
        let bench = Bench { flags, ..BENCH };
        assert_eq!(decode(flags, word), Err(refusal), "{line}");
        assert_eq!(describe(flags, word), Err(refusal), "{line}");
        assert_eq!(text(flags, word), Err(refusal), "{line}");
        assert_eq!(read(flags, &line), Err(refusal), "{line}");
        assert_eq!(try_word(bench, word), Err(refusal), "{line}");
        assert_eq!(try_list(bench, &[word]), Ended { count: 0, refusal: Some(refusal) }, "{line}");
        assert_eq!(decode(flags + missing, word), Ok(()), "{line}");
    }
}

/// A feature that is off is tested after the line and the lengths, before the modes and the room.
#[test]
fn missing_features_among_other_refusals() {
    let off = Bench { flags: 0, streaming: false, za_on: false, vb: 16 };
    for (word, missing) in [(USMOP4S_WIDE, 2 + 4), (SMOPA_2WAY, 8), (ZERO, 1)] {
        let refusal = Refusal::FeatureOff { missing };
        assert_eq!(try_word(off, word), Err(refusal), "before 9 and 10");
        assert_eq!(print(0, word, &mut []), Err(refusal), "before 12");
        assert_eq!(try_word(Bench { vb: 15, ..off }, word), Err(Refusal::VectorLength));
        assert_eq!(try_list(off, &vec![word; 65_537]), Ended { count: 0, refusal: Some(Refusal::ListLength) });
        assert_eq!(decode(16, word), Err(Refusal::Flags));
        assert_eq!(print(16, word, &mut []), Err(Refusal::Flags));
        assert_eq!(try_word(Bench { flags: 16, ..off }, word), Err(Refusal::Flags));
    }
    assert_eq!(read(0, "usmop4s za7.d, z0.h, z16.h"), Err(Refusal::FeatureOff { missing: 2 + 4 }));
    assert_eq!(read(0, "usmop4s za8.d, z0.h, z16.h"), Err(Refusal::NotText));
    assert_eq!(read(16, "usmop4s za7.d, z0.h, z16.h"), Err(Refusal::Flags));
    assert_eq!(decode(0, UNLISTED), Err(Refusal::Unlisted));
    assert_eq!(try_word(off, UNLISTED), Err(Refusal::Unlisted));
}

/// A run hands back what its next word lacks, and not what a later one does.
#[test]
fn lists_stopped_by_a_missing_feature() {
    let list = [ZERO, SUMOPA, USMOP4S_WIDE, SMOPA_2WAY];
    for (flags, count, missing) in [(0, 0, 1), (1, 2, 6), (1 + 8, 2, 6), (1 + 4, 2, 2), (1 + 2, 2, 4), (7, 3, 8)] {
        let ended = try_list(Bench { flags, ..BENCH }, &list);
        assert_eq!(ended, Ended { count, refusal: Some(Refusal::FeatureOff { missing }) }, "flags {flags}");
    }
    assert_eq!(try_list(BENCH, &list), Ended { count: 4, refusal: None });
}

/// A run stops where a tile has a row that no executed ZERO before it cleared; 32-bit tile 0 has the rows of 64-bit tiles
/// 0 and 4. A word executed singly has no such test.
#[test]
fn tiles_that_are_not_cleared() {
    let zero = |mask: u32| 0xC008_0000 + mask;
    let stopped = |count| Ended { count, refusal: Some(Refusal::NotCleared) };
    let whole = |count| Ended { count, refusal: None };
    for (list, ended) in [
        (vec![UMOPA], stopped(0)),
        (vec![UMOPA, ZERO], stopped(0)),
        (vec![zero(0x01), UMOPA], stopped(1)),
        (vec![zero(0x10), UMOPA], stopped(1)),
        (vec![zero(0xEE), UMOPA], stopped(1)),
        (vec![zero(0x11), UMOPA], whole(2)),
        (vec![zero(0x01), zero(0x10), UMOPA, UMOPA], whole(4)),
        (vec![zero(0x01), UMOPA_WIDE, zero(0x10), UMOPA], whole(4)),
        (vec![zero(0x01), UMOPA_WIDE, UMOPA, zero(0x10)], stopped(2)),
        (vec![zero(0xFE), UMOPA_WIDE], stopped(1)),
        (vec![zero(0x11), UMOPA, UMOPA + 1], stopped(2)),
        (vec![ZERO, UMOPA, zero(0), UMOPA + 3, UMOPA_WIDE + 7], whole(5)),
    ] {
        assert_eq!(try_list(BENCH, &list), ended, "{list:08x?}");
    }
    assert_eq!(try_word(BENCH, UMOPA), Ok(()));
    // The tests before it come first, and a refused ZERO clears nothing.
    let off = Bench { za_on: false, ..BENCH };
    assert_eq!(try_list(off, &[UMOPA]), Ended { count: 0, refusal: Some(Refusal::ZaOff) });
    assert_eq!(try_list(off, &[ZERO, UMOPA]), Ended { count: 0, refusal: Some(Refusal::ZaOff) });
}

#[test]
fn orders_that_matter() {
    // sumopa za3.s with umopa za7.d and sumopa za3.d, a 2-way form on za2.s with a quarter-tile one on za6.d
    for (narrow, wide) in [(0xA0B9_D783, 0xA1FA_D2E7), (0xA0B9_D783, 0xA0EB_9DC3), (0xA181_1FEA, 0xA0E4_02CE)] {
        assert!(order_matters(15, narrow, wide) && order_matters(15, wide, narrow), "{narrow:08x}, {wide:08x}");
        assert!(!order_matters(1, narrow, wide) && !order_matters(16, narrow, wide), "{narrow:08x}, {wide:08x}");
    }
    // rows apart, one width, a ZERO, a word that is listed nowhere
    for (first, second) in [
        (0xA0B9_D783, 0xA0D6_7B12),
        (0xA087_95B3, 0x800E_8393),
        (0xA1FA_D2E7, 0xA1E6_011F),
        (ZERO, 0xA1FA_D2E7),
        (0xA0B9_D783, UNLISTED),
    ] {
        assert!(!order_matters(15, first, second) && !order_matters(15, second, first), "{first:08x}, {second:08x}");
    }
}

#[test]
fn missing_features_by_their_names() {
    for (missing, sentence) in [
        (1, "the word needs SME, which is off"),
        (2, "the word needs I16I64, which is off"),
        (4, "the word needs MOP4, which is off"),
        (6, "the word needs I16I64 and MOP4, which are off"),
        (8, "the word needs SME2, which is off"),
    ] {
        assert_eq!(Refusal::FeatureOff { missing }.to_string(), sentence);
    }
}

#[test]
fn lines_that_are_no_text() {
    for line in [
        "",
        "sumops",
        "SUMOPS za3.s, p2/m, p5/m, z3.b, z17.b",
        "sumops ZA3.S, p2/m, p5/m, z3.b, z17.b",
        " sumops za3.s, p2/m, p5/m, z3.b, z17.b",
        "sumops  za3.s, p2/m, p5/m, z3.b, z17.b",
        "sumops\tza3.s, p2/m, p5/m, z3.b, z17.b",
        "sumops za3.s,p2/m,p5/m,z3.b,z17.b",
        "sumops za3.s, p2/m, p5/m, z3.b, z17.b ",
        "sumops za3.s, p2/m, p5/m, z3.b, z17.b\n",
        "sumops za3.s, p2/m, p5/m, z3.b, z17.b\0",
        "sumops za3.s, p2/m, p5/m, z3.b, z17",
        "sumops za3.s, p2/m, p5/m, z03.b, z17.b",
        "sumops za03.s, p2/m, p5/m, z3.b, z17.b",
        "sumops za3.s, p2/z, p5/m, z3.b, z17.b",
        "sumops za4.s, p2/m, p5/m, z3.b, z17.b",
        "sumops za3.s, p2/m, p8/m, z3.b, z17.b",
        "sumops za3.s, p2/m, p5/m, z3.b, z32.b",
        "sumops za3.s, p2/m, p5/m, z259.b, z17.b",
        "sumops za3.s, p2/m, p5/m, z3.b, z4294967313.b",
        "sumops za3.s, p2/m, p5/m, z3.b, z17.h",
        "sumops za3.s, p2/m, p5/m, z3.h, z17.h",
        "sumops za3.d, p2/m, p5/m, z3.b, z17.b",
        "sumops za3.s, p2/m, p5/m, z3.b",
        "sumops za3.s, p2/m, p5/m, z3.b, z17.b, z17.b",
        "fmops za3.s, p2/m, p5/m, z3.b, z17.b",
        "usmop4s za0.s, z1.b, z16.b",
        "usmop4s za0.s, z16.b, z16.b",
        "usmop4s za0.s, z0.b, z14.b",
        "usmop4s za0.s, z0.h, z16.h",
        "usmop4s za0.s, { z0.b }, z16.b",
        "usmop4s za2.s, { z10.b-z12.b }, { z30.b-z31.b }",
        "usmop4s za2.s, { z11.b-z12.b }, { z30.b-z31.b }",
        "usmop4s za2.s, { z10.b, z11.b }, { z30.b-z31.b }",
        "usmop4s za2.s, {z10.b-z11.b}, {z30.b-z31.b}",
        "zero",
        "zero { }",
        "zero {za0.d}",
        "zero za0.d",
        "zero { za1.d, za0.d }",
        "zero { za1.d, za0.h }",
        "zero { za0.d, za0.d }",
        "zero { za0.d, za1.d, }",
        "zero { za0.d,za1.d }",
        "zero { za0.d, za4.d }",
        "zero { za4.d, za0.d }",
        "zero { za0.s, za2.s }",
        "zero { za0.h, za1.h }",
        "zero { za0.h, za1.d, za5.d }",
        "zero { za0.s, za1.d, za2.s }",
        "zero { za0.s, za4.d }",
        "zero { za0.d, za0.s }",
        "zero { za0.h, za0.h }",
        "zero { za, za0.d }",
        "zero { za0.d, za }",
        "zero { za8.d }",
        "zero { za4.s }",
        "zero { za2.h }",
        "zero { za0.b }",
        "zero { za0.q }",
        "zero { za00.d }",
        "zero { za0 }",
        "zero { za.d }",
        "zero { ZA }",
        "zero { za } // all",
    ] {
        assert_eq!(read(15, line), Err(Refusal::NotText), "{line}");
        assert_eq!(read(0, line), Err(Refusal::NotText), "{line}");
        assert_eq!(read(16, line), Err(Refusal::Flags), "{line}");
    }
    for bytes in [&[0xFF; 37][..], "zéro {}".as_bytes(), &[b'z'; 10_000], &b"zero {}".repeat(1_400)] {
        assert_eq!(read(15, bytes), Err(Refusal::NotText));
    }
}

/// A list is printed, and read, where no shorter one has its mask; that is so of one list for each mask.
#[test]
fn shortest_lists_of_tiles() {
    let lists: Vec<(u8, Vec<&str>)> = (0..1 << TILES.len()).map(tiles).collect();
    let mut fewest = [TILES.len(); 256];
    for (mask, names) in &lists {
        let fewest = &mut fewest[usize::from(*mask)];
        *fewest = names.len().min(*fewest);
    }
    for (mask, names) in lists {
        let (word, line) = (0xC008_0000 | u32::from(mask), zero(&names));
        let shortest = names.len() == fewest[usize::from(mask)];
        assert_eq!(text(1, word).expect("a ZERO") == line, shortest, "{word:08x}, {line}");
        assert_eq!(read(1, &line), if shortest { Ok(word) } else { Err(Refusal::NotText) }, "{line}");
    }
}

/// Lists of 64-bit tiles, which ZERO had at first, are still texts where no 32-bit tile has both its halves in them.
#[test]
fn lists_of_64_bit_tiles() {
    let mut texts = 0;
    for mask in 0..=0xFF_u8 {
        let names = TILES.into_iter().filter(|(_, held)| held.is_power_of_two() && mask & held != 0);
        let line = zero(&names.map(|(name, _)| name).collect::<Vec<_>>());
        let halves = mask & mask >> 4 != 0;
        let word = 0xC008_0000 | u32::from(mask);
        assert_eq!(read(1, &line), if halves { Err(Refusal::NotText) } else { Ok(word) }, "{line}");
        texts += u32::from(!halves);
    }
    assert_eq!(texts, 81);
}

#[test]
fn lines_of_features_that_are_off() {
    for (off, on, line) in [
        (14, 1, "sumops za3.s, p2/m, p5/m, z3.b, z17.b"),
        (13, 2, "sumops za3.d, p2/m, p5/m, z3.h, z17.h"),
        (7, 8, "smops za3.s, p2/m, p5/m, z3.h, z17.h"),
        (11, 4, "usmop4s za0.s, z0.b, z16.b"),
        (11, 4, "umop4s za0.s, z0.h, z16.h"),
        (9, 6, "usmop4s za7.d, z0.h, z16.h"),
        (14, 1, "zero {}"),
    ] {
        assert_eq!(read(off, line), Err(Refusal::FeatureOff { missing: on }), "{line}");
        assert_eq!(read(on, line), read(15, line), "{line}");
        assert_eq!(read(16, line), Err(Refusal::Flags), "{line}");
    }
    assert_eq!(read(6, "usmop4s za7.d, z0.h, z16.h"), Ok(USMOP4S_WIDE));
}

#[test]
fn words_of_descriptions_and_back() {
    let op = Operation { element_bytes: 4, products: 4, first_unsigned: false, second_unsigned: true, subtract: true };
    let sumops = Instruction::Predicated { op, tile: 3, pn: 2, pm: 5, zn: 3, zm: 17 };
    let op = Operation { first_unsigned: true, second_unsigned: false, ..op };
    let usmop4s = Instruction::Quarter { op, tile: 2, first: Source::Pair(10), second: Source::Pair(30) };
    let op = SIGNED_2WAY;
    let smopa = Instruction::Predicated { op, tile: 3, pn: 2, pm: 5, zn: 3, zm: 17 };
    let smop4a = Instruction::Quarter { op, tile: 2, first: Source::Pair(10), second: Source::One(30) };
    for (instruction, word) in [
        (sumops, 0xA0B1_A873),
        (usmop4s, 0x811E_8352),
        (smopa, 0xA091_A86B),
        (smop4a, 0x800E_834A),
        (Instruction::Zero { mask: 0x11 }, 0xC008_0011),
    ] {
        assert_eq!(encode(instruction), Ok(word));
        assert_eq!(describe(15, word), Ok(instruction));
    }
    assert_eq!(describe(16, UNLISTED), Err(Refusal::Flags));
    assert_eq!(describe(15, UNLISTED), Err(Refusal::Unlisted));
    assert_eq!(describe(7, 0xA091_A86B), Err(Refusal::FeatureOff { missing: 8 }));
}

#[test]
fn operations_that_do_not_exist() {
    for op in [
        Operation { first_unsigned: true, ..SIGNED_2WAY },
        Operation { second_unsigned: true, ..SIGNED_2WAY },
        Operation { element_bytes: 8, ..SIGNED_2WAY },
        Operation { products: 0, ..SIGNED_2WAY },
        Operation { products: 1, ..SIGNED_2WAY },
        Operation { products: 3, ..SIGNED_2WAY },
        Operation { products: 5, ..SIGNED_2WAY },
        Operation { products: u32::MAX, ..SIGNED_2WAY },
    ] {
        let predicated = Instruction::Predicated { op, tile: 0, pn: 0, pm: 0, zn: 0, zm: 0 };
        let quarter = Instruction::Quarter { op, tile: 0, first: Source::One(0), second: Source::One(16) };
        assert_eq!([predicated, quarter].map(encode), [Err(Refusal::OutOfRange); 2], "{op:?}");
    }
}

#[test]
fn every_refusal_by_its_name() {
    let stopped = |bench, z, p, za, words| {
        let ended = run(bench, &vec![0; z], &vec![0; p], &mut vec![0; za], &vec![UMOPA; words]);
        ended.refusal.expect("a refusal")
    };
    let op = Operation { element_bytes: 16, products: 4, ..SIGNED_2WAY };
    let refusals = [
        (stopped(Bench { flags: 16, ..BENCH }, 512, 32, 256, 1), Refusal::Flags),
        (stopped(Bench { vb: 15, ..BENCH }, 512, 32, 256, 1), Refusal::VectorLength),
        (stopped(BENCH, 511, 32, 256, 1), Refusal::ZLength),
        (stopped(BENCH, 512, 31, 256, 1), Refusal::PLength),
        (stopped(BENCH, 512, 32, 255, 1), Refusal::ZaLength),
        (stopped(BENCH, 512, 32, 256, 65_537), Refusal::ListLength),
        (decode(7, UNLISTED).unwrap_err(), Refusal::Unlisted),
        (stopped(Bench { flags: 2, ..BENCH }, 512, 32, 256, 1), Refusal::FeatureOff { missing: 1 }),
        (stopped(Bench { streaming: false, ..BENCH }, 512, 32, 256, 1), Refusal::StreamingOff),
        (stopped(Bench { za_on: false, ..BENCH }, 512, 32, 256, 1), Refusal::ZaOff),
        (encode(Instruction::Predicated { op, tile: 0, pn: 0, pm: 0, zn: 0, zm: 0 }).unwrap_err(), Refusal::OutOfRange),
        (print(7, LONGEST, &mut [0; 46]).unwrap_err(), Refusal::Room),
        (read(7, "zero { }").unwrap_err(), Refusal::NotText),
        (stopped(BENCH, 512, 32, 256, 1), Refusal::NotCleared),
        (Capture::read(&[2]).unwrap_err(), Refusal::Version),
        (Capture::read(&[]).unwrap_err(), Refusal::Format),
    ];
    for (number, (refusal, name)) in (1..).zip(refusals) {
        assert_eq!((refusal, refusal.number()), (name, number));
        assert_eq!(refusal.missing(), if number == 8 { 1 } else { 0 }, "{refusal}");
    }
}

/// A capture of two words, byte by byte.
#[test]
fn capture_files() {
    let bench = Bench { flags: 7, ..BENCH };
    let (words, z, p, za) = ([ZERO, 0xA0A0_0000], [0x11; 512], [0x22; 32], [0x33; 256]);
    let head = [1, 0, 0, 0, 4, 7, 3, 0x00, 0x10, 0, 0, 0, 8, 0xC0, 0x08, 0x00, 0xFF, 0xA0, 0xA0, 0x00, 0x00];
    let file = [&head[..], &[0, 0, 2, 0], &z, &[0, 0, 0, 32], &p, &[0, 0, 1, 0], &za].concat();
    assert_eq!(file.len(), 833);

    let mut room = [0xA5; 840];
    assert_eq!(capture_write(bench, &words, &z, &p, &za, &mut room[..832]), Err(Refusal::Room));
    assert_eq!(room, [0xA5; 840]);
    assert_eq!(capture_write(bench, &words, &z, &p, &za, &mut room), Ok(833));
    assert_eq!((&room[..833], &room[833..]), (&file[..], &[0xA5; 7][..]));

    let (mut words_read, mut z_read, mut p_read, mut za_read) = ([9; 4], [9; 513], [9; 32], [9; 256]);
    let mut try_read = |count: usize| {
        let answer = capture_read(&file, &mut words_read[..count], &mut z_read, &mut p_read, &mut za_read);
        (answer, words_read, [z_read[0], z_read[512], p_read[0], za_read[255]])
    };
    assert_eq!(try_read(1), (Err(Refusal::Room), [9; 4], [9; 4]));
    assert_eq!(try_read(4), (Ok(Contents { bench, words: 2 }), [ZERO, 0xA0A0_0000, 9, 9], [0x11, 9, 0x22, 0x33]));
}

/// A capture that is run has the sums in its ZA: of each four products one counts, 17 times 17, as p0 has every fourth bit.
#[test]
fn captures_that_are_run() {
    let (z, p, za) = (vec![0x11; 512], vec![0x22; 32], vec![0x33; 256]);
    let mut capture = Capture { bench: BENCH, words: vec![ZERO, 0xA0A0_0000], z, p, za };
    let before = capture.write().expect("a legal capture");
    assert_eq!(Capture::read(&before).as_ref(), Ok(&capture));

    assert_eq!(capture.run(), Ended { count: 2, refusal: None });
    assert_eq!(capture.za[..20], [[0x21, 0x01, 0, 0].repeat(4), vec![0; 4]].concat());
    let after = capture.write().expect("a legal capture");
    assert_eq!((&before[..577], before.len()), (&after[..577], after.len()));
    assert_eq!(after[577..], capture.za);

    capture.words = vec![ZERO; 65_537];
    assert_eq!(capture.write(), Err(Refusal::ListLength));
    assert_eq!(capture.run(), Ended { count: 0, refusal: Some(Refusal::ListLength) });
}

/// What is no capture, or one of another version.
#[test]
fn files_that_are_no_captures() {
    let [z, p, za] = [512, 32, 256].map(|length| vec![0; length]);
    let file = Capture { bench: BENCH, words: vec![ZERO], z, p, za }.write().expect("a legal capture");
    let with = |at: usize, byte: u8| [&file[..at], &[byte], &file[at + 1..]].concat();
    for (file, refusal) in [
        (vec![], Refusal::Format),
        (vec![1], Refusal::Format),
        (vec![2], Refusal::Version),
        (with(0, 0), Refusal::Version),
        (with(4, 3), Refusal::Format),
        (with(5, 16), Refusal::Format),
        (with(6, 4), Refusal::Format),
        (with(8, 15), Refusal::Format),
        (with(8, 32), Refusal::Format),
        (with(12, 3), Refusal::Format),
        (with(12, 8), Refusal::Format),
        (file[..file.len() - 1].to_vec(), Refusal::Format),
        ([&file[..], &[0]].concat(), Refusal::Format),
        ([&file[..], &file].concat(), Refusal::Format),
    ] {
        assert_eq!(Capture::read(&file), Err(refusal), "{} bytes, {:02x?}", file.len(), &file[..file.len().min(13)]);
    }
    let [z, p, za] = [32 * 256, 2 * 256, 256 * 256].map(|length| vec![0; length]);
    let longest = Capture { bench: Bench { vb: 256, ..BENCH }, words: vec![ZERO; 65_536], z, p, za };
    assert_eq!(longest.write().map(|file| file.len()), Ok(LONGEST_CAPTURE));
}

#[test]
fn tile_addresses() {
    let changed = |word, first, second| {
        let za = replay(one(first), one(second), &[], &[word]);
        (0..256).filter(|&byte| za[byte] != 0).collect::<Vec<_>>()
    };
    assert_eq!(changed(UMOPA + 1, 8, 12), [156], "za1.s (2, 3)");
    assert_eq!(changed(UMOPA_WIDE + 5, 8, 8), [216], "za5.d (1, 1)");
    assert_eq!(replay([1; 16], [1; 16], &[7; 256], &[UMOPA, ZERO]), [0; 256]);
}

#[test]
fn totals_and_carries() {
    for (word, total) in [(SUMOPA, 0xFFFF_FC04_u32), (SUMOPS, 1020), (UMOPA, 260_100)] {
        let za = replay([0xFF; 16], [0xFF; 16], &[], &[word]);
        assert_eq!(za[..4], total.to_le_bytes());
    }
    let za = replay(one(0), one(0), &[0xFF; 256], &[UMOPA]);
    assert_eq!((&za[..4], &za[4..]), (&[0; 4][..], &[0xFF; 252][..]));

    let start = 0xFFFF_FFFF_u64.to_le_bytes();
    assert_eq!(replay(one(0), one(0), &start, &[UMOPA, UMOPA_WIDE])[..8], 1_u64.to_le_bytes());
    assert_eq!(replay(one(0), one(0), &start, &[UMOPA_WIDE, UMOPA])[..8], 0x1_0000_0001_u64.to_le_bytes());
}

#[test]
fn two_way_totals() {
    let high: [u8; 16] = array::from_fn(|byte| if byte % 2 == 1 { 0x80 } else { 0 });
    for (word, total) in
        [(SMOPA_2WAY, 2_u32), (SMOPS_2WAY, 0xFFFF_FFFE), (UMOPA_2WAY, 0xFFFC_0002), (UMOPS_2WAY, 0x0003_FFFE)]
    {
        assert_eq!(replay([0xFF; 16], [0xFF; 16], &[], &[word])[..16], total.to_le_bytes().repeat(4));
        assert_eq!(replay(high, high, &[], &[word])[..4], 0x8000_0000_u32.to_le_bytes());
    }
    let mut carried = [0xFF; 256];
    carried[156..160].fill(0);
    assert_eq!(replay(one(10), one(14), &[0xFF; 256], &[SMOPA_2WAY + 1]), carried, "za1.s (2, 3)");
    assert_eq!(replay(one(10), one(12), &[], &[SMOPA_2WAY + 1]), [0; 256], "another k");
}

#[test]
fn two_way_activity_goes_by_even_bits() {
    let after = |predicates, word| {
        let mut za = [7; 256];
        assert_eq!(execute(BENCH, &[0xFF; 512], &[predicates; 32], &mut za, word), Ok(()));
        za
    };
    assert_eq!(after(0xAA, SMOPA_2WAY), [7; 256]);
    assert_eq!(after(0x55, SMOPA_2WAY), after(0xFF, SMOPA_2WAY));
    assert_eq!(after(0x11, SMOPA_2WAY)[..4], [8, 7, 7, 7]);
}

#[test]
fn two_way_pairs_serve_halves() {
    let mut z = [0; 512];
    for (vector, element) in [(0, 1), (1, 2), (16, 3), (17, 5)] {
        z[16 * vector..][..16].copy_from_slice(&[element, 0].repeat(8));
    }
    let mut za = [0; 256];
    assert_eq!(execute(BENCH, &z, &[0; 32], &mut za, 0x8010_8208), Ok(()));
    let rows: Vec<[u8; 4]> = (0..4).map(|row| [0, 4, 8, 12].map(|column| za[64 * row + column])).collect();
    assert_eq!(rows, [[6, 6, 12, 12], [6, 6, 12, 12], [10, 10, 20, 20], [10, 10, 20, 20]]);
}

#[test]
fn an_empty_predicate_changes_nothing() {
    let mut p = [0xFF; 32];
    p[2..4].fill(0);
    let mut za = [7; 256];
    assert_eq!(execute(BENCH, &[0xFF; 512], &p, &mut za, UMOPA), Ok(()));
    assert_eq!(za, [7; 256]);
}

#[test]
fn lengths_and_modes() {
    for vb in [15, 17] {
        assert_eq!(try_word(Bench { vb, ..BENCH }, ZERO), Err(Refusal::VectorLength));
    }
    let paused = Bench { streaming: false, ..BENCH };
    let off = Bench { za_on: false, ..paused };
    assert_eq!(try_word(paused, ZERO), Ok(()));
    assert_eq!(try_word(off, 0xA080_0000), Err(Refusal::StreamingOff));
    assert_eq!(try_word(off, ZERO), Err(Refusal::ZaOff));

    let list = |length| try_list(BENCH, &vec![ZERO; length]);
    assert_eq!(list(65_536), Ended { count: 65_536, refusal: None });
    assert_eq!(list(65_537), Ended { count: 0, refusal: Some(Refusal::ListLength) });
}
