//! Why the bench refuses, under the numbers that its rules fix.

use std::error::Error;
use std::fmt;

/// The features, each with its flag.
const FEATURES: [(u32, &str); 4] = [(1, "SME"), (2, "I16I64"), (4, "MOP4"), (8, "SME2")];

/// Why an input was refused; the tests are made in this order, but for `NotText`, which comes before `FeatureOff`, and
/// `Version` and `Format`, which come before `Room`, and the first that applies is given. Only runs are refused by
/// `NotCleared`, only capture files by `Version` and `Format`.
#[derive(Clone, Copy, Debug, PartialEq, Eq)]
pub enum Refusal {
    Flags,
    VectorLength,
    ZLength,
    PLength,
    ZaLength,
    ListLength,
    Unlisted,
    FeatureOff {
        /// The sum of the flags that the word needs and that are off.
        missing: u32,
    },
    StreamingOff,
    ZaOff,
    OutOfRange,
    Room,
    NotText,
    NotCleared,
    Version,
    Format,
}

impl Refusal {
    /// The number of this refusal.
    pub fn number(self) -> u32 {
        match self {
            Refusal::Flags => 1,
            Refusal::VectorLength => 2,
            Refusal::ZLength => 3,
            Refusal::PLength => 4,
            Refusal::ZaLength => 5,
            Refusal::ListLength => 6,
            Refusal::Unlisted => 7,
            Refusal::FeatureOff { .. } => 8,
            Refusal::StreamingOff => 9,
            Refusal::ZaOff => 10,
            Refusal::OutOfRange => 11,
            Refusal::Room => 12,
            Refusal::NotText => 13,
            Refusal::NotCleared => 14,
            Refusal::Version => 15,
            Refusal::Format => 16,
        }
    }

    /// The sum of the flags that the word needs and that are off; 0 for all but `FeatureOff`.
    pub fn missing(self) -> u32 {
        match self {
            Refusal::FeatureOff { missing } => missing,
            _ => 0,
        }
    }

    /// The refusal of a number and a sum of missing flags that the library answered, none for 0.
    #[inline]
    pub(crate) fn of(number: u32, missing: u32) -> Option<Refusal> {
        assert!((number == 8) == (missing != 0), "refusal {number} does not come with missing flags {missing}");
        let refusal = match number {
            0 => return None,
            1 => Refusal::Flags,
            2 => Refusal::VectorLength,
            3 => Refusal::ZLength,
            4 => Refusal::PLength,
            5 => Refusal::ZaLength,
            6 => Refusal::ListLength,
            7 => Refusal::Unlisted,
            8 => Refusal::FeatureOff { missing },
            9 => Refusal::StreamingOff,
            10 => Refusal::ZaOff,
            11 => Refusal::OutOfRange,
            12 => Refusal::Room,
            13 => Refusal::NotText,
            14 => Refusal::NotCleared,
            15 => Refusal::Version,
            16 => Refusal::Format,
            _ => unreachable!("there is no refusal {number}"),
        };
        Some(refusal)
    }
}

impl fmt::Display for Refusal {
    /// What was wrong, in a few words.
    fn fmt(&self, f: &mut fmt::Formatter) -> fmt::Result {
        f.write_str(match *self {
            Refusal::Flags => "flags are above 15",
            Refusal::VectorLength => "the vector length is not 16, 32, 64, 128 or 256 bytes",
            Refusal::ZLength => "Z does not hold 32 vectors",
            Refusal::PLength => "P does not hold 16 predicates",
            Refusal::ZaLength => "ZA is not a square of the vector length",
            Refusal::ListLength => "the list has more than 65536 words",
            Refusal::Unlisted => "the word is no listed instruction",
            Refusal::FeatureOff { missing } => return features_off(f, missing),
            Refusal::StreamingOff => "an outer product needs streaming mode on",
            Refusal::ZaOff => "the word needs ZA on",
            Refusal::OutOfRange => "a field is out of range",
            Refusal::Room => "the room is too short",
            Refusal::NotText => "the line is the text of no listed word",
            Refusal::NotCleared => "the tile has a row that no earlier ZERO of the list cleared",
            Refusal::Version => "the file has another version than 1",
            Refusal::Format => "the file is no capture",
        })
    }
}

/// Names the features that a word lacks.
fn features_off(f: &mut fmt::Formatter, missing: u32) -> fmt::Result {
    let lacking = FEATURES.into_iter().filter(|(flag, _)| missing & flag != 0);
    let names: Vec<&str> = lacking.map(|(_, name)| name).collect();
    let are = if names.len() == 1 { "is" } else { "are" };
    write!(f, "the word needs {}, which {are} off", names.join(" and "))
}

impl Error for Refusal {}
