//! What the library takes and answers, beside what the independent implementation does.

use crate::pseudocode::{Bench, Refused};

/// The library's bench for one of the independent implementation.
pub fn bench(bench: Bench) -> birdaghol::Bench {
    let Bench { flags, streaming, za_on, vb } = bench;
    birdaghol::Bench { flags, streaming, za_on, vb }
}

/// A refusal of the library as the independent implementation has it.
pub fn refused(refusal: birdaghol::Refusal) -> Refused {
    Refused { number: refusal.number(), missing: refusal.missing() }
}

/// The answer as C gets it, in one number.
pub fn packed(answer: Result<u64, Refused>) -> u64 {
    answer.map_or_else(|refused| (refused.missing * 256 + refused.number).into(), |value| value * 65536)
}
