//! Counts what cases came to, so that a test can't pass on refusals alone.

use super::{Damage, LINES};
use crate::pseudocode::Refused;
use std::collections::BTreeMap;

/// The accepted words under the lines of the table and under the vector lengths, the refusals under their numbers and
/// those by 8 under what is missing too, and the damaged lines or files, with those that are good all the same, under the
/// sorts of damage.
#[derive(Default)]
pub struct Tally {
    accepted: [usize; LINES.len()],
    lengths: BTreeMap<usize, usize>,
    refused: [usize; 17],
    missing: BTreeMap<u32, usize>,
    damaged: BTreeMap<&'static str, [usize; 2]>,
}

impl Tally {
    /// Counts an accepted word under its line of the table.
    pub fn accept(&mut self, word: u32) {
        let line = LINES.iter().position(|(fixed, free)| word & !free == *fixed);
        self.accepted[line.expect("an accepted word is listed")] += 1;
    }

    /// Counts words, or files, that were accepted at a vector length.
    pub fn accept_at(&mut self, vb: usize, count: usize) {
        if count > 0 {
            *self.lengths.entry(vb).or_default() += count;
        }
    }

    /// Counts a refusal under its number, and 8 under its sum of missing flags too.
    pub fn refuse(&mut self, refused: Refused) {
        self.refused[refused.number as usize] += 1;
        if refused.number == 8 {
            *self.missing.entry(refused.missing).or_default() += 1;
        }
    }

    /// Counts an answer about a word.
    pub fn count<T>(&mut self, word: u32, answer: &Result<T, Refused>) {
        match answer {
            Ok(_) => self.accept(word),
            Err(refused) => self.refuse(*refused),
        }
    }

    /// Counts a damaged line or file under its damage, and whether it is good all the same.
    pub fn damage(&mut self, damage: Damage, is_good: bool) {
        let [damaged, good] = self.damaged.entry(damage.name).or_default();
        *damaged += 1;
        *good += usize::from(is_good);
    }

    /// Fails unless every line, and every one of these refusals, came at least so often, and no other refusal came.
    pub fn assert_covers(&self, refusals: &[u32], least: usize) {
        println!("accepted {:?}", self.accepted);
        assert!(self.accepted.iter().all(|&count| count >= least), "a line is too rare");
        self.assert_refusals(refusals, least);
    }

    /// Fails unless every one of these refusals came at least so often, and no other.
    pub fn assert_refusals(&self, refusals: &[u32], least: usize) {
        println!("refused {:?}", self.refused);
        for (number, &count) in (0..).zip(&self.refused) {
            if refusals.contains(&number) {
                assert!(count >= least, "refusal {number} is too rare");
            } else {
                assert_eq!(count, 0, "refusal {number} has no place here");
            }
        }
    }

    /// Fails unless every sum of flags that a word can lack came at least so often, and no other; the words of one line
    /// need two features, and can lack either or both.
    pub fn assert_missing(&self, least: usize) {
        println!("refused for missing flags {:?}", self.missing);
        assert!(self.missing.keys().eq(&[1, 2, 4, 2 + 4, 8]), "other sums of missing flags");
        assert!(self.missing.values().all(|&count| count >= least), "a sum of missing flags is too rare");
    }

    /// Fails unless words, or files, were accepted at every vector length, at least so often, and at no other.
    pub fn assert_lengths(&self, least: usize) {
        println!("accepted at vector lengths {:?}", self.lengths);
        assert!(self.lengths.keys().eq(&[16, 32, 64, 128, 256]), "other vector lengths");
        assert!(self.lengths.values().all(|&count| count >= least), "a vector length is too rare");
    }

    /// Fails unless every one of these sorts of damage was done at least so often, and left something good at least so
    /// often, or never if it should not.
    pub fn assert_damaged(&self, damages: &[Damage], least: usize, least_good: usize) {
        println!("damaged, good among them: {:?}", self.damaged);
        for Damage { name, leaves_good, .. } in damages {
            let [damaged, good] = self.damaged.get(name).copied().unwrap_or_default();
            assert!(damaged >= least, "{name}: too rare");
            assert!(if *leaves_good { good >= least_good } else { good == 0 }, "{name}: {good} good");
        }
    }
}
