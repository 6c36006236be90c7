//! A run over many files: what they come to, and the first difference.

use crate::generated::{File, Kind, State};
use crate::lower_file;
use crate::sides::Sides;
use std::collections::BTreeMap;
use std::fmt;

/// Files that go to the verified side at once.
const BATCH: usize = 500;

#[derive(Default)]
pub struct Counts {
    pub files: usize,
    /// Scripts with a string that is not in the pool, because it did not fit.
    pub overflow: usize,
    pub refused: BTreeMap<u8, usize>,
}

impl Counts {
    fn add(&mut self, kind: Kind, file: &[u8], answer: &str) {
        self.files += 1;
        // A pool overflows with 65,533 string bytes at the least.
        let may_overflow = kind != Kind::Bytes && file.len() > 65_532;
        self.overflow += (may_overflow && lower_file(file).is_ok_and(|lists| lists.overflow())) as usize;
        if let Some(number) = answer.strip_prefix("refused ") {
            *self.refused.entry(number.trim().parse().unwrap()).or_default() += 1;
        }
    }
}

impl fmt::Display for Counts {
    fn fmt(&self, f: &mut fmt::Formatter<'_>) -> fmt::Result {
        let refused: usize = self.refused.values().sum();
        write!(f, "{} files, {} accepted, {refused} refused", self.files, self.files - refused)?;
        let by_number: Vec<String> = self.refused.iter().map(|(number, count)| format!("{count} with {number}")).collect();
        if refused > 0 {
            write!(f, " ({})", by_number.join(", "))?;
        }
        if self.overflow > 0 {
            write!(f, "; {} with a pool that overflows", self.overflow)?;
        }
        Ok(())
    }
}

pub struct Difference {
    pub name: String,
    pub file: Vec<u8>,
    pub rascal: String,
    pub verified: String,
}

/// Compares the files up to the first difference, and counts them by their states.
pub fn compare(sides: &Sides, kind: Kind, files: impl Iterator<Item = File>) -> (BTreeMap<State, Counts>, Option<Difference>) {
    let mut counts: BTreeMap<State, Counts> = BTreeMap::new();
    let mut files = files.peekable();
    while files.peek().is_some() {
        let batch: Vec<File> = files.by_ref().take(BATCH).collect();
        let bytes: Vec<&[u8]> = batch.iter().map(|file| file.bytes.as_slice()).collect();
        let verified = (sides.verified)(&bytes);
        let mut different = vec![];
        for (file, verified) in batch.into_iter().zip(verified) {
            let rascal = (sides.rascal)(&file.bytes);
            counts.entry(file.state).or_default().add(kind, &file.bytes, &rascal);
            if rascal != verified {
                different.push(Difference { name: file.name, file: file.bytes, rascal, verified });
            }
        }
        if !different.is_empty() {
            // One that differs alone, too, can be shrunk: a program that stops early leaves out the answers before it.
            let alone = different.iter().position(|d| sides.first_different(std::slice::from_ref(&d.file)).is_some());
            return (counts, Some(different.swap_remove(alone.unwrap_or(0))));
        }
    }
    (counts, None)
}
