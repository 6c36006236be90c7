//! Random files of a seed: originals, and damaged copies after each. The same seed gives the same files.

use crate::random_scripts::Sort;
use crate::{random_bytes, random_scripts, random_texts};
use std::iter::repeat_with;

/// What is made.
#[derive(Debug, Clone, Copy, PartialEq, Eq)]
pub enum Kind {
    /// Script files of every sort.
    Scripts,
    /// Script files that fill the pool, most of them over its end.
    Overflow,
    /// Script files in which much generates nothing.
    Idle,
    /// Script files whose strings are texts, damaged in the texts.
    Texts,
    /// Action bytes.
    Bytes,
}

impl Kind {
    pub fn named(text: &str) -> Option<Kind> {
        Some(match text {
            "scripts" => Kind::Scripts,
            "overflow" => Kind::Overflow,
            "idle" => Kind::Idle,
            "texts" => Kind::Texts,
            "bytes" => Kind::Bytes,
            _ => return None,
        })
    }
}

#[derive(Debug, Clone, Copy, PartialEq, Eq, PartialOrd, Ord)]
pub enum State {
    Undamaged,
    Damaged,
    /// A copy that the damage left as it was.
    Unchanged,
    /// Not made here.
    Given,
}

pub struct File {
    pub name: String,
    pub bytes: Vec<u8>,
    pub state: State,
}

pub trait Maker {
    type Original;
    /// Damaged copies of each original.
    const COPIES: usize;
    fn original(&mut self) -> Self::Original;
    fn bytes(original: &Self::Original) -> Vec<u8>;
    fn damaged(&mut self, original: &Self::Original) -> Vec<u8>;
}

pub fn files(kind: Kind, seed: u64, count: usize) -> impl Iterator<Item = File> {
    let (letter, made): (_, Box<dyn Iterator<Item = _>>) = match kind {
        Kind::Scripts => ('r', Box::new(made(random_scripts::Maker::new(seed, None)))),
        Kind::Overflow => ('o', Box::new(made(random_scripts::Maker::new(seed, Some(Sort::Overflow))))),
        Kind::Idle => ('i', Box::new(made(random_scripts::Maker::new(seed, Some(Sort::Idle))))),
        Kind::Texts => ('t', Box::new(made(random_texts::Maker::new(seed)))),
        Kind::Bytes => ('b', Box::new(made(random_bytes::Maker::new(seed)))),
    };
    let file = move |(n, (bytes, state))| File { name: format!("{letter}{seed}_{n}"), bytes, state };
    made.take(count).enumerate().map(file)
}

fn made<M: Maker>(mut maker: M) -> impl Iterator<Item = (Vec<u8>, State)> {
    let group = move || {
        let original = maker.original();
        let bytes = M::bytes(&original);
        let mut group = vec![];
        for _ in 0..M::COPIES {
            let copy = maker.damaged(&original);
            let state = if copy == bytes { State::Unchanged } else { State::Damaged };
            group.push((copy, state));
        }
        group.insert(0, (bytes, State::Undamaged));
        group
    };
    repeat_with(group).flatten()
}
