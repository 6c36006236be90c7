//! Makes a file smaller, step by step, while it shows a difference.

use crate::generated::Kind;
use crate::sides::Sides;
use crate::{shrink_bytes, shrink_script};
use std::iter::successors;
use std::ops::Range;

/// Makes a copy with something left out or set to zero; none where no such file can be written.
pub type Step<'a> = Box<dyn Fn() -> Option<Vec<u8>> + 'a>;

/// Copies that are compared at once.
const BATCH: usize = 50;

/// A file with a difference that no single step makes smaller.
pub fn shrink(sides: &Sides, kind: Kind, mut file: Vec<u8>) -> Vec<u8> {
    let mut from = 0;
    loop {
        let smaller = match kind {
            Kind::Bytes => first(sides, &file, shrink_bytes::Row::read(&file).steps(), from),
            Kind::Scripts | Kind::Overflow | Kind::Idle | Kind::Texts => {
                first(sides, &file, shrink_script::Script::read(&file).steps(), from)
            }
        };
        match smaller {
            Some(smaller) => (from, file) = smaller,
            None => return file,
        }
    }
}

/// The first smaller copy with a difference and its step's number. Goes through all steps, from the one that helped last.
fn first(sides: &Sides, file: &[u8], steps: Vec<Step>, from: usize) -> Option<(usize, Vec<u8>)> {
    let from = from.min(steps.len());
    let numbers = (from..steps.len()).chain(0..from);
    let mut smaller = numbers.filter_map(|n| Some((n, steps[n]()?))).filter(|(_, copy)| size(copy) < size(file));
    loop {
        let (numbers, mut copies): (Vec<usize>, Vec<Vec<u8>>) = smaller.by_ref().take(BATCH).unzip();
        if copies.is_empty() {
            return None;
        }
        if let Some(i) = sides.first_different(&copies) {
            return Some((numbers[i], copies.swap_remove(i)));
        }
    }
}

/// Every step lowers it, so shrinking ends.
fn size(file: &[u8]) -> (usize, usize) {
    (file.len(), file.iter().map(|&b| b as usize).sum())
}

/// Parts of a row, the long ones first: all of it, its halves, and so on down to single elements.
pub fn ranges(length: usize) -> impl Iterator<Item = Range<usize>> {
    let sizes = successors((length > 0).then_some(length), |&n| (n > 1).then_some(n.div_ceil(2)));
    sizes.flat_map(move |size| (0..length).step_by(size).map(move |from| from..length.min(from + size)))
}

/// Bytes left out or set to zero, where nothing is known of what they mean.
pub fn byte_steps(bytes: &[u8]) -> Vec<Step<'_>> {
    // In a short row every short range is tried, so that records go whole.
    let short = if bytes.len() > 1_000 { 0 } else { 24 };
    let at_any_place = (2..=short).rev().flat_map(|size| (size..=bytes.len()).map(move |end| end - size..end));
    let mut steps: Vec<Step> = vec![];
    for range in ranges(bytes.len()).chain(at_any_place) {
        steps.push(Box::new(move || Some([&bytes[..range.start], &bytes[range.end..]].concat())));
    }
    for range in ranges(bytes.len()) {
        steps.push(Box::new(move || {
            let mut copy = bytes.to_vec();
            copy[range.clone()].fill(0);
            Some(copy)
        }));
    }
    steps
}
