//! Steps that make a script file smaller: on its tree, on its records where these are no tree, on its bytes where there are
//! no records.

use crate::check::{self, Record};
use crate::kinds::*;
use crate::node::*;
use crate::shrink::{Step, byte_steps, ranges};
use std::collections::BTreeSet;
use std::ops::Range;

pub struct Script<'a> {
    file: &'a [u8],
    strings: Vec<Vec<u8>>,
    form: Form,
}

enum Form {
    Tree(Node),
    Records(Vec<Record>),
    Bytes,
}

/// A change of one node.
#[derive(Clone)]
enum Edit {
    /// Leaves out elements of a list.
    Remove(Range<usize>),
    Replace(Node),
    /// Puts the node of this number below it in its place.
    Lift(usize),
    /// Sets a word to 0.
    Zero(usize),
}

impl<'a> Script<'a> {
    pub fn read(file: &'a [u8]) -> Script<'a> {
        let Some((strings, records)) = check::areas(file) else {
            return Script { file, strings: vec![], form: Form::Bytes };
        };
        let strings = strings.into_iter().map(<[u8]>::to_vec).collect();
        Script { file, strings, form: tree(&records).map_or(Form::Records(records), Form::Tree) }
    }

    pub fn steps(&self) -> Vec<Step<'_>> {
        let mut steps: Vec<Step> = vec![];
        match &self.form {
            Form::Tree(root) => {
                for (at, node) in root.all().into_iter().enumerate() {
                    for edit in edits(node) {
                        steps.push(Box::new(move || {
                            let mut root = root.clone();
                            root.at_mut(at).edit(edit.clone());
                            Some(Parts::new(&self.strings, &root).bytes())
                        }));
                    }
                }
                let named = named(root);
                for i in 0..self.strings.len() {
                    if !named.contains(&i) {
                        steps.push(Box::new(move || Some(self.without_string(root, i))));
                    }
                    steps.push(Box::new(move || self.with_next_string(root, i)));
                }
            }
            Form::Records(records) => {
                for range in ranges(records.len()) {
                    let fewer = move || [&records[..range.start], &records[range.end..]].concat();
                    steps.push(Box::new(move || Some(Parts::of_records(&self.strings, fewer()).bytes())));
                }
            }
            Form::Bytes => return byte_steps(self.file),
        }
        for i in 0..self.strings.len() {
            for range in ranges(self.strings[i].len()).filter(|range| range.start == 0) {
                steps.push(Box::new(move || self.with_shorter_string(i, range.len())));
            }
        }
        steps
    }

    /// A copy without the first bytes of a string.
    fn with_shorter_string(&self, i: usize, bytes: usize) -> Option<Vec<u8>> {
        let mut strings = self.strings.clone();
        strings[i].drain(..bytes);
        Some(match &self.form {
            Form::Tree(root) => Parts::new(&strings, root).bytes(),
            Form::Records(records) => Parts::of_records(&strings, records.clone()).bytes(),
            Form::Bytes => return None,
        })
    }

    /// A copy without a string that no record names.
    fn without_string(&self, root: &Node, i: usize) -> Vec<u8> {
        let mut strings = self.strings.clone();
        strings.remove(i);
        moved_down(i + 1, root, &strings)
    }

    /// A copy in which a string and the next one are one.
    fn with_next_string(&self, root: &Node, i: usize) -> Option<Vec<u8>> {
        let mut strings = self.strings.clone();
        let next = (i + 1 < strings.len()).then(|| strings.remove(i + 1))?;
        strings[i].extend(next);
        Some(moved_down(i + 1, root, &strings))
    }
}

/// The strings that a tree names.
fn named(root: &Node) -> BTreeSet<usize> {
    let mut all = BTreeSet::new();
    root.clone().each_mut(&mut |node| all.extend(string_word(node).map(|(_, index)| index)));
    all
}

/// A copy in which the strings from this index on have moved down by one.
fn moved_down(first: usize, root: &Node, strings: &[Vec<u8>]) -> Vec<u8> {
    let mut root = root.clone();
    root.each_mut(&mut |node| {
        if let Some((word, index)) = string_word(node) {
            *word -= (index >= first) as u32;
        }
    });
    Parts::new(strings, &root).bytes()
}

/// The word that names a string, and the string's index.
fn string_word(node: &mut Node) -> Option<(&mut u32, usize)> {
    let (word, added) = match (node.kind, node.a, node.b) {
        (DECLARE | OBJECT_FIELD | PARAMETER, ..) => (&mut node.a, 0),
        (FUNCTION, 1.., _) => (&mut node.a, 1),
        (CONSTANT, 0 | 1, _) => (&mut node.b, 0),
        (FOR_IN, 0, 0 | 1) => (&mut node.c, 0),
        _ => return None,
    };
    let index = *word as usize - added;
    Some((word, index))
}

/// The long removals first. A copy that breaks a rule is refused by both sides, and so shows no difference.
fn edits(n: &Node) -> Vec<Edit> {
    let mut edits = vec![];
    if n.kind == LIST {
        edits.extend(ranges(n.children.len()).map(Edit::Remove));
    }
    edits.extend([absent(), node(BREAK, []), integer(0), list(vec![])].map(Edit::Replace));
    let fits = |kind| if is_expression(n.kind) { is_expression(kind) } else { is_statement(kind) || is_expression(kind) };
    let below = n.all().into_iter().enumerate().skip(1);
    edits.extend(below.filter(|(_, other)| n.kind != LIST && fits(other.kind)).map(|(number, _)| Edit::Lift(number)));
    edits.extend((0..3).map(Edit::Zero));
    edits
}

impl Node {
    fn edit(&mut self, edit: Edit) {
        match edit {
            Edit::Remove(range) => {
                self.a = self.a.wrapping_sub(range.len() as u32);
                self.children.drain(range);
            }
            Edit::Replace(other) => *self = other,
            Edit::Lift(number) => {
                let other = self.at_mut(number).clone();
                *self = if is_statement(self.kind) && is_expression(other.kind) { run(other) } else { other };
            }
            Edit::Zero(word) => *[&mut self.a, &mut self.b, &mut self.c][word] = 0,
        }
    }
}
