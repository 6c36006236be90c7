//! Steps that make action bytes smaller: on their lists, where they have some, and on the bytes.

use crate::action_writer::write;
use crate::lists::{Act, Lists, Target};
use crate::shrink::{Step, byte_steps, ranges};
use crate::{LIST_WORDS, read};
use std::ops::Range;

pub struct Row<'a> {
    bytes: &'a [u8],
    lists: Lists,
}

impl<'a> Row<'a> {
    pub fn read(bytes: &'a [u8]) -> Row<'a> {
        Row { bytes, lists: read(bytes, LIST_WORDS).unwrap_or_default() }
    }

    pub fn steps(&self) -> Vec<Step<'_>> {
        let mut steps: Vec<Step> = vec![];
        for (n, list) in self.lists.0.iter().enumerate() {
            for range in ranges(list.actions.len()) {
                steps.push(self.step(move |lists| replace(lists, n, range.clone(), vec![])));
            }
            for (i, act) in list.actions.iter().enumerate() {
                if let Act::Function(f) = act {
                    let body = f.list;
                    steps.push(self.step(move |lists| replace(lists, n, i..i + 1, lists.0[body].actions.clone())));
                }
                for range in ranges(elements(act)) {
                    steps.push(self.step(move |lists| remove_elements(&mut lists.0[n].actions[i], range.clone())));
                }
            }
        }
        steps.extend(byte_steps(self.bytes));
        steps
    }

    fn step(&self, change: impl Fn(&mut Lists) + 'a) -> Step<'_> {
        Box::new(move || {
            let mut lists = self.lists.clone();
            change(&mut lists);
            write(&lists, usize::MAX).ok()
        })
    }
}

/// Puts other actions, with places from 0 on, in the place of some of a list. Branches keep to the actions they led to.
fn replace(lists: &mut Lists, n: usize, range: Range<usize>, mut others: Vec<Act>) {
    let more = others.len();
    others.iter_mut().for_each(|act| move_branch(act, |place| range.start + place));
    let actions = &mut lists.0[n].actions;
    let after = |place: usize| match place {
        place if place < range.end => place.min(range.start),
        place => place - range.len() + more,
    };
    actions.iter_mut().for_each(|act| move_branch(act, after));
    actions.splice(range.clone(), others);
}

fn move_branch(act: &mut Act, to: impl Fn(usize) -> usize) {
    if let Act::Jump(Target::Place(place)) | Act::If(Target::Place(place)) = act {
        *place = to(*place);
    }
}

/// How many values, strings, letters or parameters an action has.
fn elements(act: &Act) -> usize {
    match act {
        Act::Push(values) => values.len(),
        Act::ConstantPool(strings) => strings.len(),
        Act::GotoLabel(name) => name.len(),
        Act::Function(f) => f.name.len() + f.parameters.len(),
        _ => 0,
    }
}

fn remove_elements(act: &mut Act, range: Range<usize>) {
    match act {
        Act::Push(values) => drop(values.drain(range)),
        Act::ConstantPool(strings) => drop(strings.drain(range)),
        Act::GotoLabel(name) => drop(name.drain(range)),
        Act::Function(f) => {
            let names = f.name.len();
            f.name.drain(range.start.min(names)..range.end.min(names));
            f.parameters.drain(range.start.max(names) - names..range.end.max(names) - names);
        }
        _ => {}
    }
}
