//! A `Vec` that counts what is added to it. Rascal's p-code file is built with it in the place of std's, so that refusal 8
//! is met at the very action, push value or label that is about to be added, in the order of emission.

use std::cell::Cell;
use std::ops::{Deref, DerefMut};

#[derive(Debug, Clone, Copy, PartialEq, Eq)]
pub struct Counts {
    pub actions: usize,
    pub values: usize,
    pub labels: usize,
}

/// What a limit that is passed panics with.
#[derive(Debug, Clone, Copy, PartialEq, Eq)]
pub struct OverLimit;

thread_local! {
    static USED: Cell<Counts> = const { Cell::new(Counts { actions: 0, values: 0, labels: 0 }) };
    static LIMITS: Cell<Counts> = const { Cell::new(Counts { actions: 0, values: 0, labels: 0 }) };
}

/// Counts from 0 again, up to these limits.
pub fn start(limits: Counts) {
    USED.set(Counts { actions: 0, values: 0, labels: 0 });
    LIMITS.set(limits);
}

pub fn used() -> Counts {
    USED.get()
}

fn add(actions: usize, values: usize, labels: usize) {
    let (used, limits) = (USED.get(), LIMITS.get());
    let next = Counts { actions: used.actions + actions, values: used.values + values, labels: used.labels + labels };
    if next.actions > limits.actions || next.values > limits.values || next.labels > limits.labels {
        std::panic::panic_any(OverLimit);
    }
    USED.set(next);
}

pub fn action() {
    add(1, 0, 0);
}

pub fn value() {
    add(0, 1, 0);
}

pub fn label() {
    add(0, 0, 1);
}

/// What is done before an element joins a `Vec`.
pub trait Element {
    fn joins() {}
}

impl Element for String {}
impl<T: ?Sized> Element for &T {}
impl<A, B> Element for (A, B) {}

#[derive(Debug, Clone, PartialEq)]
pub struct Vec<T>(std::vec::Vec<T>);

impl<T> Default for Vec<T> {
    fn default() -> Self {
        Vec(std::vec::Vec::new())
    }
}

impl<T: Element> Vec<T> {
    pub fn of<const N: usize>(items: [T; N]) -> Self {
        for _ in 0..N {
            T::joins();
        }
        Vec(items.into())
    }

    pub fn push(&mut self, item: T) {
        T::joins();
        self.0.push(item);
    }
}

impl<T> Vec<T> {
    /// The elements were counted when they joined the other one.
    pub fn append(&mut self, other: &mut Self) {
        self.0.append(&mut other.0);
    }
}

impl<T> Deref for Vec<T> {
    type Target = [T];
    fn deref(&self) -> &[T] {
        &self.0
    }
}

impl<T> DerefMut for Vec<T> {
    fn deref_mut(&mut self) -> &mut [T] {
        &mut self.0
    }
}

/// Collected elements are strings and parameters, which no limit counts.
impl<T> FromIterator<T> for Vec<T> {
    fn from_iter<I: IntoIterator<Item = T>>(items: I) -> Self {
        Vec(items.into_iter().collect())
    }
}

impl<T> IntoIterator for Vec<T> {
    type Item = T;
    type IntoIter = std::vec::IntoIter<T>;
    fn into_iter(self) -> Self::IntoIter {
        self.0.into_iter()
    }
}

impl<'a, T> IntoIterator for &'a Vec<T> {
    type Item = &'a T;
    type IntoIter = std::slice::Iter<'a, T>;
    fn into_iter(self) -> Self::IntoIter {
        self.0.iter()
    }
}
