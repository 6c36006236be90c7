//! Stands in for indexmap: a map and a set in the order of insertion, with the calls that Rascal's files make.

use std::borrow::Borrow;
use std::collections::HashMap;
use std::hash::Hash;

#[derive(Debug, Clone)]
pub struct IndexMap<K, V> {
    entries: Vec<(K, V)>,
    places: HashMap<K, usize>,
}

impl<K, V> Default for IndexMap<K, V> {
    fn default() -> Self {
        IndexMap { entries: Vec::new(), places: HashMap::new() }
    }
}

impl<K: Eq + Hash, V: PartialEq> PartialEq for IndexMap<K, V> {
    fn eq(&self, other: &Self) -> bool {
        self.entries.len() == other.entries.len()
            && self.entries.iter().all(|(k, v)| other.places.get(k).is_some_and(|&i| other.entries[i].1 == *v))
    }
}

impl<K, V> IndexMap<K, V> {
    pub fn new() -> Self {
        Self::default()
    }

    pub fn values(&self) -> impl Iterator<Item = &V> {
        self.entries.iter().map(|e| &e.1)
    }

    pub fn iter(&self) -> impl Iterator<Item = (&K, &V)> {
        self.entries.iter().map(|e| (&e.0, &e.1))
    }

    pub fn len(&self) -> usize {
        self.entries.len()
    }

    pub fn is_empty(&self) -> bool {
        self.entries.is_empty()
    }
}

impl<K: Eq + Hash + Clone, V> IndexMap<K, V> {
    /// A key that is there keeps its place, as in indexmap.
    pub fn insert(&mut self, key: K, value: V) -> Option<V> {
        if let Some(&i) = self.places.get(&key) {
            return Some(std::mem::replace(&mut self.entries[i].1, value));
        }
        self.places.insert(key.clone(), self.entries.len());
        self.entries.push((key, value));
        None
    }

    pub fn contains_key<Q: Eq + Hash + ?Sized>(&self, key: &Q) -> bool
    where
        K: Borrow<Q>,
    {
        self.places.contains_key(key)
    }

    pub fn get<Q: Eq + Hash + ?Sized>(&self, key: &Q) -> Option<&V>
    where
        K: Borrow<Q>,
    {
        self.places.get(key).map(|&i| &self.entries[i].1)
    }

    pub fn get_mut<Q: Eq + Hash + ?Sized>(&mut self, key: &Q) -> Option<&mut V>
    where
        K: Borrow<Q>,
    {
        self.places.get(key).map(|&i| &mut self.entries[i].1)
    }

    pub fn entry(&mut self, key: K) -> Entry<'_, K, V> {
        Entry { map: self, key }
    }
}

pub struct Entry<'a, K, V> {
    map: &'a mut IndexMap<K, V>,
    key: K,
}

impl<'a, K: Eq + Hash + Clone, V: Default> Entry<'a, K, V> {
    pub fn or_default(self) -> &'a mut V {
        let i = match self.map.places.get(&self.key) {
            Some(&i) => i,
            None => {
                self.map.insert(self.key, V::default());
                self.map.entries.len() - 1
            }
        };
        &mut self.map.entries[i].1
    }
}

impl<K, V> IntoIterator for IndexMap<K, V> {
    type Item = (K, V);
    type IntoIter = std::vec::IntoIter<(K, V)>;
    fn into_iter(self) -> Self::IntoIter {
        self.entries.into_iter()
    }
}

impl<'a, K, V> IntoIterator for &'a IndexMap<K, V> {
    type Item = (&'a K, &'a V);
    type IntoIter = std::iter::Map<std::slice::Iter<'a, (K, V)>, fn(&'a (K, V)) -> (&'a K, &'a V)>;
    fn into_iter(self) -> Self::IntoIter {
        self.entries.iter().map(|e| (&e.0, &e.1))
    }
}

#[derive(Debug, Clone)]
pub struct IndexSet<K>(IndexMap<K, ()>);

impl<K> Default for IndexSet<K> {
    fn default() -> Self {
        IndexSet(IndexMap::default())
    }
}

impl<K: Eq + Hash> PartialEq for IndexSet<K> {
    fn eq(&self, other: &Self) -> bool {
        self.0 == other.0
    }
}

impl<K: Eq + Hash + Clone> IndexSet<K> {
    pub fn insert(&mut self, key: K) -> bool {
        self.0.insert(key, ()).is_none()
    }
}

impl<'a, K> IntoIterator for &'a IndexSet<K> {
    type Item = &'a K;
    type IntoIter = std::iter::Map<std::slice::Iter<'a, (K, ())>, fn(&'a (K, ())) -> &'a K>;
    fn into_iter(self) -> Self::IntoIter {
        self.0.entries.iter().map(|e| &e.0)
    }
}
