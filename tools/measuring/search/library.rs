//! The part of the toolchain's library that the crates use, over Rust's own: calls that allocate get an allocator and may fail.

use std::ops::{Deref, DerefMut};

/// Allocates memory, which never runs out here.
#[derive(Clone, Copy)]
pub struct Global;

/// The error when memory runs out: never.
#[derive(Clone, Copy, Debug, PartialEq, Eq)]
pub struct AllocError;

/// Values that may be dropped: here each type.
pub trait Drop: Sized {}

impl<T> Drop for T {}

#[derive(Debug, PartialEq, Eq, PartialOrd, Ord)]
pub struct Vec<T>(std::vec::Vec<T>);

type Granted<T> = Result<T, AllocError>;

/// A number of copies of one value.
pub fn filled<T: Clone>(value: T, length: usize) -> Granted<Vec<T>> {
    Ok(Vec(vec![value; length]))
}

impl<T> Vec<T> {
    pub fn new(_: Global) -> Vec<T> {
        Vec(std::vec::Vec::new())
    }

    pub fn with_capacity(_: Global, room: usize) -> Granted<Vec<T>> {
        Ok(Vec(std::vec::Vec::with_capacity(room)))
    }

    pub fn push(&mut self, value: T) -> Granted<()> {
        self.0.push(value);
        Ok(())
    }

    pub fn reserve(&mut self, room: usize) -> Granted<()> {
        self.0.reserve(room);
        Ok(())
    }

    pub fn push_reserved(&mut self, value: T) {
        self.0.push(value);
    }

    pub fn insert(&mut self, place: usize, value: T) -> Granted<()> {
        self.0.insert(place, value);
        Ok(())
    }

    pub fn remove(&mut self, place: usize) -> T {
        self.0.remove(place)
    }

    pub fn pop(&mut self) -> Option<T> {
        self.0.pop()
    }

    pub fn take_last(&mut self) -> T {
        self.0.pop().unwrap()
    }

    pub fn clear(&mut self) {
        self.0.clear();
    }

    pub fn truncate(&mut self, length: usize) {
        self.0.truncate(length);
    }

    pub fn as_slice(&self) -> &[T] {
        &self.0
    }

    pub fn as_mut_slice(&mut self) -> &mut [T] {
        &mut self.0
    }
}

impl<T: Clone> Vec<T> {
    pub fn from_slice(_: Global, values: &[T]) -> Granted<Vec<T>> {
        Ok(Vec(values.to_vec()))
    }

    pub fn clone(&self) -> Granted<Vec<T>> {
        Ok(Vec(self.0.clone()))
    }

    pub fn extend_from_slice(&mut self, values: &[T]) -> Granted<()> {
        self.0.extend_from_slice(values);
        Ok(())
    }

    pub fn extend_from_within(&mut self, places: std::ops::RangeFull) -> Granted<()> {
        self.0.extend_from_within(places);
        Ok(())
    }

    pub fn resize(&mut self, length: usize, value: T) -> Granted<()> {
        self.0.resize(length, value);
        Ok(())
    }
}

impl<T> Deref for Vec<T> {
    type Target = [T];

    fn deref(&self) -> &[T] {
        &self.0
    }
}

impl<T> DerefMut for Vec<T> {
    fn deref_mut(&mut self) -> &mut [T] {
        &mut self.0
    }
}

impl<T> IntoIterator for Vec<T> {
    type Item = T;
    type IntoIter = std::vec::IntoIter<T>;

    fn into_iter(self) -> Self::IntoIter {
        self.0.into_iter()
    }
}

impl<'a, T> IntoIterator for &'a Vec<T> {
    type Item = &'a T;
    type IntoIter = std::slice::Iter<'a, T>;

    fn into_iter(self) -> Self::IntoIter {
        self.0.iter()
    }
}

impl<'a, T> IntoIterator for &'a mut Vec<T> {
    type Item = &'a mut T;
    type IntoIter = std::slice::IterMut<'a, T>;

    fn into_iter(self) -> Self::IntoIter {
        self.0.iter_mut()
    }
}

pub struct BinaryHeap<T>(std::collections::BinaryHeap<T>);

impl<T: Ord> BinaryHeap<T> {
    pub fn new(_: Global) -> BinaryHeap<T> {
        BinaryHeap(std::collections::BinaryHeap::new())
    }

    pub fn push(&mut self, value: T) -> Granted<()> {
        self.0.push(value);
        Ok(())
    }

    pub fn pop(&mut self) -> Option<T> {
        self.0.pop()
    }
}

macro_rules! prove {
    ($($fact:tt)*) => {};
}

pub(crate) use prove;

pub mod btree_map {
    pub use std::collections::btree_map::Iter;
}

pub mod btree_set {
    pub use std::collections::btree_set::Iter;
}

/// An ordered map.
pub struct BTreeMap<K, V>(std::collections::BTreeMap<K, V>);

impl<K: Ord, V> BTreeMap<K, V> {
    pub fn new(_: Global) -> BTreeMap<K, V> {
        BTreeMap(std::collections::BTreeMap::new())
    }

    pub fn from_iter(_: Global, pairs: Vec<(K, V)>) -> Granted<BTreeMap<K, V>> {
        Ok(BTreeMap(pairs.into_iter().collect()))
    }

    pub fn insert(&mut self, key: K, value: V) -> Granted<Option<V>> {
        Ok(self.0.insert(key, value))
    }
}

impl<K, V> Deref for BTreeMap<K, V> {
    type Target = std::collections::BTreeMap<K, V>;

    fn deref(&self) -> &Self::Target {
        &self.0
    }
}

impl<K, V> DerefMut for BTreeMap<K, V> {
    fn deref_mut(&mut self) -> &mut Self::Target {
        &mut self.0
    }
}

/// An ordered set.
pub struct BTreeSet<T>(std::collections::BTreeSet<T>);

impl<T: Ord> BTreeSet<T> {
    pub fn new(_: Global) -> BTreeSet<T> {
        BTreeSet(std::collections::BTreeSet::new())
    }

    pub fn insert(&mut self, value: T) -> Granted<bool> {
        Ok(self.0.insert(value))
    }
}

impl<T> Deref for BTreeSet<T> {
    type Target = std::collections::BTreeSet<T>;

    fn deref(&self) -> &Self::Target {
        &self.0
    }
}

impl<T> DerefMut for BTreeSet<T> {
    fn deref_mut(&mut self) -> &mut Self::Target {
        &mut self.0
    }
}

/// Values at slots; freed slots are reused, the last one first.
pub struct Slab<T> {
    entries: std::vec::Vec<Option<T>>,
    vacant: std::vec::Vec<usize>,
}

impl<T> Slab<T> {
    pub fn new(_: Global) -> Slab<T> {
        Slab { entries: std::vec::Vec::new(), vacant: std::vec::Vec::new() }
    }

    pub fn with_capacity(_: Global, room: usize) -> Granted<Slab<T>> {
        Ok(Slab { entries: std::vec::Vec::with_capacity(room), vacant: std::vec::Vec::new() })
    }

    pub fn reserve(&mut self, room: usize) -> Granted<()> {
        self.entries.reserve(room);
        Ok(())
    }

    pub fn len(&self) -> usize {
        self.entries.len() - self.vacant.len()
    }

    pub fn get(&self, key: usize) -> Option<&T> {
        self.entries.get(key)?.as_ref()
    }

    pub fn vacant_key(&self) -> usize {
        self.vacant.last().copied().unwrap_or(self.entries.len())
    }

    pub fn insert_reserved(&mut self, value: T) -> usize {
        match self.vacant.pop() {
            Some(key) => {
                self.entries[key] = Some(value);
                key
            }
            None => {
                self.entries.push(Some(value));
                self.entries.len() - 1
            }
        }
    }

    pub fn remove(&mut self, key: usize) -> T {
        self.vacant.push(key);
        self.entries[key].take().unwrap()
    }
}

impl<T> std::ops::Index<usize> for Slab<T> {
    type Output = T;

    fn index(&self, key: usize) -> &T {
        self.entries[key].as_ref().unwrap()
    }
}

impl<T> std::ops::IndexMut<usize> for Slab<T> {
    fn index_mut(&mut self, key: usize) -> &mut T {
        self.entries[key].as_mut().unwrap()
    }
}

/// Seconds and parts of 10^9 of them, as the system's clocks return them.
#[repr(C)]
struct Clock {
    seconds: i64,
    parts: i64,
}

unsafe extern "C" {
    fn clock_gettime(clock: i32, told: *mut Clock) -> i32;
}

/// The processor time of this process.
pub fn seconds() -> f64 {
    let mut told = Clock { seconds: 0, parts: 0 };
    unsafe { clock_gettime(2, &mut told) };
    told.seconds as f64 + told.parts as f64 / 1e9
}
