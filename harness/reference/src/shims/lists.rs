//! Lists, maps and queues. They hold what the standard ones hold and tell `watch` of each
//! event that has a limit or begins a new part of the work.

use std::collections::{btree_set, BTreeSet, HashMap};
use std::hash::{BuildHasherDefault, Hasher};
use std::ops::{Deref, DerefMut, Index, IndexMut, RangeFull};

use super::track::{LinkIdx, Location};
use crate::meet_pass::disp_structs::EstIdx;
use crate::meet_pass::est_times::est_time_structs::{EstJoinPath, SavedSim, SimpleState};
use crate::meet_pass::est_times::EstTime;
use crate::watch;

/// In place of the standard `Vec`.
#[derive(Debug, Clone, PartialEq)]
pub struct Vec<T> {
    list: std::vec::Vec<T>,
    /// The item last lent for writing: at an addition the run's place.
    written: usize,
    /// Holds a leg's events and not a network. Only that list is ever cleared.
    holds_events: bool,
}

/// What a list's items have to tell.
pub trait Item: Sized {
    fn push(&self, _list: &Vec<Self>) {}
    fn popped(&self) {}
    fn walk(_list: &Vec<Self>) {}
}

impl Item for EstTime {
    fn push(&self, list: &Vec<Self>) {
        if !list.holds_events {
            watch::node(list.len(), list.written, self)
        }
    }
    fn walk(list: &Vec<Self>) {
        watch::events_made(list)
    }
}

impl Item for EstJoinPath {
    fn push(&self, list: &Vec<Self>) {
        watch::join_entry(list.len())
    }
}

impl Item for SavedSim {
    fn push(&self, _list: &Vec<Self>) {
        watch::wait(self.join_paths.len())
    }
    fn popped(&self) {
        watch::wait_no_more(self.join_paths.len())
    }
}

impl Item for EstIdx {}
impl Item for LinkIdx {}
impl Item for Location {}
impl Item for SimpleState {}

impl<T> Vec<T> {
    pub fn with_capacity(places: usize) -> Self {
        std::vec::Vec::with_capacity(places).into()
    }
}

impl<T: Item> Vec<T> {
    pub fn push(&mut self, item: T) {
        item.push(self);
        self.list.push(item)
    }
    pub fn pop(&mut self) -> Option<T> {
        let item = self.list.pop();
        item.iter().for_each(T::popped);
        item
    }
}

impl Vec<EstTime> {
    pub fn clear(&mut self) {
        self.holds_events = true;
        self.list.clear()
    }
    pub fn shrink_to_fit(&mut self) {
        watch::grown(&mut self.list)
    }
}

impl<T> Default for Vec<T> {
    fn default() -> Self {
        std::vec::Vec::new().into()
    }
}

impl<T> From<std::vec::Vec<T>> for Vec<T> {
    fn from(list: std::vec::Vec<T>) -> Self {
        Vec { list, written: 0, holds_events: false }
    }
}

impl<T> FromIterator<T> for Vec<T> {
    fn from_iter<I: IntoIterator<Item = T>>(items: I) -> Self {
        std::vec::Vec::from_iter(items).into()
    }
}

impl<T> Deref for Vec<T> {
    type Target = std::vec::Vec<T>;
    fn deref(&self) -> &Self::Target {
        &self.list
    }
}

impl<T> DerefMut for Vec<T> {
    fn deref_mut(&mut self) -> &mut Self::Target {
        &mut self.list
    }
}

impl<T> Index<usize> for Vec<T> {
    type Output = T;
    fn index(&self, index: usize) -> &T {
        &self.list[index]
    }
}

impl<T> IndexMut<usize> for Vec<T> {
    fn index_mut(&mut self, index: usize) -> &mut T {
        self.written = index;
        &mut self.list[index]
    }
}

impl<T> Index<RangeFull> for Vec<T> {
    type Output = [T];
    fn index(&self, _all: RangeFull) -> &[T] {
        &self.list
    }
}

impl<T> IntoIterator for Vec<T> {
    type Item = T;
    type IntoIter = std::vec::IntoIter<T>;
    fn into_iter(self) -> Self::IntoIter {
        self.list.into_iter()
    }
}

impl<'a, T: Item> IntoIterator for &'a Vec<T> {
    type Item = &'a T;
    type IntoIter = std::slice::Iter<'a, T>;
    fn into_iter(self) -> Self::IntoIter {
        T::walk(self);
        self.list.iter()
    }
}

/// The backward pass's flags. All have to be set when it lets go of them.
pub struct Flags(std::vec::Vec<bool>);

impl Flags {
    pub fn new(flag: bool, count: usize) -> Self {
        Flags(vec![flag; count])
    }
}

impl Index<usize> for Flags {
    type Output = bool;
    fn index(&self, index: usize) -> &bool {
        &self.0[index]
    }
}

impl IndexMut<usize> for Flags {
    fn index_mut(&mut self, index: usize) -> &mut bool {
        &mut self.0[index]
    }
}

impl Drop for Flags {
    fn drop(&mut self) {
        watch::passed(&self.0)
    }
}

/// A pass's queue.
pub struct BinaryHeap<T>(std::collections::BinaryHeap<T>);

impl<T: Ord> BinaryHeap<T> {
    #[allow(clippy::new_without_default)]
    pub fn new() -> Self {
        watch::pass_begins();
        BinaryHeap(std::collections::BinaryHeap::new())
    }
    pub fn is_empty(&self) -> bool {
        self.0.is_empty()
    }
    pub fn push(&mut self, entry: T) {
        self.0.push(entry)
    }
    pub fn pop(&mut self) -> Option<T> {
        watch::entry_taken();
        self.0.pop()
    }
}

/// Walked in rising order, as document 01 has it.
#[derive(Debug, Clone)]
pub struct IntSet<T>(BTreeSet<T>);

impl<T> IntSet<T> {
    pub fn with_capacity_and_hasher(_capacity: usize, _hasher: ()) -> Self {
        Self::default()
    }
}

impl<T> Default for IntSet<T> {
    fn default() -> Self {
        IntSet(BTreeSet::new())
    }
}

impl<T> Deref for IntSet<T> {
    type Target = BTreeSet<T>;
    fn deref(&self) -> &Self::Target {
        &self.0
    }
}

impl<T> DerefMut for IntSet<T> {
    fn deref_mut(&mut self) -> &mut Self::Target {
        &mut self.0
    }
}

impl<'a, T> IntoIterator for &'a IntSet<T> {
    type Item = &'a T;
    type IntoIter = btree_set::Iter<'a, T>;
    fn into_iter(self) -> Self::IntoIter {
        self.0.iter()
    }
}

/// Never walked, so in no order. Made when the options are found.
pub struct IntMap<K, V>(HashMap<K, V, BuildHasherDefault<Mixed>>);

impl<K, V> IntMap<K, V> {
    pub fn with_capacity_and_hasher(_capacity: usize, _hasher: ()) -> Self {
        watch::options_found();
        IntMap(HashMap::default())
    }
}

impl<K, V> Deref for IntMap<K, V> {
    type Target = HashMap<K, V, BuildHasherDefault<Mixed>>;
    fn deref(&self) -> &Self::Target {
        &self.0
    }
}

impl<K, V> DerefMut for IntMap<K, V> {
    fn deref_mut(&mut self) -> &mut Self::Target {
        &mut self.0
    }
}

/// One number mixed by a multiplication.
#[derive(Default)]
pub struct Mixed(u64);

impl Hasher for Mixed {
    fn finish(&self) -> u64 {
        self.0
    }
    fn write(&mut self, bytes: &[u8]) {
        bytes.iter().for_each(|byte| self.write_u64(*byte as u64))
    }
    fn write_u64(&mut self, number: u64) {
        let product = (self.0 ^ number).wrapping_mul(0x9e37_79b9_7f4a_7c15);
        self.0 = product ^ (product >> 32)
    }
}

pub mod nohash_hasher {
    pub trait IsEnabled {}
}
