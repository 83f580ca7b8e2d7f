//! Values by their numbers, in the order in which they came.
use std::collections::VecDeque;
use std::mem;

/// A list with more room than this keeps none once it is empty.
const FEW: usize = 64;

pub struct Numbered<V> {
    /// How many values came.
    last: u64,
    /// In the order of their numbers, and the first one is there. A value that is removed leaves a place, until there are
    /// more such places than values: so a value leaves a long list as fast as a short one.
    values: VecDeque<(u64, Option<V>)>,
    /// How many values are there.
    len: usize,
}

impl<V> Default for Numbered<V> {
    fn default() -> Numbered<V> {
        let (last, values, len) = (0, VecDeque::new(), 0);
        Numbered { last, values, len }
    }
}

impl<V> Numbered<V> {
    pub fn push(&mut self, value: V) -> u64 {
        self.last += 1;
        self.values.push_back((self.last, Some(value)));
        self.len += 1;
        self.last
    }

    fn index(&self, number: u64) -> Option<usize> {
        self.values.binary_search_by_key(&number, |it| it.0).ok()
    }

    pub fn get_mut(&mut self, number: u64) -> Option<&mut V> {
        let at = self.index(number)?;
        self.values[at].1.as_mut()
    }

    pub fn remove(&mut self, number: u64) -> Option<V> {
        let at = self.index(number)?;
        let removed = self.values[at].1.take()?;
        self.len -= 1;
        while self.values.front().is_some_and(|it| it.1.is_none()) {
            self.values.pop_front();
        }
        if self.values.len() > 2 * self.len {
            self.values.retain(|it| it.1.is_some());
        }
        if self.len == 0 && self.values.capacity() > FEW {
            self.values = VecDeque::new();
        }
        Some(removed)
    }

    pub fn pop_first(&mut self) -> Option<V> {
        let number = self.values.front()?.0;
        self.remove(number)
    }

    pub fn len(&self) -> usize {
        self.len
    }

    pub fn iter_mut(&mut self) -> impl Iterator<Item = &mut V> {
        self.values.iter_mut().filter_map(|it| it.1.as_mut())
    }

    /// Takes all.
    pub fn take_all(&mut self) -> impl Iterator<Item = V> {
        self.len = 0;
        mem::take(&mut self.values)
            .into_iter()
            .filter_map(|it| it.1)
    }
}
