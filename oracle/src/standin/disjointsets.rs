//! Stands in for the crate's union-find. Only the scheduler and the rule builder use it, and
//! neither runs here, so an empty set is the only one that exists.

use std::marker::PhantomData;

#[derive(Clone, Debug, Default)]
pub struct DisjointSets<T>(PhantomData<T>);

impl<T> DisjointSets<T> {
    pub fn find_mut(&mut self, _x: T) -> Option<T> {
        unreachable!("no rules are built")
    }

    pub fn find(&self, _x: T) -> Option<T> {
        unreachable!("no rules are built")
    }

    pub fn merge(&mut self, _x: T, _y: T) {
        unreachable!("no rules are built")
    }

    pub fn in_same_set(&self, _x: T, _y: T) -> bool {
        unreachable!("no rules are built")
    }

    pub fn remove_set_of(&mut self, _x: T) -> Vec<T> {
        unreachable!("no rules are built")
    }

    pub fn is_empty(&self) -> bool {
        true
    }

    pub fn len(&self) -> usize {
        0
    }
}
