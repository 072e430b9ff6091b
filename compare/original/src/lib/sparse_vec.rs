//! Stand-in: "`SparseVec` gives the smallest unused id".
use std::ops::{Index, IndexMut};

pub struct SparseVec<T>(Vec<Option<T>>);

impl<T> SparseVec<T> {
    pub const fn new() -> SparseVec<T> {
        SparseVec(Vec::new())
    }
    pub fn insert(&mut self, value: T) -> usize {
        let free = self.0.iter().position(|place| place.is_none());
        let id = free.unwrap_or(self.0.len());
        if id == self.0.len() {
            self.0.push(None);
        }
        self.0[id] = Some(value);
        id
    }
    #[track_caller]
    pub fn remove(&mut self, id: usize) {
        self.0[id] = None;
    }
    pub fn get(&self, id: usize) -> Option<&T> {
        self.0.get(id).and_then(|place| place.as_ref())
    }
    pub fn count(&self) -> usize {
        self.iter().count()
    }
    pub fn iter<'a>(&'a self) -> impl Iterator<Item = &'a T> + 'a {
        self.0.iter().filter_map(|place| place.as_ref())
    }
    pub fn iter_mut<'a>(&'a mut self) -> impl Iterator<Item = &'a mut T> + 'a {
        self.0.iter_mut().filter_map(|place| place.as_mut())
    }
}

impl<T> Index<usize> for SparseVec<T> {
    type Output = T;
    #[track_caller]
    fn index(&self, id: usize) -> &T {
        self.get(id).expect("no such id")
    }
}

impl<T> IndexMut<usize> for SparseVec<T> {
    #[track_caller]
    fn index_mut(&mut self, id: usize) -> &mut T {
        self.0.get_mut(id).and_then(|place| place.as_mut()).expect("no such id")
    }
}
