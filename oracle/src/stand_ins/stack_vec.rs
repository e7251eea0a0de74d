//! Stands for bbx_core::StackVec; keeps a Vec of at most N inside, and leaves out all that voice.rs does not call.

use std::ops::{Index, IndexMut};

#[derive(Debug, Clone)]
pub struct StackVec<T, const N: usize> {
    items: Vec<T>,
}

impl<T, const N: usize> StackVec<T, N> {
    pub fn new() -> Self {
        Self { items: Vec::with_capacity(N) }
    }
    /// A full stack hands the item back and stays as it is: "silently dropped", says voice.rs.
    pub fn push(&mut self, item: T) -> Result<(), T> {
        if self.items.len() < N {
            self.items.push(item);
            Ok(())
        } else {
            Err(item)
        }
    }
    pub fn pop(&mut self) -> Option<T> {
        self.items.pop()
    }
    pub fn len(&self) -> usize {
        self.items.len()
    }
    pub fn clear(&mut self) {
        self.items.clear();
    }
    pub fn as_slice(&self) -> &[T] {
        &self.items
    }
}

impl<T, const N: usize> Index<usize> for StackVec<T, N> {
    type Output = T;
    fn index(&self, at: usize) -> &T {
        &self.items[at]
    }
}

impl<T, const N: usize> IndexMut<usize> for StackVec<T, N> {
    fn index_mut(&mut self, at: usize) -> &mut T {
        &mut self.items[at]
    }
}
