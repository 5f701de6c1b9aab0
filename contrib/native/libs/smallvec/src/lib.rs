//! A vector; it keeps nothing inline.
use rstd::alloc::{AllocError, AllocFailed, Global};
use std::ops::{Deref, DerefMut};
#[derive(Debug, PartialEq, Eq, PartialOrd, Ord, Hash)]
pub struct SmallVec<T, const N: usize>(Vec<T>);
impl<T, const N: usize> SmallVec<T, N> {
    pub fn new(_alloc: Global) -> Self { SmallVec(Vec::new()) }
    pub fn push(&mut self, x: T) -> Result<(), AllocFailed<T>> { self.0.push(x); Ok(()) }
    pub fn pop(&mut self) -> Option<T> { self.0.pop() }
    pub fn as_slice(&self) -> &[T] { &self.0 }
    pub fn as_mut_slice(&mut self) -> &mut [T] { &mut self.0 }
    pub fn truncate(&mut self, n: usize) { self.0.truncate(n) }
    pub fn clear(&mut self) { self.0.clear() }
    pub fn from_slice(_alloc: Global, items: &[T]) -> Result<Self, AllocError> where T: Copy { Ok(SmallVec(items.to_vec())) }
    pub fn extend_from_slice(&mut self, items: &[T]) -> Result<(), AllocError> where T: Copy { self.0.extend_from_slice(items); Ok(()) }
}
impl<T, const N: usize> Deref for SmallVec<T, N> { type Target = [T]; fn deref(&self) -> &[T] { &self.0 } }
impl<T, const N: usize> DerefMut for SmallVec<T, N> { fn deref_mut(&mut self) -> &mut [T] { &mut self.0 } }
