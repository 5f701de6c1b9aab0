use crate::alloc_::{AllocError, AllocFailed, Global};
use ::std::cmp::Ordering;
use ::std::ops::{Deref, DerefMut, Index, IndexMut, RangeBounds};
use ::std::slice::SliceIndex;

pub use ::std::vec::IntoIter;

impl<T: ::std::fmt::Debug> ::std::fmt::Debug for Vec<T> {
    fn fmt(&self, f: &mut ::std::fmt::Formatter<'_>) -> ::std::fmt::Result {
        self.0.fmt(f)
    }
}

#[derive(PartialEq, Eq, PartialOrd, Ord, Hash)]
pub struct Vec<T>(pub ::std::vec::Vec<T>);

impl<T> Vec<T> {
    pub fn new(_alloc: Global) -> Vec<T> {
        Vec(::std::vec::Vec::new())
    }
    pub fn with_capacity(_alloc: Global, n: usize) -> Result<Vec<T>, AllocError> {
        Ok(Vec(::std::vec::Vec::with_capacity(n)))
    }
    pub fn from_array<const N: usize>(_alloc: Global, items: [T; N]) -> Result<Vec<T>, AllocError> {
        Ok(Vec(items.into()))
    }
    pub fn allocator(&self) -> &Global {
        &Global
    }
    pub fn as_slice(&self) -> &[T] {
        &self.0
    }
    pub fn as_mut_slice(&mut self) -> &mut [T] {
        &mut self.0
    }
    pub fn as_ref(&self) -> &[T] {
        &self.0
    }
    pub fn as_mut(&mut self) -> &mut [T] {
        &mut self.0
    }
    pub fn capacity(&self) -> usize {
        self.0.capacity()
    }
    pub fn push(&mut self, value: T) -> Result<(), AllocFailed<T>> {
        self.0.push(value);
        Ok(())
    }
    pub fn push_mut(&mut self, value: T) -> Result<&mut T, AllocFailed<T>> {
        self.0.push(value);
        Ok(self.0.last_mut().unwrap())
    }
    pub fn push_reserved(&mut self, value: T) {
        self.0.push(value)
    }
    pub fn pop(&mut self) -> Option<T> {
        self.0.pop()
    }
    pub fn take_last(&mut self) -> T {
        self.0.pop().unwrap()
    }
    pub fn insert(&mut self, at: usize, value: T) -> Result<(), AllocFailed<T>> {
        self.0.insert(at, value);
        Ok(())
    }
    pub fn remove(&mut self, at: usize) -> T {
        self.0.remove(at)
    }
    pub fn swap_remove(&mut self, at: usize) -> T {
        self.0.swap_remove(at)
    }
    pub fn clear(&mut self) {
        self.0.clear()
    }
    pub fn truncate(&mut self, n: usize) {
        self.0.truncate(n)
    }
    pub fn append(&mut self, other: &mut Vec<T>) -> Result<(), AllocError> {
        self.0.append(&mut other.0);
        Ok(())
    }
    pub fn reserve(&mut self, n: usize) -> Result<(), AllocError> {
        self.0.reserve(n);
        Ok(())
    }
    pub fn reserve_exact(&mut self, n: usize) -> Result<(), AllocError> {
        self.0.reserve_exact(n);
        Ok(())
    }
    pub fn try_reserve(&mut self, n: usize) -> Result<(), AllocError> {
        self.reserve(n)
    }
    pub fn shrink_to_fit(&mut self) {
        self.0.shrink_to_fit()
    }
    pub fn split_off(&mut self, at: usize) -> Result<Vec<T>, AllocError> {
        Ok(Vec(self.0.split_off(at)))
    }
    pub fn drain<R: RangeBounds<usize>>(&mut self, range: R) -> Result<::std::vec::Drain<'_, T>, AllocError> {
        Ok(self.0.drain(range))
    }
    pub fn retain<F: FnMut(&T) -> bool>(&mut self, f: F) {
        self.0.retain(f)
    }
    pub fn retain_mut<F: FnMut(&mut T) -> bool>(&mut self, f: F) {
        self.0.retain_mut(f)
    }
    pub fn dedup_by<F: FnMut(&mut T, &mut T) -> bool>(&mut self, f: F) {
        self.0.dedup_by(f)
    }
    pub fn dedup_by_key<K: PartialEq, F: FnMut(&mut T) -> K>(&mut self, f: F) {
        self.0.dedup_by_key(f)
    }
    pub fn resize_with<F: FnMut() -> T>(&mut self, n: usize, f: F) -> Result<(), AllocError> {
        self.0.resize_with(n, f);
        Ok(())
    }
    pub fn try_resize_with<E: From<AllocError>, F: FnMut() -> Result<T, E>>(&mut self, n: usize, mut f: F) -> Result<(), E> {
        self.0.truncate(n);
        while self.0.len() < n {
            self.0.push(f()?);
        }
        Ok(())
    }
    pub fn sort_by<F: FnMut(&T, &T) -> Ordering>(&mut self, f: F) -> Result<(), AllocError> {
        self.0.sort_by(f);
        Ok(())
    }
    pub fn sort_by_key<K: Ord, F: FnMut(&T) -> K>(&mut self, f: F) -> Result<(), AllocError> {
        self.0.sort_by_key(f);
        Ok(())
    }
    pub fn sort_by_cached_key<K: Ord, F: FnMut(&T) -> K>(&mut self, f: F) -> Result<(), AllocError> {
        self.0.sort_by_cached_key(f);
        Ok(())
    }
    pub fn extend<I: IntoIterator<Item = T>>(&mut self, items: I) -> Result<(), AllocError> {
        self.0.extend(items);
        Ok(())
    }
    pub fn destroy_empty(self) {}
}

impl<T: Ord> Vec<T> {
    pub fn sort(&mut self) -> Result<(), AllocError> {
        self.0.sort();
        Ok(())
    }
}
impl<T: PartialEq> Vec<T> {
    pub fn dedup(&mut self) {
        self.0.dedup()
    }
}
impl<T: Clone> Vec<T> {
    pub fn from_slice(_alloc: Global, items: &[T]) -> Result<Vec<T>, AllocError> {
        Ok(Vec(items.to_vec()))
    }
    pub fn from_clones(_alloc: Global, items: &[T]) -> Result<Vec<T>, AllocError> {
        Ok(Vec(items.to_vec()))
    }
    pub fn from_elem(_alloc: Global, item: T, n: usize) -> Result<Vec<T>, AllocError> {
        Ok(Vec(::std::vec![item; n]))
    }
    pub fn extend_from_slice(&mut self, items: &[T]) -> Result<(), AllocError> {
        self.0.extend_from_slice(items);
        Ok(())
    }
    pub fn extend_with_clones(&mut self, items: &[T]) -> Result<(), AllocError> {
        self.0.extend_from_slice(items);
        Ok(())
    }
    pub fn extend_from_within<R: RangeBounds<usize>>(&mut self, range: R) -> Result<(), AllocError> {
        self.0.extend_from_within(range);
        Ok(())
    }
    pub fn resize(&mut self, n: usize, value: T) -> Result<(), AllocError> {
        self.0.resize(n, value);
        Ok(())
    }
    pub fn clone(&self) -> Result<Vec<T>, AllocError> {
        Ok(Vec(self.0.clone()))
    }
}

impl<T> Deref for Vec<T> {
    type Target = [T];
    fn deref(&self) -> &[T] {
        &self.0
    }
}
impl<T> DerefMut for Vec<T> {
    fn deref_mut(&mut self) -> &mut [T] {
        &mut self.0
    }
}
impl<T, I: SliceIndex<[T]>> Index<I> for Vec<T> {
    type Output = I::Output;
    fn index(&self, at: I) -> &I::Output {
        &self.0[at]
    }
}
impl<T, I: SliceIndex<[T]>> IndexMut<I> for Vec<T> {
    fn index_mut(&mut self, at: I) -> &mut I::Output {
        &mut self.0[at]
    }
}
impl<T> IntoIterator for Vec<T> {
    type Item = T;
    type IntoIter = ::std::vec::IntoIter<T>;
    fn into_iter(self) -> Self::IntoIter {
        self.0.into_iter()
    }
}
impl<'a, T> IntoIterator for &'a Vec<T> {
    type Item = &'a T;
    type IntoIter = ::std::slice::Iter<'a, T>;
    fn into_iter(self) -> Self::IntoIter {
        self.0.iter()
    }
}
impl<'a, T> IntoIterator for &'a mut Vec<T> {
    type Item = &'a mut T;
    type IntoIter = ::std::slice::IterMut<'a, T>;
    fn into_iter(self) -> Self::IntoIter {
        self.0.iter_mut()
    }
}
impl<T> ::std::iter::FromIterator<T> for Vec<T> {
    fn from_iter<I: IntoIterator<Item = T>>(items: I) -> Vec<T> {
        Vec(items.into_iter().collect())
    }
}
impl<T> ::std::borrow::Borrow<[T]> for Vec<T> {
    fn borrow(&self) -> &[T] {
        &self.0
    }
}
impl ::std::io::Write for Vec<u8> {
    fn write(&mut self, bytes: &[u8]) -> ::std::io::Result<usize> {
        self.0.extend_from_slice(bytes);
        Ok(bytes.len())
    }
    fn flush(&mut self) -> ::std::io::Result<()> {
        Ok(())
    }
}

impl<T: Clone> ::std::clone::Clone for Vec<T> {
    fn clone(&self) -> Self {
        Vec(self.0.clone())
    }
}
