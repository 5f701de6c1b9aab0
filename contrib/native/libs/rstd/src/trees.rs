//! Ordered maps and queues whose growth answers a Result.
use crate::alloc_::{AllocError, AllocFailed, Global};
use crate::indexed::Equivalent;
use ::std::ops::{Deref, DerefMut};

macro_rules! wraps {
    ($name:ident, [$($p:ident),*], $target:ty, [$($bound:tt)*]) => {
        #[derive(Debug)]
        pub struct $name<$($p),*>(pub $target);
        impl<$($p),*> Deref for $name<$($p),*> { type Target = $target; fn deref(&self) -> &$target { &self.0 } }
        impl<$($p),*> DerefMut for $name<$($p),*> { fn deref_mut(&mut self) -> &mut $target { &mut self.0 } }
        impl<$($p),*> IntoIterator for $name<$($p),*> {
            type Item = <$target as IntoIterator>::Item;
            type IntoIter = <$target as IntoIterator>::IntoIter;
            fn into_iter(self) -> Self::IntoIter { self.0.into_iter() }
        }
        impl<'a, $($p),*> IntoIterator for &'a $name<$($p),*> {
            type Item = <&'a $target as IntoIterator>::Item;
            type IntoIter = <&'a $target as IntoIterator>::IntoIter;
            fn into_iter(self) -> Self::IntoIter { (&self.0).into_iter() }
        }
    };
}
wraps!(BTreeMap, [K, V], ::std::collections::BTreeMap<K, V>, []);
wraps!(BTreeSet, [T], ::std::collections::BTreeSet<T>, []);
wraps!(BinaryHeap, [T], ::std::collections::BinaryHeap<T>, []);
wraps!(VecDeque, [T], ::std::collections::VecDeque<T>, []);

impl<K: Ord, V> BTreeMap<K, V> {
    pub fn new(_alloc: Global) -> Self { BTreeMap(Default::default()) }
    pub fn insert(&mut self, key: K, value: V) -> Result<Option<V>, AllocFailed<(K, V)>> { Ok(self.0.insert(key, value)) }
}
impl<T: Ord> BTreeSet<T> {
    pub fn new(_alloc: Global) -> Self { BTreeSet(Default::default()) }
    pub fn insert(&mut self, item: T) -> Result<bool, AllocFailed<T>> { Ok(self.0.insert(item)) }
}
impl<T: Ord> BinaryHeap<T> {
    pub fn new(_alloc: Global) -> Self { BinaryHeap(Default::default()) }
    pub fn push(&mut self, item: T) -> Result<(), AllocFailed<T>> { self.0.push(item); Ok(()) }
}
impl<T> VecDeque<T> {
    pub fn new(_alloc: Global) -> Self { VecDeque(Default::default()) }
    pub fn push_back(&mut self, item: T) -> Result<(), AllocFailed<T>> { self.0.push_back(item); Ok(()) }
    pub fn push_front(&mut self, item: T) -> Result<(), AllocFailed<T>> { self.0.push_front(item); Ok(()) }
}
