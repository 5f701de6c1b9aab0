//! A map and a set in order of insertion.
use crate::alloc_::{AllocError, AllocFailed, Global};
use std::borrow::Borrow;
use std::cmp::Ordering;
use std::collections::hash_map::DefaultHasher;
use std::collections::HashMap;
use std::hash::{BuildHasherDefault, Hash, Hasher};

#[derive(Default)]
pub struct Mix(u64);
impl Hasher for Mix {
    fn finish(&self) -> u64 { self.0 }
    fn write(&mut self, bytes: &[u8]) {
        for chunk in bytes.chunks(8) {
            let mut b = [0u8; 8];
            b[..chunk.len()].copy_from_slice(chunk);
            self.write_u64(u64::from_le_bytes(b));
        }
    }
    fn write_u8(&mut self, x: u8) { self.write_u64(x as u64) }
    fn write_u32(&mut self, x: u32) { self.write_u64(x as u64) }
    fn write_usize(&mut self, x: usize) { self.write_u64(x as u64) }
    fn write_u64(&mut self, x: u64) {
        self.0 = (self.0.rotate_left(23) ^ x).wrapping_mul(0x9E37_79B9_7F4A_7C15);
        self.0 ^= self.0 >> 29;
    }
}

pub trait Equivalent<K: ?Sized> {
    fn code(&self) -> u64;
    fn equals(&self, key: &K) -> bool;
}
fn code_of<Q: Hash + ?Sized>(key: &Q) -> u64 {
    let mut h = Mix::default();
    key.hash(&mut h);
    h.finish()
}
impl<Q: Hash + Eq + ?Sized, K: Borrow<Q>> Equivalent<K> for &Q {
    fn code(&self) -> u64 { code_of(*self) }
    fn equals(&self, key: &K) -> bool { *self == key.borrow() }
}

/// Slots by hash: an index + 1, 0 where empty.
#[derive(Debug)]
struct Slots { slots: Vec<u32>, len: usize }
impl Slots {
    fn new() -> Slots { Slots { slots: Vec::new(), len: 0 } }
    fn find(&self, code: u64, mut same: impl FnMut(usize) -> bool) -> Option<usize> {
        if self.slots.is_empty() { return None; }
        let mask = self.slots.len() - 1;
        let mut at = code as usize & mask;
        while self.slots[at] != 0 {
            let i = self.slots[at] as usize - 1;
            if same(i) { return Some(i); }
            at = (at + 1) & mask;
        }
        None
    }
    fn put(&mut self, code: u64, i: usize) {
        let mask = self.slots.len() - 1;
        let mut at = code as usize & mask;
        while self.slots[at] != 0 { at = (at + 1) & mask; }
        self.slots[at] = i as u32 + 1;
    }
    fn rebuild(&mut self, codes: &[u64], room: usize) {
        let mut n = 8;
        while n < room * 2 { n *= 2; }
        self.slots = vec![0; n];
        for (i, c) in codes.iter().enumerate() { self.put(*c, i); }
    }
    fn add(&mut self, codes: &[u64], code: u64, i: usize) {
        if (i + 1) * 2 > self.slots.len() { self.rebuild(&codes[..i], (i + 1) * 2); }
        self.put(code, i);
    }
}

#[derive(Debug)]
pub struct IndexMap<K, V> { entries: Vec<(K, V)>, codes: Vec<u64>, slots: Slots }

impl<K: Hash + Eq, V> IndexMap<K, V> {
    pub fn new(_alloc: Global) -> Self { IndexMap { entries: Vec::new(), codes: Vec::new(), slots: Slots::new() } }
    pub fn with_capacity(alloc: Global, _n: usize) -> Result<Self, AllocError> { Ok(Self::new(alloc)) }
    pub fn allocator(&self) -> &Global { &Global }
    pub fn len(&self) -> usize { self.entries.len() }
    pub fn is_empty(&self) -> bool { self.entries.is_empty() }
    pub fn reserve(&mut self, _n: usize) -> Result<(), AllocError> { Ok(()) }
    pub fn clear(&mut self) { self.entries.clear(); self.codes.clear(); self.slots = Slots::new(); }
    pub fn get_index_of<Q: Equivalent<K>>(&self, key: Q) -> Option<usize> {
        let code = key.code();
        self.slots.find(code, |i| self.codes[i] == code && key.equals(&self.entries[i].0))
    }
    pub fn insert_full(&mut self, key: K, value: V) -> Result<(usize, Option<V>), AllocFailed<(K, V)>> {
        if let Some(i) = self.get_index_of::<&K>(&key) {
            return Ok((i, Some(std::mem::replace(&mut self.entries[i].1, value))));
        }
        let i = self.entries.len();
        let code = code_of(&key);
        self.slots.add(&self.codes, code, i);
        self.codes.push(code);
        self.entries.push((key, value));
        Ok((i, None))
    }
    pub fn insert(&mut self, key: K, value: V) -> Result<Option<V>, AllocFailed<(K, V)>> { Ok(self.insert_full(key, value)?.1) }
    pub fn get<Q: Equivalent<K>>(&self, key: Q) -> Option<&V> { self.get_index_of(key).map(|i| &self.entries[i].1) }
    pub fn get_mut<Q: Equivalent<K>>(&mut self, key: Q) -> Option<&mut V> {
        match self.get_index_of(key) { Some(i) => Some(&mut self.entries[i].1), None => None }
    }
    pub fn get_full<Q: Equivalent<K>>(&self, key: Q) -> Option<(usize, &K, &V)> {
        self.get_index_of(key).map(|i| (i, &self.entries[i].0, &self.entries[i].1))
    }
    pub fn get_key_value<Q: Equivalent<K>>(&self, key: Q) -> Option<(&K, &V)> {
        self.get_index_of(key).map(|i| (&self.entries[i].0, &self.entries[i].1))
    }
    pub fn contains_key<Q: Equivalent<K>>(&self, key: Q) -> bool { self.get_index_of(key).is_some() }
    pub fn get_index(&self, i: usize) -> Option<(&K, &V)> { self.entries.get(i).map(|e| (&e.0, &e.1)) }
    pub fn get_index_mut(&mut self, i: usize) -> Option<&mut V> { self.entries.get_mut(i).map(|e| &mut e.1) }
    pub fn pair_mut(&mut self, i: usize) -> (&K, &mut V) { let e = &mut self.entries[i]; (&e.0, &mut e.1) }
    pub fn first(&self) -> Option<(&K, &V)> { self.get_index(0) }
    pub fn last(&self) -> Option<(&K, &V)> { self.entries.last().map(|e| (&e.0, &e.1)) }
    pub fn keys(&self) -> impl DoubleEndedIterator<Item = &K> + ExactSizeIterator { self.entries.iter().map(|e| &e.0) }
    pub fn values(&self) -> impl DoubleEndedIterator<Item = &V> + ExactSizeIterator { self.entries.iter().map(|e| &e.1) }
    pub fn values_mut(&mut self) -> impl DoubleEndedIterator<Item = &mut V> { self.entries.iter_mut().map(|e| &mut e.1) }
    pub fn iter(&self) -> impl DoubleEndedIterator<Item = (&K, &V)> + ExactSizeIterator { self.entries.iter().map(|e| (&e.0, &e.1)) }
    pub fn iter_mut(&mut self) -> impl DoubleEndedIterator<Item = (&K, &mut V)> { self.entries.iter_mut().map(|e| (&e.0, &mut e.1)) }
    pub fn into_keys(self) -> impl DoubleEndedIterator<Item = K> { self.entries.into_iter().map(|e| e.0) }
    pub fn into_values(self) -> impl DoubleEndedIterator<Item = V> { self.entries.into_iter().map(|e| e.1) }
    fn rebuilt(&mut self) {
        self.codes = self.entries.iter().map(|e| code_of(&e.0)).collect();
        let n = self.entries.len();
        self.slots.rebuild(&self.codes, n + 1);
    }
    pub fn pop(&mut self) -> Option<(K, V)> { let e = self.entries.pop(); self.rebuilt(); e }
    pub fn truncate(&mut self, n: usize) { self.entries.truncate(n); self.rebuilt(); }
    pub fn remove<Q: Equivalent<K>>(&mut self, key: Q) -> Option<V> { self.swap_remove(key) }
    pub fn swap_remove<Q: Equivalent<K>>(&mut self, key: Q) -> Option<V> {
        let i = self.get_index_of(key)?;
        let e = self.entries.swap_remove(i);
        self.rebuilt();
        Some(e.1)
    }
    pub fn shift_remove<Q: Equivalent<K>>(&mut self, key: Q) -> Option<V> {
        let i = self.get_index_of(key)?;
        let e = self.entries.remove(i);
        self.rebuilt();
        Some(e.1)
    }
    pub fn sort_by<F: Fn(&K, &V, &K, &V) -> Ordering>(&mut self, f: F) -> Result<(), AllocError> {
        self.entries.sort_by(|a, b| f(&a.0, &a.1, &b.0, &b.1));
        self.rebuilt();
        Ok(())
    }
    pub fn sort_keys(&mut self) -> Result<(), AllocError> where K: Ord {
        self.entries.sort_by(|a, b| a.0.cmp(&b.0));
        self.rebuilt();
        Ok(())
    }
}
impl<K, V> IntoIterator for IndexMap<K, V> {
    type Item = (K, V);
    type IntoIter = std::vec::IntoIter<(K, V)>;
    fn into_iter(self) -> Self::IntoIter { self.entries.into_iter() }
}
impl<'a, K, V> IntoIterator for &'a IndexMap<K, V> {
    type Item = (&'a K, &'a V);
    type IntoIter = std::iter::Map<std::slice::Iter<'a, (K, V)>, fn(&'a (K, V)) -> (&'a K, &'a V)>;
    fn into_iter(self) -> Self::IntoIter { self.entries.iter().map(|e| (&e.0, &e.1)) }
}

#[derive(Debug)]
pub struct IndexSet<T> { items: Vec<T>, codes: Vec<u64>, slots: Slots }

impl<T: Hash + Eq> IndexSet<T> {
    pub fn new(_alloc: Global) -> Self { IndexSet { items: Vec::new(), codes: Vec::new(), slots: Slots::new() } }
    pub fn with_capacity(alloc: Global, _n: usize) -> Result<Self, AllocError> { Ok(Self::new(alloc)) }
    pub fn allocator(&self) -> &Global { &Global }
    pub fn len(&self) -> usize { self.items.len() }
    pub fn is_empty(&self) -> bool { self.items.is_empty() }
    pub fn reserve(&mut self, _n: usize) -> Result<(), AllocError> { Ok(()) }
    pub fn clear(&mut self) { self.items.clear(); self.codes.clear(); self.slots = Slots::new(); }
    pub fn get_index_of<Q: Equivalent<T>>(&self, key: Q) -> Option<usize> {
        let code = key.code();
        self.slots.find(code, |i| self.codes[i] == code && key.equals(&self.items[i]))
    }
    pub fn insert_full(&mut self, item: T) -> Result<(usize, bool), AllocFailed<T>> {
        if let Some(i) = self.get_index_of::<&T>(&item) { return Ok((i, false)); }
        let i = self.items.len();
        let code = code_of(&item);
        self.slots.add(&self.codes, code, i);
        self.codes.push(code);
        self.items.push(item);
        Ok((i, true))
    }
    pub fn insert(&mut self, item: T) -> Result<bool, AllocFailed<T>> { Ok(self.insert_full(item)?.1) }
    pub fn contains<Q: Equivalent<T>>(&self, key: Q) -> bool { self.get_index_of(key).is_some() }
    pub fn get<Q: Equivalent<T>>(&self, key: Q) -> Option<&T> { self.get_index_of(key).map(|i| &self.items[i]) }
    pub fn get_full<Q: Equivalent<T>>(&self, key: Q) -> Option<(usize, &T)> { self.get_index_of(key).map(|i| (i, &self.items[i])) }
    pub fn get_index(&self, i: usize) -> Option<&T> { self.items.get(i) }
    pub fn first(&self) -> Option<&T> { self.items.first() }
    pub fn last(&self) -> Option<&T> { self.items.last() }
    pub fn iter(&self) -> std::slice::Iter<'_, T> { self.items.iter() }
    pub fn as_slice(&self) -> &[T] { &self.items }
    fn rebuilt(&mut self) {
        self.codes = self.items.iter().map(|e| code_of(e)).collect();
        let n = self.items.len();
        self.slots.rebuild(&self.codes, n + 1);
    }
    pub fn pop(&mut self) -> Option<T> { let e = self.items.pop(); self.rebuilt(); e }
    pub fn truncate(&mut self, n: usize) { self.items.truncate(n); self.rebuilt(); }
    pub fn remove<Q: Equivalent<T>>(&mut self, key: Q) -> bool { self.swap_remove(key) }
    pub fn swap_remove<Q: Equivalent<T>>(&mut self, key: Q) -> bool {
        match self.get_index_of(key) { Some(i) => { self.items.swap_remove(i); self.rebuilt(); true } None => false }
    }
    pub fn shift_remove<Q: Equivalent<T>>(&mut self, key: Q) -> bool {
        match self.get_index_of(key) { Some(i) => { self.items.remove(i); self.rebuilt(); true } None => false }
    }
    pub fn sort(&mut self) -> Result<(), AllocError> where T: Ord { self.items.sort(); self.rebuilt(); Ok(()) }
}
impl<T> IntoIterator for IndexSet<T> {
    type Item = T;
    type IntoIter = std::vec::IntoIter<T>;
    fn into_iter(self) -> Self::IntoIter { self.items.into_iter() }
}
impl<'a, T> IntoIterator for &'a IndexSet<T> {
    type Item = &'a T;
    type IntoIter = std::slice::Iter<'a, T>;
    fn into_iter(self) -> Self::IntoIter { self.items.iter() }
}
