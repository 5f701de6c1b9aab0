//! What the kit adds to Rust's own types.
use crate::alloc_::{AllocError, Global};
use crate::string_text::String;
use crate::vec_::Vec;

/// Every type may be dropped.
pub trait Drop {}
impl<T: ?Sized> Drop for T {}

pub trait MadeWith {
    fn made() -> Self;
}
impl<T> MadeWith for Vec<T> {
    fn made() -> Self {
        Vec(::std::vec::Vec::new())
    }
}
impl MadeWith for String {
    fn made() -> Self {
        String(::std::string::String::new())
    }
}

pub trait CloneIn {
    fn clone_in(&self) -> Result<Self, AllocError>
    where
        Self: Sized;
}
impl<T: Clone> CloneIn for T {
    fn clone_in(&self) -> Result<T, AllocError> {
        Ok(self.clone())
    }
}

pub trait ToStringIn {
    fn to_string_in(&self, alloc: Global) -> Result<String, AllocError>;
}
impl<T: ::std::fmt::Display + ?Sized> ToStringIn for T {
    fn to_string_in(&self, _alloc: Global) -> Result<String, AllocError> {
        Ok(String(self.to_string()))
    }
}

pub trait TryCollect<E>: Sized {
    type Item;
    fn collect_from<I: Iterator<Item = Result<Self::Item, E>>>(items: I) -> Result<Self, E>;
}
impl<T, E> TryCollect<E> for Vec<T> {
    type Item = T;
    fn collect_from<I: Iterator<Item = Result<T, E>>>(items: I) -> Result<Vec<T>, E> {
        Ok(Vec(items.collect::<Result<::std::vec::Vec<T>, E>>()?))
    }
}

pub trait IterExt: Iterator + Sized {
    fn collect_in(self, _alloc: Global) -> Result<Vec<Self::Item>, AllocError> {
        Ok(Vec(self.collect()))
    }
    fn try_collect<T, E>(self, _alloc: Global) -> Result<Vec<T>, E>
    where
        Self: Iterator<Item = Result<T, E>>,
    {
        Ok(Vec(self.collect::<Result<::std::vec::Vec<T>, E>>()?))
    }
}
impl<I: Iterator> IterExt for I {}

pub trait OptionExt<T> {
    fn try_ok_or_else<E, F: FnOnce() -> Result<E, E>>(self, f: F) -> Result<T, E>;
}
impl<T> OptionExt<T> for Option<T> {
    fn try_ok_or_else<E, F: FnOnce() -> Result<E, E>>(self, f: F) -> Result<T, E> {
        match self {
            Some(x) => Ok(x),
            None => match f() {
                Ok(e) => Err(e),
                Err(e) => Err(e),
            },
        }
    }
}

pub trait SliceExt<T> {
    fn sort_in(&mut self, alloc: Global) -> Result<(), AllocError>
    where
        T: Ord;
    fn to_vec_in(&self, alloc: Global) -> Result<Vec<T>, AllocError>
    where
        T: Clone;
}
impl<T> SliceExt<T> for [T] {
    fn sort_in(&mut self, _alloc: Global) -> Result<(), AllocError>
    where
        T: Ord,
    {
        self.sort();
        Ok(())
    }
    fn to_vec_in(&self, _alloc: Global) -> Result<Vec<T>, AllocError>
    where
        T: Clone,
    {
        Ok(Vec(self.to_vec()))
    }
}

pub trait StrExt {}
impl StrExt for str {}

pub fn from_utf8(bytes: &[u8]) -> Result<&str, ::std::str::Utf8Error> {
    ::std::str::from_utf8(bytes)
}
