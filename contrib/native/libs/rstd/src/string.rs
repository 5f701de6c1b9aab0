use crate::alloc_::{AllocError, Global};
use crate::vec_::Vec;
use ::std::fmt;
use ::std::ops::{Deref, RangeBounds};

#[derive(PartialEq, Eq, PartialOrd, Ord, Hash)]
pub struct String(pub ::std::string::String);

impl String {
    pub fn new(_alloc: Global) -> String {
        String(::std::string::String::new())
    }
    pub fn with_capacity(_alloc: Global, n: usize) -> Result<String, AllocError> {
        Ok(String(::std::string::String::with_capacity(n)))
    }
    pub fn from_str(_alloc: Global, text: &str) -> Result<String, AllocError> {
        Ok(String(text.into()))
    }
    pub fn from_utf8(bytes: Vec<u8>) -> Result<String, ::std::string::FromUtf8Error> {
        ::std::string::String::from_utf8(bytes.0).map(String)
    }
    pub fn from_utf8_lossy(_alloc: Global, bytes: &[u8]) -> Result<String, AllocError> {
        Ok(String(::std::string::String::from_utf8_lossy(bytes).into_owned()))
    }
    pub fn allocator(&self) -> &Global {
        &Global
    }
    pub fn as_str(&self) -> &str {
        &self.0
    }
    pub fn push(&mut self, c: char) -> Result<(), AllocError> {
        self.0.push(c);
        Ok(())
    }
    pub fn push_str(&mut self, text: &str) -> Result<(), AllocError> {
        self.0.push_str(text);
        Ok(())
    }
    pub fn pop(&mut self) -> Option<char> {
        self.0.pop()
    }
    pub fn insert(&mut self, at: usize, c: char) -> Result<(), AllocError> {
        self.0.insert(at, c);
        Ok(())
    }
    pub fn insert_str(&mut self, at: usize, text: &str) -> Result<(), AllocError> {
        self.0.insert_str(at, text);
        Ok(())
    }
    pub fn remove(&mut self, at: usize) -> char {
        self.0.remove(at)
    }
    pub fn clear(&mut self) {
        self.0.clear()
    }
    pub fn truncate(&mut self, n: usize) {
        self.0.truncate(n)
    }
    pub fn reserve(&mut self, n: usize) -> Result<(), AllocError> {
        self.0.reserve(n);
        Ok(())
    }
    pub fn capacity(&self) -> usize {
        self.0.capacity()
    }
    pub fn split_off(&mut self, at: usize) -> Result<String, AllocError> {
        Ok(String(self.0.split_off(at)))
    }
    pub fn into_bytes(self) -> Vec<u8> {
        Vec(self.0.into_bytes())
    }
    pub fn retain<F: FnMut(char) -> bool>(&mut self, f: F) {
        self.0.retain(f)
    }
    pub fn replace_range<R: RangeBounds<usize>>(&mut self, range: R, text: &str) -> Result<(), AllocError> {
        self.0.replace_range(range, text);
        Ok(())
    }
    pub fn clone(&self) -> Result<String, AllocError> {
        Ok(String(self.0.clone()))
    }
    pub fn write_fmt(&mut self, arguments: fmt::Arguments<'_>) -> Result<(), AllocError> {
        fmt::Write::write_fmt(&mut self.0, arguments).map_err(|_| AllocError)
    }
}

impl Deref for String {
    type Target = str;
    fn deref(&self) -> &str {
        &self.0
    }
}
impl fmt::Write for String {
    fn write_str(&mut self, text: &str) -> fmt::Result {
        self.0.push_str(text);
        Ok(())
    }
}
impl fmt::Display for String {
    fn fmt(&self, f: &mut fmt::Formatter<'_>) -> fmt::Result {
        fmt::Display::fmt(&self.0, f)
    }
}
impl fmt::Debug for String {
    fn fmt(&self, f: &mut fmt::Formatter<'_>) -> fmt::Result {
        fmt::Debug::fmt(&self.0, f)
    }
}
impl ::std::borrow::Borrow<str> for String {
    fn borrow(&self) -> &str {
        &self.0
    }
}
impl AsRef<str> for String {
    fn as_ref(&self) -> &str {
        &self.0
    }
}

impl ::std::clone::Clone for String {
    fn clone(&self) -> Self {
        String(self.0.clone())
    }
}
