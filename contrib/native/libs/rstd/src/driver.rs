//! What a driver needs: words of the call, files, and plain texts.
pub use crate::alloc_::Global;
pub use crate::prelude::*;

/// The words of the call after the program's name.
pub fn words() -> ::std::vec::Vec<::std::string::String> {
    ::std::env::args().skip(1).collect()
}
/// The bytes of a file.
pub fn read(path: &str) -> Vec<u8> {
    Vec(::std::fs::read(path).unwrap_or_else(|e| panic!("{path}: {e}")))
}
/// A vector of the kit from one of Rust.
pub fn vec_of<T>(items: impl IntoIterator<Item = T>) -> Vec<T> {
    Vec(items.into_iter().collect())
}
/// A string of the kit.
pub fn string_of(text: &str) -> String {
    String(text.into())
}
/// Runs a driver on a large stack.
pub fn run(f: impl FnOnce() + Send + 'static) {
    crate::big_stack(f)
}
