pub use ::std::alloc::Layout;

#[derive(Clone, Copy, Debug, PartialEq, Eq, Default)]
pub struct Global;

pub trait Allocator: Copy {}
impl Allocator for Global {}

#[derive(Clone, Copy, Debug, PartialEq, Eq)]
pub struct AllocError;

impl ::std::fmt::Display for AllocError {
    fn fmt(&self, f: &mut ::std::fmt::Formatter<'_>) -> ::std::fmt::Result {
        f.write_str("no memory")
    }
}
impl ::std::error::Error for AllocError {}

#[derive(Clone, Copy, Debug, PartialEq, Eq)]
pub struct AllocFailed<T> {
    pub value: T,
}

impl<T> From<AllocFailed<T>> for AllocError {
    fn from(_: AllocFailed<T>) -> AllocError {
        AllocError
    }
}
impl From<::std::fmt::Error> for AllocError {
    fn from(_: ::std::fmt::Error) -> AllocError {
        AllocError
    }
}
impl From<AllocError> for ::std::io::Error {
    fn from(_: AllocError) -> ::std::io::Error {
        ::std::io::ErrorKind::OutOfMemory.into()
    }
}
impl<T> From<AllocFailed<T>> for ::std::io::Error {
    fn from(_: AllocFailed<T>) -> ::std::io::Error {
        ::std::io::ErrorKind::OutOfMemory.into()
    }
}
