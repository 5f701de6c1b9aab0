//! The runtime: standard streams, words of the call, files.
use crate::alloc_::{AllocError, Global};
use crate::string_text::String;
use ::std::fs::OpenOptions;
use ::std::io::{self, Read, Write};

#[derive(Clone, Copy, Debug)]
pub struct HostRuntime(());

impl HostRuntime {
    pub fn new() -> HostRuntime {
        HostRuntime(())
    }
    pub fn alloc(&self) -> Global {
        Global
    }
    pub fn reader(&self) -> io::StdinLock<'static> {
        io::stdin().lock()
    }
    pub fn exit(&self, code: i32) -> ! {
        ::std::process::exit(code)
    }
}

pub trait Alloc {
    fn alloc(&self) -> Global {
        Global
    }
}
pub trait Env {}
pub trait Print {}
pub trait Abort {
    fn abort(&self) -> ! {
        ::std::process::abort()
    }
}
pub trait Input {
    type Reader: Read;
    fn reader(&self) -> Self::Reader;
}
impl Input for HostRuntime {
    type Reader = io::StdinLock<'static>;
    fn reader(&self) -> Self::Reader {
        io::stdin().lock()
    }
}
impl<T: Input + ?Sized> Input for &T {
    type Reader = T::Reader;
    fn reader(&self) -> Self::Reader {
        (**self).reader()
    }
}
impl<T: ?Sized> Alloc for T {}
impl Env for HostRuntime {}
impl<T: Env + ?Sized> Env for &T {}
impl Print for HostRuntime {}
impl<T: Print + ?Sized> Print for &T {}
impl Abort for HostRuntime {}
impl<T: Abort + ?Sized> Abort for &T {}

pub trait Files {
    type File: Read + Write;
    fn open_file(&self, how: &OpenOptions, name: &str) -> io::Result<Self::File>;
}
impl Files for HostRuntime {
    type File = ::std::fs::File;
    fn open_file(&self, how: &OpenOptions, name: &str) -> io::Result<Self::File> {
        how.open(name)
    }
}
impl<T: Files + ?Sized> Files for &T {
    type File = T::File;
    fn open_file(&self, how: &OpenOptions, name: &str) -> io::Result<Self::File> {
        (**self).open_file(how, name)
    }
}

#[derive(Debug)]
pub struct Printer(io::Stdout);
impl Write for Printer {
    fn write(&mut self, bytes: &[u8]) -> io::Result<usize> {
        self.0.write(bytes)
    }
    fn flush(&mut self) -> io::Result<()> {
        self.0.flush()
    }
}
pub fn writer<P: Print + ?Sized>(_to: &P) -> Printer {
    Printer(io::stdout())
}
pub fn args<R: ?Sized>(_rt: &R) -> io::Result<::std::vec::IntoIter<String>> {
    let words: ::std::vec::Vec<String> = ::std::env::args().map(String).collect();
    Ok(words.into_iter())
}
pub fn remove_file<R: ?Sized>(_rt: &R, name: &str) -> io::Result<()> {
    ::std::fs::remove_file(name)
}

/// The error of a test.
#[derive(Debug)]
pub struct Fail;
impl From<AllocError> for Fail {
    fn from(_: AllocError) -> Fail {
        Fail
    }
}

/// Runs on a stack of RUST_STACK_MB MiB; 64 where it is not set, since frames without optimization are large.
pub fn big_stack<T: Send + 'static>(f: impl FnOnce() -> T + Send + 'static) -> T {
    let size = ::std::env::var("RUST_STACK_MB").ok().and_then(|s| s.parse().ok()).unwrap_or(64usize);
    match ::std::thread::Builder::new().stack_size(size << 20).spawn(f).unwrap().join() {
        Ok(x) => x,
        Err(_) => ::std::process::exit(101),
    }
}

/// A clock.
#[derive(Clone, Copy, Debug, PartialEq, Eq, PartialOrd, Ord)]
pub struct Instant(::std::time::Instant);
impl Instant {
    pub fn now<R: ?Sized>(_rt: &R) -> io::Result<Instant> {
        Ok(Instant(::std::time::Instant::now()))
    }
    pub fn elapsed<R: ?Sized>(&self, _rt: &R) -> io::Result<::std::time::Duration> {
        Ok(self.0.elapsed())
    }
    pub fn duration_since(&self, other: Instant) -> ::std::time::Duration {
        self.0.duration_since(other.0)
    }
}
