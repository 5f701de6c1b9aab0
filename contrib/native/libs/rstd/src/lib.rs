//! Stands in for the kit's std, in plain Rust. Allocation never fails.
#![allow(warnings)]

pub use ::std::*;

pub mod alloc_;
mod boxes;
mod extra;
pub mod driver;
pub mod indexed;
mod trees;
mod macros;
#[path = "string.rs"]
pub mod string_text;
mod system;
mod vec_;

pub use system::{big_stack, HostRuntime};

pub mod alloc {
    pub use crate::alloc_::*;
}
pub mod vec {
    pub use crate::vec_::*;
}
pub mod string {
    pub use crate::string_::*;
}
pub mod boxed {
    pub use crate::boxes::Box;
}
pub mod rc {
    pub use crate::boxes::Rc;
}
pub mod sync {
    pub use crate::boxes::Rc as Arc;
    pub use ::std::sync::*;
}
pub mod marker {
    pub use ::std::marker::*;
    pub trait Model {}
}
pub mod mem {
    pub use ::std::mem::*;
    pub fn try_take<T: crate::extra::MadeWith>(place: &mut T) -> Result<T, crate::alloc_::AllocError> {
        Ok(::std::mem::replace(place, T::made()))
    }
}
pub mod io {
    pub use crate::system::{writer, Input, Print};
    pub use ::std::io::*;
}
pub mod env {
    pub use crate::system::{args, Env};
    pub use ::std::env::{var, vars};
}
pub mod fs {
    pub use crate::system::remove_file;
    pub use ::std::fs::*;
}
pub mod rt {
    pub use crate::system::*;
}
pub mod process {
    pub use crate::system::Abort;
    pub use ::std::process::*;
}
pub mod test {
    pub use crate::system::Fail;
}
pub mod str {
    pub use crate::extra::from_utf8;
    pub use ::std::str::{Bytes, CharIndices, Chars, FromStr, Lines, Split, SplitWhitespace, Utf8Error};
}
pub mod collections {
    pub use crate::indexed::{IndexMap as HashMap, IndexSet as HashSet};
    pub use crate::trees::{BTreeMap, BTreeSet, BinaryHeap, VecDeque};
    pub use ::std::collections::{btree_map, hash_map};
}
pub mod time {
    pub use crate::system::Instant;
    pub use ::std::time::Duration;
}
pub mod num {
    pub use ::std::num::*;
}
pub mod ops {
    pub use ::std::ops::*;
}

mod string_ {
    pub use crate::string_text::*;
    pub use ::std::string::{FromUtf8Error, ToString};
}

pub mod prelude {
    pub use crate::alloc_::{AllocError, AllocFailed};
    pub use crate::boxes::Box;
    pub use crate::extra::{CloneIn, Drop, IterExt, OptionExt, SliceExt, StrExt, ToStringIn};
    pub use crate::string_::String;
    pub use crate::system::HostRuntime;
    pub use crate::vec_::Vec;
}
