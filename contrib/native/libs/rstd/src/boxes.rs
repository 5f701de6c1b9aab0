use crate::alloc_::{AllocError, AllocFailed, Global};
use ::std::ops::{Deref, DerefMut};

impl<T: ?Sized + ::std::fmt::Debug> ::std::fmt::Debug for Box<T> {
    fn fmt(&self, f: &mut ::std::fmt::Formatter<'_>) -> ::std::fmt::Result {
        self.0.fmt(f)
    }
}

#[derive(PartialEq, Eq, PartialOrd, Ord, Hash)]
pub struct Box<T: ?Sized>(pub ::std::boxed::Box<T>);

impl<T> Box<T> {
    pub fn new(_alloc: Global, value: T) -> Result<Box<T>, AllocFailed<T>> {
        Ok(Box(::std::boxed::Box::new(value)))
    }
    pub fn into_inner(this: Box<T>) -> T {
        *this.0
    }
}
impl<T: ?Sized> Deref for Box<T> {
    type Target = T;
    fn deref(&self) -> &T {
        &self.0
    }
}
impl<T: ?Sized> DerefMut for Box<T> {
    fn deref_mut(&mut self) -> &mut T {
        &mut self.0
    }
}

impl<T: ?Sized + ::std::fmt::Debug> ::std::fmt::Debug for Rc<T> {
    fn fmt(&self, f: &mut ::std::fmt::Formatter<'_>) -> ::std::fmt::Result {
        self.0.fmt(f)
    }
}

#[derive(PartialEq, Eq, PartialOrd, Ord, Hash)]
pub struct Rc<T: ?Sized>(pub ::std::rc::Rc<T>);

impl<T> Rc<T> {
    pub fn new(_alloc: Global, value: T) -> Result<Rc<T>, AllocFailed<T>> {
        Ok(Rc(::std::rc::Rc::new(value)))
    }
    pub fn try_unwrap(this: Rc<T>) -> Result<T, Rc<T>> {
        ::std::rc::Rc::try_unwrap(this.0).map_err(Rc)
    }
    pub fn get_mut(this: &mut Rc<T>) -> Option<&mut T> {
        ::std::rc::Rc::get_mut(&mut this.0)
    }
}
impl<T: ?Sized> Rc<T> {
    pub fn clone(&self) -> Result<Rc<T>, AllocError> {
        Ok(Rc(self.0.clone()))
    }
    pub fn as_ref(&self) -> &T {
        &self.0
    }
    pub fn ptr_eq(a: &Rc<T>, b: &Rc<T>) -> bool {
        ::std::rc::Rc::ptr_eq(&a.0, &b.0)
    }
    pub fn strong_count(this: &Rc<T>) -> usize {
        ::std::rc::Rc::strong_count(&this.0)
    }
}
impl<T: ?Sized> Deref for Rc<T> {
    type Target = T;
    fn deref(&self) -> &T {
        &self.0
    }
}

impl<T: ?Sized> ::std::clone::Clone for Rc<T> {
    fn clone(&self) -> Self {
        Rc(self.0.clone())
    }
}
