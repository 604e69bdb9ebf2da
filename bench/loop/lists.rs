//! What stands for the allocator, the lists and the proved indices of the kit in the copy that
//! plain.py makes.

use std::marker::PhantomData;
use std::ops::{Deref, DerefMut, Index, IndexMut};
use std::slice::{Iter, IterMut};

#[derive(Clone, Copy)]
pub struct Global;

/// No memory. The copy stops where it gets none, so it never tells this.
#[derive(Debug)]
pub struct AllocError;

/// No memory, with what was to be put into a list.
pub struct AllocFailed<T>(T);

/// An index that is not looked at.
pub struct At(pub usize);

impl<T> Index<At> for [T] {
    type Output = T;
    #[inline(always)]
    fn index(&self, at: At) -> &T {
        unsafe { self.get_unchecked(at.0) }
    }
}

impl<T> IndexMut<At> for [T] {
    #[inline(always)]
    fn index_mut(&mut self, at: At) -> &mut T {
        unsafe { self.get_unchecked_mut(at.0) }
    }
}

pub struct Vec<T>(std::vec::Vec<T>);

impl<T> From<std::vec::Vec<T>> for Vec<T> {
    fn from(list: std::vec::Vec<T>) -> Vec<T> {
        Vec(list)
    }
}

/// What only clauses see.
pub struct Snapshot<T>(PhantomData<T>);

impl<T> Snapshot<T> {
    pub fn of(_: &T) -> Snapshot<T> {
        Snapshot(PhantomData)
    }
}

/// A list of so many equal values.
pub fn filled<T: Clone>(value: T, count: usize) -> Result<Vec<T>, AllocError> {
    Ok(Vec(vec![value; count]))
}

impl<T> Vec<T> {
    pub fn new(_: Global) -> Vec<T> {
        Vec(std::vec::Vec::new())
    }

    pub fn with_capacity(_: Global, count: usize) -> Result<Vec<T>, AllocError> {
        Ok(Vec(std::vec::Vec::with_capacity(count)))
    }

    #[inline(always)]
    pub fn push(&mut self, value: T) -> Result<(), AllocError> {
        self.0.push(value);
        Ok(())
    }

    #[inline(always)]
    pub fn push_reserved(&mut self, value: T) {
        self.0.push(value)
    }

    #[inline(always)]
    pub fn clear(&mut self) {
        self.0.clear()
    }

    #[inline(always)]
    pub fn as_slice(&self) -> &[T] {
        &self.0
    }

    #[inline(always)]
    pub fn as_mut_slice(&mut self) -> &mut [T] {
        &mut self.0
    }

    pub fn append(&mut self, other: &mut Vec<T>) -> Result<(), AllocError> {
        self.0.append(&mut other.0);
        Ok(())
    }

    pub fn split_off(&mut self, at: usize) -> Result<Vec<T>, AllocError> {
        Ok(Vec(self.0.split_off(at)))
    }

    pub fn truncate(&mut self, count: usize) {
        self.0.truncate(count)
    }

    pub fn shrink_to_fit(&mut self) {
        self.0.shrink_to_fit()
    }

    pub fn sort_by_key<K: Ord, F: FnMut(&T) -> K>(&mut self, key: F) -> Result<(), AllocError> {
        self.0.sort_by_key(key);
        Ok(())
    }
}

impl<T: Clone> Vec<T> {
    pub fn resize(&mut self, count: usize, value: T) -> Result<(), AllocError> {
        self.0.resize(count, value);
        Ok(())
    }

    pub fn extend_from_slice(&mut self, values: &[T]) -> Result<(), AllocError> {
        self.0.extend_from_slice(values);
        Ok(())
    }

    pub fn to_vec(&self, _: Global) -> Result<Vec<T>, AllocError> {
        Ok(Vec(self.0.clone()))
    }
}

impl<T> Deref for Vec<T> {
    type Target = [T];
    #[inline(always)]
    fn deref(&self) -> &[T] {
        &self.0
    }
}

impl<T> DerefMut for Vec<T> {
    #[inline(always)]
    fn deref_mut(&mut self) -> &mut [T] {
        &mut self.0
    }
}

impl<'a, T> IntoIterator for &'a Vec<T> {
    type Item = &'a T;
    type IntoIter = Iter<'a, T>;
    #[inline(always)]
    fn into_iter(self) -> Iter<'a, T> {
        self.0.iter()
    }
}

impl<'a, T> IntoIterator for &'a mut Vec<T> {
    type Item = &'a mut T;
    type IntoIter = IterMut<'a, T>;
    #[inline(always)]
    fn into_iter(self) -> IterMut<'a, T> {
        self.0.iter_mut()
    }
}
