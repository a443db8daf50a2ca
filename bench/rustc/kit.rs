//! What the crates use of the kit's library, over that of Rust.

use std::ops::{Deref, DerefMut};
use std::slice::Iter;
use std::vec::Vec as Items;

#[derive(Clone, Copy, Debug)]
pub struct AllocError;

#[derive(Clone, Copy)]
pub struct Global;

pub struct Vec<T>(pub Items<T>);

impl<T> Vec<T> {
    pub fn new(_alloc: Global) -> Vec<T> {
        Vec(Items::new())
    }

    pub fn with_capacity(_alloc: Global, count: usize) -> Result<Vec<T>, AllocError> {
        Ok(Vec(Items::with_capacity(count)))
    }

    pub fn push(&mut self, item: T) -> Result<(), AllocError> {
        self.0.push(item);
        Ok(())
    }

    pub fn append(&mut self, other: &mut Vec<T>) -> Result<(), AllocError> {
        self.0.append(&mut other.0);
        Ok(())
    }

    pub fn clear(&mut self) {
        self.0.clear();
    }

    pub fn truncate(&mut self, count: usize) {
        self.0.truncate(count);
    }

    #[inline(always)]
    pub fn as_slice(&self) -> &[T] {
        &self.0
    }
}

impl<T: Clone> Vec<T> {
    pub fn from_slice(_alloc: Global, items: &[T]) -> Result<Vec<T>, AllocError> {
        Ok(Vec(items.to_vec()))
    }

    pub fn extend_from_slice(&mut self, items: &[T]) -> Result<(), AllocError> {
        self.0.extend_from_slice(items);
        Ok(())
    }

    pub fn resize(&mut self, count: usize, item: T) -> Result<(), AllocError> {
        self.0.resize(count, item);
        Ok(())
    }
}

pub fn filled<T: Clone>(item: T, count: usize) -> Vec<T> {
    Vec(vec![item; count])
}

impl<T> Deref for Vec<T> {
    type Target = [T];

    #[inline(always)]
    fn deref(&self) -> &[T] {
        &self.0
    }
}

impl<T> DerefMut for Vec<T> {
    #[inline(always)]
    fn deref_mut(&mut self) -> &mut [T] {
        &mut self.0
    }
}

impl<'a, T> IntoIterator for &'a Vec<T> {
    type Item = &'a T;
    type IntoIter = Iter<'a, T>;

    fn into_iter(self) -> Iter<'a, T> {
        self.0.iter()
    }
}

pub trait FromIn<A>: Sized {
    fn from_in<I: Iterator<Item = A>>(items: I) -> Result<Self, AllocError>;
}

impl<T> FromIn<T> for Vec<T> {
    fn from_in<I: Iterator<Item = T>>(items: I) -> Result<Vec<T>, AllocError> {
        Ok(Vec(items.collect()))
    }
}

pub trait CollectIn: Iterator + Sized {
    fn collect_in<B: FromIn<Self::Item>>(self, _alloc: Global) -> Result<B, AllocError> {
        B::from_in(self)
    }
}

impl<I: Iterator> CollectIn for I {}

pub struct Buffer(String);

impl Buffer {
    pub fn new() -> Buffer {
        Buffer(String::new())
    }

    pub fn format(&mut self, number: i32) -> &str {
        self.0 = number.to_string();
        &self.0
    }
}
