//! Memory that is wiped when it is dropped.

use std::ops::{Deref, DerefMut};
use std::sync::atomic::{Ordering, compiler_fence};

/// Bytes or words of a secret, wiped when they are dropped.
///
/// ```
/// let mut seed = raccoon::Secret::zeros(32);
/// raccoon::os_random(&mut seed)?;
/// # std::io::Result::Ok(())
/// ```
#[derive(Clone, PartialEq, Eq)]
pub struct Secret<T: Copy + Default>(Box<[T]>);

impl<T: Copy + Default> Secret<T> {
    pub fn zeros(n: usize) -> Secret<T> {
        Secret(vec![T::default(); n].into())
    }
}

impl<T: Copy + Default> From<&[T]> for Secret<T> {
    fn from(slice: &[T]) -> Secret<T> {
        Secret(slice.into())
    }
}

impl<T: Copy + Default> Deref for Secret<T> {
    type Target = [T];

    fn deref(&self) -> &[T] {
        &self.0
    }
}

impl<T: Copy + Default> DerefMut for Secret<T> {
    fn deref_mut(&mut self) -> &mut [T] {
        &mut self.0
    }
}

impl<T: Copy + Default> Drop for Secret<T> {
    fn drop(&mut self) {
        for place in self.0.iter_mut() {
            // volatile, so that the compiler keeps writes to memory that nobody reads again
            unsafe { std::ptr::write_volatile(place, T::default()) }
        }
        compiler_fence(Ordering::SeqCst);
    }
}
