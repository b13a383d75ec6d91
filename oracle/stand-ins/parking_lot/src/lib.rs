//! Stands in for the crate parking_lot: just what nomt's files use of it.
//!
//! As there, a panic of a lock's holder does not poison the lock.

use std::{
    marker::PhantomData,
    mem::transmute,
    ops::{Deref, DerefMut},
    sync::{Arc, MutexGuard, PoisonError},
};

/// Only named, as the kind of lock that an [`ArcMutexGuard`] holds.
pub struct RawMutex;

pub struct Mutex<T>(std::sync::Mutex<T>);

impl<T> Mutex<T> {
    pub fn new(value: T) -> Self {
        Mutex(std::sync::Mutex::new(value))
    }

    pub fn lock(&self) -> MutexGuard<'_, T> {
        self.0.lock().unwrap_or_else(PoisonError::into_inner)
    }

    pub fn get_mut(&mut self) -> &mut T {
        self.0.get_mut().unwrap_or_else(PoisonError::into_inner)
    }
}

impl<T: 'static> Mutex<T> {
    pub fn lock_arc(self: &Arc<Self>) -> ArcMutexGuard<RawMutex, T> {
        let guard = self.lock();
        // SAFETY: the guard borrows the mutex, which stays where it is while the `Arc` beside
        // the guard lives, and the guard is dropped before that `Arc` and never given away.
        let guard = unsafe { transmute::<MutexGuard<'_, T>, MutexGuard<'static, T>>(guard) };
        ArcMutexGuard {
            guard,
            _mutex: self.clone(),
            _raw: PhantomData,
        }
    }
}

/// A guard that keeps its mutex alive. Fields are dropped in the order they stand in.
pub struct ArcMutexGuard<R, T: 'static> {
    guard: MutexGuard<'static, T>,
    _mutex: Arc<Mutex<T>>,
    _raw: PhantomData<R>,
}

impl<R, T> Deref for ArcMutexGuard<R, T> {
    type Target = T;

    fn deref(&self) -> &T {
        &self.guard
    }
}

impl<R, T> DerefMut for ArcMutexGuard<R, T> {
    fn deref_mut(&mut self) -> &mut T {
        &mut self.guard
    }
}
