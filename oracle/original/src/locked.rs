//! The locked ground: atomic counts and lengths, and a lock. For several threads.

use std::sync::{Mutex, MutexGuard};

pub use std::sync::Arc as Shared;

pub use crate::database::Counter as Number;

/// A value that is held by one at a time.
#[derive(Default)]
pub struct Guarded<T>(Mutex<T>);

impl<T> Guarded<T> {
    pub fn hold(&self) -> MutexGuard<'_, T> {
        self.0.lock().unwrap()
    }
}
