//! The light ground: counts and lengths that are not atomic, and no lock. For one thread.

use std::cell::{Cell, RefCell, RefMut};

pub use std::rc::Rc as Shared;

/// A number that one stores and others load.
#[derive(Default)]
pub struct Number(Cell<u64>);

impl Number {
    pub fn store(&self, value: u64) {
        self.0.set(value);
    }

    pub fn load(&self) -> u64 {
        self.0.get()
    }
}

/// A value that is held by one at a time.
#[derive(Default)]
pub struct Guarded<T>(RefCell<T>);

impl<T> Guarded<T> {
    pub fn hold(&self) -> RefMut<'_, T> {
        self.0.borrow_mut()
    }
}
