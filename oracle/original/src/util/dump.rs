//! Stand-in for Packetry's dumps: only the names that the original cites. Dumps are left out, as in document 01.

use std::path::Path;
use std::sync::Arc;

use anyhow::Error;

use crate::database::counter::{Counter, CounterSet};

pub trait Dump: Sized {
    fn dump(&self, dest: &Path) -> Result<(), Error>;
    fn restore(db: &mut CounterSet, src: &Path) -> Result<Self, Error>;
}

pub fn restore<T: Dump>(db: &mut CounterSet, src: &Path) -> Result<T, Error> {
    T::restore(db, src)
}

impl Dump for u64 {
    fn dump(&self, _dest: &Path) -> Result<(), Error> {
        unimplemented!("dumps are left out")
    }

    fn restore(_db: &mut CounterSet, _src: &Path) -> Result<Self, Error> {
        unimplemented!("dumps are left out")
    }
}

impl Dump for Arc<Counter> {
    fn dump(&self, _dest: &Path) -> Result<(), Error> {
        unimplemented!("dumps are left out")
    }

    fn restore(_db: &mut CounterSet, _src: &Path) -> Result<Self, Error> {
        unimplemented!("dumps are left out")
    }
}
