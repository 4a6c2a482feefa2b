//! `anyhow` with numbers for errors, and the traits of files, which do nothing.

use std::path::PathBuf;

pub mod anyhow {
    pub type Error = crate::watch::Ending;
    pub type Result<T, E = Error> = core::result::Result<T, E>;
}

/// The context of an error is dropped.
pub trait Context: Sized {
    fn with_context<C>(self, _context: impl FnOnce() -> C) -> Self {
        self
    }
}

impl<T> Context for anyhow::Result<T> {}

pub trait Init {}

pub trait SerdeAPI {
    fn to_file(&self, _path: PathBuf) -> anyhow::Result<()> {
        Ok(())
    }
}
