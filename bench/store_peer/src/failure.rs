//! Why a run gives up.

use std::io;

/// Why a run, or a call of the store, gives up.
pub enum Failure {
    Usage,
    /// There is a page already.
    Exists,
    Disk,
    Read,
    Write,
    NotAStore,
    /// With the page that shows it.
    Damaged(u32),
    TooMuch,
    /// No page is free.
    Full,
}

/// A failed call of a file of the store. Those of input and output are told apart where they are made.
impl From<io::Error> for Failure {
    fn from(_: io::Error) -> Failure {
        Failure::Disk
    }
}
