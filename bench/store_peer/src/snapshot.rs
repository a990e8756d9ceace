//! The pages of a store in memory, shared by threads, in the place of its two files.

use crate::Failure;
use crate::files;
use crate::header::Header;
use crate::page::Page;
use std::collections::BTreeMap;
use std::io::{self, ErrorKind};
use std::sync::Arc;

pub type Pages = Arc<Vec<Page>>;

/// The pages that the files of a store stand for.
pub fn take(name: &str) -> Result<Pages, Failure> {
    let mut files = files::Log::open(name)?;
    let header = Header::read(files.read(0)?.ok_or(Failure::NotAStore)?)?;
    let mut pages = Vec::with_capacity(header.pages as usize);
    for page in 0..header.pages {
        pages.push(*files.read(page)?.ok_or(Failure::Damaged(page))?);
    }
    Ok(Arc::new(pages))
}

/// What records ask of a log. Nothing is written over a snapshot.
pub struct Log {
    pub pages: Pages,
}

impl Log {
    pub fn open(_: &str) -> io::Result<Log> {
        Err(ErrorKind::Unsupported.into())
    }

    pub fn has_pages(&self) -> io::Result<bool> {
        Ok(!self.pages.is_empty())
    }

    pub fn length(&self) -> u64 {
        0
    }

    pub fn read(&mut self, page: u32) -> io::Result<Option<&Page>> {
        Ok(self.pages.get(page as usize))
    }

    pub fn commit(&mut self, _: u64, _: &BTreeMap<u32, Box<Page>>) -> io::Result<()> {
        Err(ErrorKind::Unsupported.into())
    }

    pub fn checkpoint(&mut self) -> io::Result<()> {
        Err(ErrorKind::Unsupported.into())
    }
}
