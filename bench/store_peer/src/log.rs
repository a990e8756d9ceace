//! The two files of a store, and its log.

use crate::cache::Cache;
use crate::page::{MOST_PAGES, PAGE, Page, u32_at};
use std::collections::BTreeMap;
use std::fs::{File, OpenOptions};
use std::io::{self, ErrorKind};
use std::os::unix::fs::FileExt;

/// Bytes of a page in the log, with its number.
const ENTRY: u64 = 4 + PAGE as u64;
const HEAD: u64 = 13;
/// Set in the places of the log, for the cache.
const IN_LOG: u64 = 1 << 63;
/// Once so many bytes of a group wait, they are written.
const BLOCK: usize = 262_144;

pub struct Log {
    pages: File,
    log: File,
    /// Where the pages of the log stand.
    places: BTreeMap<u32, u64>,
    /// Where the log ends, and whether a closed byte stands there.
    end: u64,
    shut: bool,
    /// Bytes that wait to be written, kept for their room.
    block: Vec<u8>,
    /// Pages that were read. A commit writes behind all of the log that was read, so that they stay.
    cache: Cache,
}

fn open_file(path: &str) -> io::Result<File> {
    let mut options = OpenOptions::new();
    let file = options
        .read(true)
        .write(true)
        .create(true)
        .truncate(false)
        .open(path)?;
    file.try_lock()?;
    if !file.metadata()?.is_file() {
        return Err(ErrorKind::InvalidInput.into());
    }
    Ok(file)
}

/// As many bytes as the file has there, up to so many.
fn read_at(file: &File, bytes: &mut [u8], at: u64) -> io::Result<usize> {
    let mut count = 0;
    while count < bytes.len() {
        match file.read_at(&mut bytes[count..], at + count as u64) {
            Ok(0) => break,
            Ok(more) => count += more,
            Err(error) if error.kind() == ErrorKind::Interrupted => {}
            Err(error) => return Err(error),
        }
    }
    Ok(count)
}

fn offset(page: u32) -> u64 {
    PAGE as u64 * u64::from(page)
}

impl Log {
    pub fn open(name: &str) -> io::Result<Log> {
        let mut log = Log {
            pages: open_file(name)?,
            log: open_file(&format!("{name}.log"))?,
            places: BTreeMap::new(),
            end: 0,
            shut: false,
            block: Vec::with_capacity(BLOCK + PAGE + 4),
            cache: Cache::new(),
        };
        log.pages.sync_data()?;
        log.log.sync_data()?;
        let folder = name.rsplit_once('/').map_or(".", |(folder, _)| folder);
        File::open(folder)?.sync_all()?;
        let length = log.log.metadata()?.len();
        while log.read_group(length)? {}
        Ok(log)
    }

    /// Notes where the pages of the group at the log's end stand, if one is there.
    fn read_group(&mut self, length: u64) -> io::Result<bool> {
        let mut head = [0; HEAD as usize];
        let given = read_at(&self.log, &mut head, self.end)?;
        self.shut = given > 0 && head[0] != 1;
        let count = u32_at(&head, 9);
        let end = self.end + HEAD + ENTRY * u64::from(count);
        if given < head.len() || head[0] != 1 || count == 0 || count > MOST_PAGES || end >= length {
            return Ok(false);
        }
        let mut numbers = Vec::with_capacity(count as usize);
        for i in 0..u64::from(count) {
            let mut number = [0; 4];
            self.log
                .read_exact_at(&mut number, self.end + HEAD + ENTRY * i)?;
            numbers.push(u32::from_be_bytes(number));
        }
        if numbers.last() >= Some(&MOST_PAGES) || !numbers.is_sorted_by(|one, other| one < other) {
            return Ok(false);
        }
        self.place(numbers.into_iter());
        self.end = end;
        Ok(true)
    }

    /// Notes where the pages of a group at the log's end stand.
    fn place(&mut self, numbers: impl Iterator<Item = u32>) {
        for (number, i) in numbers.zip(0u64..) {
            self.places.insert(number, self.end + HEAD + 4 + ENTRY * i);
        }
    }

    pub fn length(&self) -> u64 {
        self.end
    }

    pub fn has_pages(&self) -> io::Result<bool> {
        Ok(!self.places.is_empty() || self.pages.metadata()?.len() >= PAGE as u64)
    }

    /// The number behind the greatest page. Only `store_check` asks for it.
    #[allow(dead_code)]
    pub fn page_count(&self) -> io::Result<u32> {
        let whole = self.pages.metadata()?.len() / PAGE as u64;
        let whole = whole.min(MOST_PAGES.into()) as u32;
        let logged = self.places.last_key_value().map_or(0, |(&page, _)| page + 1);
        Ok(whole.max(logged))
    }

    /// A page, where one is there.
    pub fn read(&mut self, page: u32) -> io::Result<Option<&Page>> {
        let (file, at, place) = match self.places.get(&page) {
            Some(&at) => (&self.log, at, at | IN_LOG),
            None => (&self.pages, offset(page), offset(page)),
        };
        let read = |into: &mut Page| Ok(read_at(file, into, at)? == PAGE);
        self.cache.get_or(place, read)
    }

    /// Adds a group of these pages.
    pub fn commit(&mut self, number: u64, pages: &BTreeMap<u32, Box<Page>>) -> io::Result<()> {
        if !self.shut {
            self.write_gate(self.end, 0)?;
        }
        self.block.clear();
        self.block.extend(number.to_be_bytes());
        self.block.extend((pages.len() as u32).to_be_bytes());
        let mut at = self.end + 1;
        for (page, bytes) in pages {
            self.block.extend(page.to_be_bytes());
            self.block.extend_from_slice(&bytes[..]);
            if self.block.len() >= BLOCK {
                self.log.write_all_at(&self.block, at)?;
                at += self.block.len() as u64;
                self.block.clear();
            }
        }
        self.block.push(0);
        self.log.write_all_at(&self.block, at)?;
        self.log.sync_data()?;
        self.write_gate(self.end, 1)?;
        self.place(pages.keys().copied());
        self.end += HEAD + ENTRY * pages.len() as u64;
        self.shut = true;
        Ok(())
    }

    fn write_gate(&self, at: u64, gate: u8) -> io::Result<()> {
        self.log.write_all_at(&[gate], at)?;
        self.log.sync_data()
    }

    /// Moves the log's pages to the area of pages, and empties the log.
    pub fn checkpoint(&mut self) -> io::Result<()> {
        if self.end == 0 {
            return Ok(());
        }
        self.cache.forget();
        let mut bytes = [0; PAGE];
        for (&page, &at) in &self.places {
            self.log.read_exact_at(&mut bytes, at)?;
            self.pages.write_all_at(&bytes, offset(page))?;
        }
        self.pages.sync_data()?;
        self.write_gate(0, 0)?;
        self.places.clear();
        self.end = 0;
        self.shut = true;
        Ok(())
    }
}
