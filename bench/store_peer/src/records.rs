//! Records at places and byte lists on chains, over the pages of a store.

use crate::Failure;
use crate::header::Header;
use crate::log::Log;
use crate::page::{CHAIN_BYTES, PAGE, Page, chain_link, fill_chain, fill_free, next_free};
use crate::piece::Far;
use crate::slots;
use std::collections::BTreeMap;

/// Where a record stands.
#[derive(Clone, Copy, PartialEq, Eq, Hash)]
pub struct Place {
    pub page: u32,
    pub slot: u16,
}

/// A byte list, and the chain pages on which it stands.
#[derive(Default)]
pub struct List {
    pub bytes: Vec<u8>,
    pages: Vec<u32>,
}

pub struct Records {
    log: Log,
    /// The pages that were changed since the last commit, and room of earlier ones.
    waiting: BTreeMap<u32, Box<Page>>,
    spare: Vec<Box<Page>>,
    /// The header of the last commit, and that of the next one.
    saved: Header,
    pub head: Header,
}

impl Records {
    pub fn create(name: &str, header: Header) -> Result<Records, Failure> {
        let log = Log::open(name)?;
        if log.has_pages()? {
            return Err(Failure::Exists);
        }
        let mut records = Records::new(log, header);
        fill_chain(records.change(1), 0, &[0; 8]);
        records.commit_as(0)?;
        Ok(records)
    }

    pub fn open(name: &str) -> Result<Records, Failure> {
        Records::over(Log::open(name)?)
    }

    pub fn over(mut log: Log) -> Result<Records, Failure> {
        let page = log.read(0)?.ok_or(Failure::NotAStore)?;
        let head = Header::read(page)?;
        Ok(Records::new(log, head))
    }

    fn new(log: Log, head: Header) -> Records {
        Records {
            log,
            waiting: BTreeMap::new(),
            spare: Vec::new(),
            saved: head,
            head,
        }
    }

    pub fn log_length(&self) -> u64 {
        self.log.length()
    }

    /// The page with this number, for whatever use.
    fn read(&mut self, page: u32) -> Result<&Page, Failure> {
        if let Some(waits) = self.waiting.get(&page) {
            return Ok(waits);
        }
        if page >= self.head.pages {
            return Err(Failure::Damaged(page));
        }
        self.log.read(page)?.ok_or(Failure::Damaged(page))
    }

    /// A page that waits for the next commit, to be filled.
    fn change(&mut self, page: u32) -> &mut Page {
        let spare = &mut self.spare;
        let room = || spare.pop().unwrap_or_else(|| Box::new([0; PAGE]));
        self.waiting.entry(page).or_insert_with(room)
    }

    pub fn record(&mut self, place: Place) -> Result<&[u8], Failure> {
        let page = self.read(place.page)?;
        let record = slots::record(page, place.slot).filter(|_| slots::is_slotted(page));
        record.ok_or(Failure::Damaged(place.page))
    }

    pub fn add(&mut self, record: &[u8]) -> Result<Place, Failure> {
        if let Some(place) = self.add_to_room(record)? {
            return Ok(place);
        }
        let page = self.take()?;
        let slotted = self.change(page);
        slots::clear(slotted);
        let slot = slots::put(slotted, record).expect("room in an empty page");
        self.head.room = page;
        Ok(Place { page, slot })
    }

    fn add_to_room(&mut self, record: &[u8]) -> Result<Option<Place>, Failure> {
        let page = self.head.room;
        if page == 0 {
            return Ok(None);
        }
        if let Some(waits) = self.waiting.get_mut(&page) {
            return Ok(slots::put(waits, record).map(|slot| Place { page, slot }));
        }
        let mut copy = *self.read(page)?;
        if !slots::is_slotted(&copy) {
            return Err(Failure::Damaged(page));
        }
        let slot = slots::put(&mut copy, record);
        if slot.is_some() {
            *self.change(page) = copy;
        }
        Ok(slot.map(|slot| Place { page, slot }))
    }

    /// The page of a record, which is there, as it waits for the next commit.
    fn page_of(&mut self, place: Place) -> Result<&mut Page, Failure> {
        if !self.waiting.contains_key(&place.page) {
            let copy = *self.read(place.page)?;
            if !slots::is_slotted(&copy) || slots::record(&copy, place.slot).is_none() {
                return Err(Failure::Damaged(place.page));
            }
            *self.change(place.page) = copy;
        }
        Ok(self.change(place.page))
    }

    /// Puts a record in the place of another one, or elsewhere where it doesn't fit there.
    pub fn replace(&mut self, place: Place, record: &[u8]) -> Result<Place, Failure> {
        if slots::replace(self.page_of(place)?, place.slot, record) {
            return Ok(place);
        }
        self.remove(place)?;
        self.add(record)
    }

    pub fn remove(&mut self, place: Place) -> Result<(), Failure> {
        if !slots::remove(self.page_of(place)?, place.slot) {
            self.release(place.page);
        }
        Ok(())
    }

    /// A page that was free: the first of the free list, else one that was never used.
    fn take(&mut self) -> Result<u32, Failure> {
        let page = self.head.free;
        if page != 0 {
            let next = next_free(self.read(page)?).ok_or(Failure::Damaged(page))?;
            self.head.free = next;
            return Ok(page);
        }
        if self.head.pages >= self.head.limit {
            return Err(Failure::Full);
        }
        self.head.pages += 1;
        Ok(self.head.pages - 1)
    }

    fn release(&mut self, page: u32) {
        let next = self.head.free;
        fill_free(self.change(page), next);
        self.head.free = page;
        if self.head.room == page {
            self.head.room = 0;
        }
    }

    /// Adds a byte list, and answers its first page.
    pub fn add_list(&mut self, bytes: &[u8]) -> Result<u32, Failure> {
        self.change_list(&List::default(), bytes)
    }

    /// Puts bytes in the place of a list, from their last page on, and answers their first page. Only those of its
    /// pages are written that change.
    pub fn change_list(&mut self, old: &List, bytes: &[u8]) -> Result<u32, Failure> {
        let count = bytes.len().div_ceil(CHAIN_BYTES);
        let mut olds = old.bytes.chunks(CHAIN_BYTES);
        let kept = Vec::from_iter(old.pages.iter().zip(&mut olds).take(count));
        let mut behind = old.pages.get(count).copied().unwrap_or(0);
        let mut next = 0;
        for (i, content) in bytes.chunks(CHAIN_BYTES).enumerate().rev() {
            let page = match kept.get(i) {
                Some(&(&page, was)) => {
                    if (was, behind) != (content, next) {
                        fill_chain(self.change(page), next, content);
                    }
                    behind = page;
                    page
                }
                None => {
                    let page = self.take()?;
                    fill_chain(self.change(page), next, content);
                    page
                }
            };
            next = page;
        }
        for &page in old.pages.iter().skip(count) {
            self.release(page);
        }
        Ok(next)
    }

    pub fn remove_list(&mut self, list: &List) {
        for &page in &list.pages {
            self.release(page);
        }
    }

    /// The list at a page, which has so many bytes.
    pub fn list(&mut self, first: u32, length: u64) -> Result<List, Failure> {
        if length > u64::from(self.head.pages) * CHAIN_BYTES as u64 {
            return Err(Failure::Damaged(first));
        }
        let mut list = List::default();
        list.bytes.reserve_exact(length as usize);
        let mut page = first;
        while page != 0 && (list.bytes.len() as u64) < length {
            let (next, content) = chain_link(self.read(page)?).ok_or(Failure::Damaged(page))?;
            list.bytes.extend_from_slice(content);
            list.pages.push(page);
            page = next;
        }
        if page != 0 || list.bytes.len() as u64 != length {
            return Err(Failure::Damaged(first));
        }
        Ok(list)
    }

    /// Adds a content as a list.
    pub fn add_far(&mut self, content: &[u8]) -> Result<Far, Failure> {
        Ok(Far {
            first: self.add_list(content)?,
            length: content.len() as u32,
        })
    }

    /// Gives a far content page by page.
    pub fn each_part(
        &mut self,
        far: Far,
        mut give: impl FnMut(&[u8]) -> Result<(), Failure>,
    ) -> Result<(), Failure> {
        let wrong = || Failure::Damaged(far.first);
        let (mut page, mut left) = (far.first, far.length as usize);
        while left > 0 {
            let (next, content) = chain_link(self.read(page)?).ok_or_else(wrong)?;
            left = left.checked_sub(content.len()).ok_or_else(wrong)?;
            give(content)?;
            page = next;
        }
        if page == 0 { Ok(()) } else { Err(wrong()) }
    }

    pub fn remove_far(&mut self, far: Far) -> Result<(), Failure> {
        let list = self.list(far.first, far.length.into())?;
        self.remove_list(&list);
        Ok(())
    }

    pub fn catalog(&mut self) -> Result<List, Failure> {
        self.list(self.head.catalog, self.head.catalog_length)
    }

    pub fn set_catalog(&mut self, bytes: &[u8]) -> Result<(), Failure> {
        let old = self.catalog()?;
        self.head.catalog = self.change_list(&old, bytes)?;
        self.head.catalog_length = bytes.len() as u64;
        Ok(())
    }

    pub fn commit(&mut self) -> Result<(), Failure> {
        self.commit_as(self.saved.number.wrapping_add(1))
    }

    fn commit_as(&mut self, number: u64) -> Result<(), Failure> {
        self.head.number = number;
        let head = self.head;
        head.write(self.change(0));
        self.log.commit(number, &self.waiting)?;
        self.saved = head;
        self.drop_waiting();
        Ok(())
    }

    /// Drops what was changed since the last commit.
    pub fn abandon(&mut self) {
        self.head = self.saved;
        self.drop_waiting();
    }

    fn drop_waiting(&mut self) {
        while let Some((_, page)) = self.waiting.pop_first() {
            self.spare.push(page);
        }
    }

    pub fn checkpoint(&mut self) -> Result<(), Failure> {
        Ok(self.log.checkpoint()?)
    }
}
