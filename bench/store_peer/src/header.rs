//! Page 0.

use crate::Failure;
use crate::page::{MOST_PAGES, Page, is_zero, set, u16_at, u32_at, u64_at};

const MARK: &[u8] = b"NATIXST1";

/// The format of what is written. That of a store may be 1 until its next commit.
const FORMAT: u16 = 2;

#[derive(Clone, Copy)]
pub struct Header {
    pub k: u16,
    pub target: u16,
    pub tolerance: u16,
    pub limit: u32,
    /// How many pages are used or free.
    pub pages: u32,
    /// The first free page, 0 for none.
    pub free: u32,
    /// The slotted page that is tried first for a new record, 0 for none.
    pub room: u32,
    /// The number of the last group.
    pub number: u64,
    pub catalog: u32,
    pub catalog_length: u64,
}

impl Header {
    /// That of a new store, whose catalog stands on page 1.
    pub fn new(k: u16) -> Header {
        Header {
            k,
            target: 50,
            tolerance: k / 4,
            limit: MOST_PAGES,
            pages: 2,
            free: 0,
            room: 0,
            number: 0,
            catalog: 1,
            catalog_length: 8,
        }
    }

    pub fn read(page: &Page) -> Result<Header, Failure> {
        if !page.starts_with(MARK) {
            return Err(Failure::NotAStore);
        }
        let header = Header {
            k: u16_at(page, 10),
            target: u16_at(page, 12),
            tolerance: u16_at(page, 14),
            limit: u32_at(page, 16),
            pages: u32_at(page, 20),
            free: u32_at(page, 24),
            room: u32_at(page, 28),
            number: u64_at(page, 32),
            catalog: u32_at(page, 40),
            catalog_length: u64_at(page, 44),
        };
        let sound = (1..=FORMAT).contains(&u16_at(page, 8))
            && (1..=256).contains(&header.k)
            && header.target <= 100
            && header.tolerance <= 256
            && (64..=MOST_PAGES).contains(&header.limit)
            && (2..=header.limit).contains(&header.pages)
            && header.catalog_length >= 8
            && is_zero(&page[52..]);
        if sound {
            Ok(header)
        } else {
            Err(Failure::Damaged(0))
        }
    }

    pub fn write(&self, page: &mut Page) {
        page.fill(0);
        set(page, 0, MARK);
        set(page, 8, &FORMAT.to_be_bytes());
        set(page, 10, &self.k.to_be_bytes());
        set(page, 12, &self.target.to_be_bytes());
        set(page, 14, &self.tolerance.to_be_bytes());
        set(page, 16, &self.limit.to_be_bytes());
        set(page, 20, &self.pages.to_be_bytes());
        set(page, 24, &self.free.to_be_bytes());
        set(page, 28, &self.room.to_be_bytes());
        set(page, 32, &self.number.to_be_bytes());
        set(page, 40, &self.catalog.to_be_bytes());
        set(page, 44, &self.catalog_length.to_be_bytes());
    }
}
