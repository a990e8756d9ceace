//! Slotted pages: records by slots.

use crate::page::{PAGE, Page, is_zero, set, u16_at};

const MOST_SLOTS: usize = 2_046;

pub fn count(page: &Page) -> usize {
    usize::from(u16_at(page, 2))
}

/// The offset and the length of a slot's record.
fn range(page: &Page, slot: usize) -> (usize, usize) {
    let at = 8 + 4 * slot;
    (u16_at(page, at).into(), u16_at(page, at + 2).into())
}

/// Makes this a slotted page without records.
pub fn clear(page: &mut Page) {
    page.fill(0);
    page[0] = 1;
}

/// Whether the page is slotted: its records lie behind the slots and don't overlap.
pub fn is_slotted(page: &Page) -> bool {
    let count = count(page);
    if page[..2] != [1, 0] || !is_zero(&page[4..8]) || count > MOST_SLOTS {
        return false;
    }
    if count > 0 && range(page, count - 1).1 == 0 {
        return false;
    }
    let mut end = PAGE;
    let mut falls = true;
    for slot in 0..count {
        let (at, length) = range(page, slot);
        if length == 0 {
            if at != 0 {
                return false;
            }
            continue;
        }
        if at < 8 + 4 * count || at + length > PAGE {
            return false;
        }
        falls &= at + length <= end;
        end = at;
    }
    // Records that each stand before the last one can't overlap, and most pages are so.
    falls || !overlap(page)
}

fn overlap(page: &Page) -> bool {
    let ranges = (0..count(page)).map(|slot| range(page, slot));
    let mut ranges = Vec::from_iter(ranges.filter(|&(_, length)| length > 0));
    ranges.sort_unstable();
    ranges.windows(2).any(|two| two[0].0 + two[0].1 > two[1].0)
}

pub fn record(page: &Page, slot: u16) -> Option<&[u8]> {
    let slot = usize::from(slot);
    if slot >= count(page) {
        return None;
    }
    let (at, length) = range(page, slot);
    (length > 0).then(|| &page[at..at + length])
}

/// Puts a record into the first empty slot, where it fits.
pub fn put(page: &mut Page, record: &[u8]) -> Option<u16> {
    let old = count(page);
    let ranges = (0..old).map(|slot| range(page, slot));
    let slot = ranges
        .clone()
        .position(|(_, length)| length == 0)
        .unwrap_or(old);
    let count = old.max(slot + 1);
    let taken: usize = ranges.clone().map(|(_, length)| length).sum();
    if 8 + 4 * count + taken + record.len() > PAGE {
        return None;
    }
    let low = ranges
        .filter(|&(_, length)| length > 0)
        .map(|(at, _)| at)
        .min();
    let low = low.unwrap_or(PAGE);
    if slot < old || low < 8 + 4 * count + record.len() {
        pack(page, slot, record, count);
        return Some(slot as u16);
    }
    let at = low - record.len();
    set(page, at, record);
    set(page, 2, &(count as u16).to_be_bytes());
    set(page, 8 + 4 * slot, &(at as u16).to_be_bytes());
    set(page, 10 + 4 * slot, &(record.len() as u16).to_be_bytes());
    Some(slot as u16)
}

/// Puts a record in the place of another one, and answers whether it fits.
pub fn replace(page: &mut Page, slot: u16, record: &[u8]) -> bool {
    let slot = usize::from(slot);
    let (at, length) = range(page, slot);
    if record.len() <= length {
        set(page, at, record);
        set(page, 10 + 4 * slot, &(record.len() as u16).to_be_bytes());
        return true;
    }
    let count = count(page);
    let taken: usize = (0..count).map(|slot| range(page, slot).1).sum();
    let fits = 8 + 4 * count + taken - length + record.len() <= PAGE;
    if fits {
        pack(page, slot, record, count);
    }
    fits
}

/// Takes a record out, with the empty slots at the end, and answers whether the page has another one.
pub fn remove(page: &mut Page, slot: u16) -> bool {
    set(page, 8 + 4 * usize::from(slot), &[0; 4]);
    let last = (0..count(page)).rfind(|&slot| range(page, slot).1 > 0);
    let count = last.map_or(0, |last| last + 1);
    set(page, 2, &(count as u16).to_be_bytes());
    count > 0
}

/// Lays the records anew, each before the last one, with this one in its slot.
fn pack(page: &mut Page, slot: usize, record: &[u8], count: usize) {
    let old = *page;
    clear(page);
    set(page, 2, &(count as u16).to_be_bytes());
    let mut end = PAGE;
    for i in 0..count {
        let kept = || {
            let (at, length) = range(&old, i);
            &old[at..at + length]
        };
        let bytes = if i == slot { record } else { kept() };
        if !bytes.is_empty() {
            end -= bytes.len();
            set(page, end, bytes);
            set(page, 8 + 4 * i, &(end as u16).to_be_bytes());
            set(page, 10 + 4 * i, &(bytes.len() as u16).to_be_bytes());
        }
    }
}
