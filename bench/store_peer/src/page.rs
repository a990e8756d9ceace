//! Pages and the numbers in them; free pages and chain pages.

pub const PAGE: usize = 8_192;
pub const MOST_PAGES: u32 = 16_777_216;
/// The bytes of a list that a chain page holds at most.
pub const CHAIN_BYTES: usize = PAGE - 8;

pub type Page = [u8; PAGE];

pub fn u16_at(bytes: &[u8], at: usize) -> u16 {
    u16::from_be_bytes([bytes[at], bytes[at + 1]])
}

pub fn u32_at(bytes: &[u8], at: usize) -> u32 {
    u32::from_be_bytes([bytes[at], bytes[at + 1], bytes[at + 2], bytes[at + 3]])
}

pub fn u64_at(bytes: &[u8], at: usize) -> u64 {
    u64::from(u32_at(bytes, at)) << 32 | u64::from(u32_at(bytes, at + 4))
}

pub fn set(bytes: &mut [u8], at: usize, number: &[u8]) {
    bytes[at..at + number.len()].copy_from_slice(number);
}

pub fn is_zero(bytes: &[u8]) -> bool {
    bytes.iter().all(|&byte| byte == 0)
}

/// Makes this a free page with another one behind it.
pub fn fill_free(page: &mut Page, next: u32) {
    page.fill(0);
    set(page, 4, &next.to_be_bytes());
}

/// The free page behind this one.
pub fn next_free(page: &Page) -> Option<u32> {
    (is_zero(&page[..4]) && is_zero(&page[8..])).then(|| u32_at(page, 4))
}

/// Makes this a chain page with these bytes.
pub fn fill_chain(page: &mut Page, next: u32, content: &[u8]) {
    page[..2].copy_from_slice(&[2, 0]);
    set(page, 2, &(content.len() as u16).to_be_bytes());
    set(page, 4, &next.to_be_bytes());
    set(page, 8, content);
    page[8 + content.len()..].fill(0);
}

/// What a chain page holds, and the page behind it.
pub fn chain_link(page: &Page) -> Option<(u32, &[u8])> {
    let length = usize::from(u16_at(page, 2));
    let next = u32_at(page, 4);
    let holds = page[..2] == [2, 0] && (1..=CHAIN_BYTES).contains(&length);
    let ends = next == 0 || length == CHAIN_BYTES;
    let content = page[8..].get(..length).filter(|_| holds && ends)?;
    is_zero(&page[8 + length..]).then_some((next, content))
}
