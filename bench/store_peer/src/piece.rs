//! Records of a piece: the nodes of a part, and proxies for what hangs below them.

use crate::page::{is_zero, set, u16_at, u32_at};
use crate::pyx::CONTENT_LIMIT;
use crate::records::Place;
use crate::rules::Named;
use crate::tree::{Kind, LONGEST_NEAR, weight_of};
use std::iter::from_fn;

const HEAD: usize = 16;
const RUN: u8 = 6;
/// The bytes of a proxy.
pub const PROXY: usize = 8;
/// A record with its proxies has at most so many bytes; else these stand in a list.
const LONGEST: usize = 8_176;
const MOST_SLOTS: u32 = 256;
const MOST_ROOTS: u16 = 256;
const MOST_PROXIES: u32 = 524_288;

/// A record, and how many trees it holds beside each other.
#[derive(Clone, Copy, PartialEq)]
pub struct Proxy {
    pub place: Place,
    pub roots: u16,
}

impl Proxy {
    pub fn bytes(&self) -> [u8; PROXY] {
        let mut bytes = [0; PROXY];
        set(&mut bytes, 0, &self.place.page.to_be_bytes());
        set(&mut bytes, 4, &self.place.slot.to_be_bytes());
        set(&mut bytes, 6, &self.roots.to_be_bytes());
        bytes
    }

    pub fn read(bytes: &[u8]) -> Proxy {
        Proxy {
            place: Place {
                page: u32_at(bytes, 0),
                slot: u16_at(bytes, 4),
            },
            roots: u16_at(bytes, 6),
        }
    }
}

/// The list in which a content stands: its first page, and its length.
#[derive(Clone, Copy)]
pub struct Far {
    pub first: u32,
    pub length: u32,
}

/// A node's content: as bytes, or in a list of its own.
#[derive(Clone, Copy)]
pub enum Content<'a> {
    Near(&'a [u8]),
    Far(Far),
}

impl<'a> Content<'a> {
    fn len(&self) -> usize {
        match self {
            Content::Near(content) => content.len(),
            Content::Far(far) => far.length as usize,
        }
    }

    /// One that is to be put into a list before its record is written.
    pub fn long(&self) -> Option<&'a [u8]> {
        match *self {
            Content::Near(content) => (content.len() > LONGEST_NEAR).then_some(content),
            Content::Far(_) => None,
        }
    }
}

/// A piece that grows in document order, as the bytes of its record.
pub struct Growing {
    bytes: Vec<u8>,
    items: u32,
    proxies: Vec<u8>,
}

impl Growing {
    pub fn new() -> Growing {
        Growing {
            bytes: vec![0; HEAD],
            items: 0,
            proxies: Vec::new(),
        }
    }

    /// Adds a node, and answers where the number of its child items is to be put.
    pub fn push_node(&mut self, kind: Kind, name: &[u8], content: Content) -> usize {
        let mut list = [0; 8];
        let (is_far, content) = match content {
            Content::Near(content) => (0, content),
            Content::Far(far) => {
                set(&mut list, 0, &far.first.to_be_bytes());
                set(&mut list, 4, &far.length.to_be_bytes());
                (1, &list[..])
            }
        };
        let at = self.bytes.len();
        self.bytes.extend([code(kind), is_far]);
        self.bytes.extend((name.len() as u16).to_be_bytes());
        self.bytes.extend((content.len() as u16).to_be_bytes());
        self.bytes.extend([0, 0]);
        self.bytes.extend_from_slice(name);
        self.bytes.extend_from_slice(content);
        self.bytes.resize(self.bytes.len().next_multiple_of(8), 0);
        self.items += 1;
        at + 6
    }

    pub fn set_items(&mut self, at: usize, count: u16) {
        set(&mut self.bytes, at, &count.to_be_bytes());
    }

    /// Adds a run without proxies, and answers where it is.
    pub fn push_run(&mut self) -> usize {
        self.bytes.extend([RUN, 0, 0, 0, 0, 0, 0, 0]);
        self.items += 1;
        self.bytes.len() - 8
    }

    /// Adds proxies to the run there, which is the last one.
    pub fn push_proxies(&mut self, run: usize, proxies: &[u8]) {
        let count = u32_at(&self.bytes, run + 4) + (proxies.len() / PROXY) as u32;
        set(&mut self.bytes, run + 4, &count.to_be_bytes());
        self.proxies.extend_from_slice(proxies);
    }

    /// The proxies, where they have no room in the record.
    pub fn long_proxies(&self) -> Option<&[u8]> {
        (self.bytes.len() + self.proxies.len() > LONGEST).then_some(&self.proxies)
    }

    /// The bytes of the record, with the list of its proxies where it has one.
    pub fn record(&mut self, roots: u16, list: Option<u32>) -> &[u8] {
        let count = (self.proxies.len() / PROXY) as u32;
        self.bytes[0] = if list.is_some() { 2 } else { 1 };
        set(&mut self.bytes, 2, &roots.to_be_bytes());
        set(&mut self.bytes, 4, &self.items.to_be_bytes());
        set(&mut self.bytes, 8, &count.to_be_bytes());
        set(&mut self.bytes, 12, &list.unwrap_or(0).to_be_bytes());
        if list.is_none() {
            self.bytes.extend_from_slice(&self.proxies);
        }
        &self.bytes
    }

    /// Empties the piece, and keeps its room.
    pub fn clear(&mut self) {
        self.bytes.clear();
        self.bytes.resize(HEAD, 0);
        self.items = 0;
        self.proxies.clear();
    }
}

fn code(kind: Kind) -> u8 {
    match kind {
        Kind::Doc => 1,
        Kind::Element => 2,
        Kind::Attribute => 3,
        Kind::Text => 4,
        Kind::Instruction => 5,
    }
}

fn kind_of(code: u8) -> Option<Kind> {
    Some(match code {
        1 => Kind::Doc,
        2 => Kind::Element,
        3 => Kind::Attribute,
        4 => Kind::Text,
        5 => Kind::Instruction,
        _ => return None,
    })
}

/// The content of a node whose item has these bytes of it, and says so whether it is far.
fn content_of(is_far: u8, bytes: &[u8]) -> Option<Content<'_>> {
    match is_far {
        0 => Some(Content::Near(bytes)),
        1 if bytes.len() == 8 => {
            let (first, length) = (u32_at(bytes, 0), u32_at(bytes, 4));
            let is_long = (LONGEST_NEAR + 1..=CONTENT_LIMIT).contains(&(length as usize));
            is_long.then_some(Content::Far(Far { first, length }))
        }
        _ => None,
    }
}

/// What stands at one place below a node, or is a root.
#[derive(Clone, Copy)]
pub enum What<'a> {
    Node {
        kind: Kind,
        name: &'a [u8],
        content: Content<'a>,
    },
    /// So many of the next proxies.
    Run(u32),
}

impl<'a> What<'a> {
    pub fn is_node(&self) -> bool {
        matches!(self, What::Node { .. })
    }

    /// The kind and the name of a node.
    pub fn named(&self) -> Named<'a> {
        match *self {
            What::Node { kind, name, .. } => (kind, name),
            What::Run(_) => unreachable!("a run has no name"),
        }
    }

    /// How many proxies it stands for.
    pub fn proxies(&self) -> u32 {
        match *self {
            What::Node { .. } => 0,
            What::Run(count) => count,
        }
    }

    /// In slots of 8 bytes; proxies weigh nothing.
    pub fn weight(&self) -> u32 {
        match self {
            What::Node { name, content, .. } => weight_of(name.len(), content.len()),
            What::Run(_) => 0,
        }
    }
}

#[derive(Clone, Copy)]
pub struct Item<'a> {
    pub what: What<'a>,
    /// The index of the item behind this one and all below it.
    pub end: u32,
    /// How many proxies stand before it.
    pub before: u32,
}

/// A record that was read and checked. Its items stand in document order.
pub struct Piece<'a> {
    pub items: Vec<Item<'a>>,
    pub roots: u16,
    /// What its nodes weigh, and how many slots of 8 bytes their items take.
    pub weight: u32,
    pub size: u32,
    pub proxies: &'a [u8],
    proxy_count: u32,
}

/// The first page of the list of a record's proxies and its length, where they don't stand in the record.
pub fn list_of(record: &[u8]) -> Option<(u32, u64)> {
    let listed = record.len() >= HEAD && record[0] == 2;
    listed.then(|| {
        (
            u32_at(record, 12),
            PROXY as u64 * u64::from(u32_at(record, 8)),
        )
    })
}

/// The bytes of a record that are left, and what the rest of the piece may have.
struct Rest<'a> {
    bytes: &'a [u8],
    items: u32,
    proxies: u32,
}

impl<'a> Piece<'a> {
    /// The piece of a record and of the list of its proxies, if it has one.
    pub fn read(record: &'a [u8], list: &'a [u8]) -> Option<Piece<'a>> {
        let (head, bytes) = record.split_at_checked(HEAD)?;
        let mut rest = Rest {
            bytes,
            items: u32_at(head, 4),
            proxies: 0,
        };
        let mut piece = Piece {
            items: Vec::with_capacity((bytes.len() / 8).min(rest.items as usize)),
            roots: u16_at(head, 2),
            weight: 0,
            size: 0,
            proxies: list,
            proxy_count: u32_at(head, 8),
        };
        let few = (1..=MOST_ROOTS).contains(&piece.roots) && piece.proxy_count <= MOST_PROXIES;
        if head[1] != 0 || !few {
            return None;
        }
        for _ in 0..piece.roots {
            piece.item(&mut rest, false)?;
        }
        let length = PROXY * piece.proxy_count as usize;
        let whole = record.len() - rest.bytes.len() + length;
        let formed = match head[0] {
            1 => u32_at(head, 12) == 0 && whole <= LONGEST && rest.bytes.len() == length,
            2 => whole > LONGEST && rest.bytes.is_empty() && list.len() == length,
            _ => false,
        };
        if head[0] == 1 {
            piece.proxies = rest.bytes;
        }
        let fits = |proxy: &[u8]| (1..=MOST_ROOTS).contains(&u16_at(proxy, 6));
        let all = rest.items == 0 && rest.proxies == piece.proxy_count;
        (formed && all && piece.proxies.chunks_exact(PROXY).all(fits)).then_some(piece)
    }

    /// Reads an item with all below it. That of a node takes a slot at least, so that the recursion ends.
    fn item(&mut self, rest: &mut Rest<'a>, may_run: bool) -> Option<()> {
        let (head, bytes) = rest.bytes.split_at_checked(8)?;
        rest.items = rest.items.checked_sub(1)?;
        let at = self.items.len();
        let mut item = Item {
            what: What::Run(u32_at(head, 4)),
            end: at as u32 + 1,
            before: rest.proxies,
        };
        if head[0] == RUN {
            let count = u32_at(head, 4);
            if !may_run
                || !is_zero(&head[1..4])
                || count == 0
                || count > self.proxy_count - rest.proxies
            {
                return None;
            }
            rest.proxies += count;
            rest.bytes = bytes;
            self.items.push(item);
            return Some(());
        }
        let name = usize::from(u16_at(head, 2));
        let text = name + usize::from(u16_at(head, 4));
        let (text, pad) = bytes
            .split_at_checked(text.next_multiple_of(8))?
            .0
            .split_at(text);
        self.size += 1 + text.len().div_ceil(8) as u32;
        if !is_zero(pad) || self.size > MOST_SLOTS {
            return None;
        }
        let (name, content) = text.split_at(name);
        item.what = What::Node {
            kind: kind_of(head[0])?,
            name,
            content: content_of(head[1], content)?,
        };
        self.weight += item.what.weight();
        rest.bytes = &bytes[text.len() + pad.len()..];
        self.items.push(item);
        let mut after_run = false;
        for _ in 0..u16_at(head, 6) {
            let child = self.items.len();
            self.item(rest, !after_run)?;
            after_run = matches!(self.items[child].what, What::Run(_));
        }
        self.items[at].end = self.items.len() as u32;
        Some(())
    }

    pub fn proxy(&self, index: u32) -> Proxy {
        Proxy::read(&self.proxies[PROXY * index as usize..][..PROXY])
    }

    /// How many proxies stand before this item, or in all where there is none.
    pub fn proxies_before(&self, item: u32) -> u32 {
        let item = self.items.get(item as usize);
        item.map_or(self.proxy_count, |item| item.before)
    }

    /// The proxies of the run that is this item.
    pub fn proxies(&self, item: &Item, count: u32) -> impl Iterator<Item = Proxy> {
        (item.before..item.before + count).map(|index| self.proxy(index))
    }

    /// The items from one up to an end that stand beside each other, by their indexes.
    pub fn beside(&self, first: u32, end: u32) -> impl Iterator<Item = u32> {
        let mut next = first;
        from_fn(move || {
            let item = next;
            (item < end).then(|| {
                next = self.items[item as usize].end;
                item
            })
        })
    }
}
