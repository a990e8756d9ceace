//! Whether the pages of a store keep the rules of `docs/FORMATS.md`. Of those that are broken it tells one, not always the first.
//! It is a program of its own, so that the one beside it is built as ever.

#![allow(dead_code)]

#[path = "../cache.rs"]
mod cache;
#[path = "../catalog.rs"]
mod catalog;
#[path = "../failure.rs"]
mod failure;
#[path = "../header.rs"]
mod header;
#[path = "../log.rs"]
mod log;
#[path = "../page.rs"]
mod page;
#[path = "../piece.rs"]
mod piece;
#[path = "../records.rs"]
mod records;
#[path = "../rules.rs"]
mod rules;
#[path = "../slots.rs"]
mod slots;

#[path = "../../../peer/src/fields.rs"]
mod fields;
#[path = "../../../peer/src/pyx.rs"]
mod pyx;
#[path = "../../../peer/src/tree.rs"]
mod tree;

pub use failure::Failure;

use crate::catalog::{Catalog, Entry};
use crate::header::Header;
use crate::log::Log;
use crate::page::{CHAIN_BYTES, Page, chain_link, next_free};
use crate::piece::{Content, Piece, Proxy, What, list_of};
use crate::records::Place;
use crate::tree::Kind;
use std::collections::HashSet;
use std::env;
use std::process::ExitCode;

const LEVELS: u32 = 257;
const MOST_NODES: u32 = 524_288;
const LONGEST: usize = 1_048_576;
/// From so many attributes of an element on their names are put into a set.
const MANY: usize = 16;

enum Ended {
    /// The page to blame, and the rule.
    Wrong(u32, &'static str),
    Failed(Failure),
}

impl From<std::io::Error> for Ended {
    fn from(error: std::io::Error) -> Ended {
        Ended::Failed(error.into())
    }
}

fn wrong<T>(page: u32, rule: &'static str) -> Result<T, Ended> {
    Err(Ended::Wrong(page, rule))
}

/// What a page is used for.
enum Use {
    None,
    Whole,
    /// The slots whose records weren't reached.
    Slotted(Box<[u64]>),
}

struct Check {
    log: Log,
    uses: Vec<Use>,
    k: u32,
    nodes: u32,
    elements: u32,
}

/// What was there of the nodes below one, so far.
struct Siblings {
    parent: Option<Kind>,
    attributes: Vec<Box<[u8]>>,
    set: HashSet<Box<[u8]>>,
    others: u32,
    elements: u32,
}

impl Siblings {
    fn new(parent: Option<Kind>) -> Siblings {
        Siblings {
            parent,
            attributes: Vec::new(),
            set: HashSet::new(),
            others: 0,
            elements: 0,
        }
    }

    fn is_new(&mut self, name: &[u8]) -> bool {
        if self.attributes.len() < MANY {
            let new = !self.attributes.iter().any(|other| **other == *name);
            self.attributes.push(name.into());
            return new;
        }
        if self.set.is_empty() {
            self.set.extend(self.attributes.iter().cloned());
        }
        self.set.insert(name.into())
    }

    /// Whether a node may come next.
    fn add(&mut self, kind: Kind, name: &[u8]) -> bool {
        let fits = match (self.parent, kind) {
            (None, Kind::Doc) => self.others == 0,
            (None, _) | (_, Kind::Doc) => false,
            (Some(Kind::Doc), Kind::Element) => self.elements == 0,
            (Some(Kind::Doc), _) => kind == Kind::Instruction,
            (Some(Kind::Element), Kind::Attribute) => self.others == 0 && self.is_new(name),
            (Some(parent), _) => parent == Kind::Element,
        };
        self.others += u32::from(kind != Kind::Attribute);
        self.elements += u32::from(kind == Kind::Element);
        fits
    }
}

fn is_name(name: &[u8]) -> bool {
    let fits = |&byte: &u8| byte > 32 && !b"#*/?@\\".contains(&byte);
    !name.is_empty() && name.iter().all(fits)
}

fn may_stand(kind: Kind, name: &[u8], content: usize) -> bool {
    let fits = match kind {
        Kind::Doc => name.is_empty() && content == 0,
        Kind::Element => is_name(name) && content == 0,
        Kind::Text => name.is_empty(),
        Kind::Attribute | Kind::Instruction => is_name(name),
    };
    fits && name.len() + content <= LONGEST
}

fn check(name: &str) -> Result<(), Ended> {
    let mut log = Log::open(name)?;
    let first = log.read(0)?.ok_or(Ended::Failed(Failure::NotAStore))?;
    let head = match Header::read(first) {
        Err(Failure::Damaged(_)) => return wrong(0, "header"),
        read => read.map_err(Ended::Failed)?,
    };
    if head.room != 0 && !log.read(head.room)?.is_some_and(slots::is_slotted) {
        return wrong(0, "header");
    }
    let mut uses = Vec::new();
    uses.resize_with(head.pages as usize, || Use::None);
    uses[0] = Use::Whole;
    let mut check = Check {
        log,
        uses,
        k: head.k.into(),
        nodes: 0,
        elements: 0,
    };
    check.free(head.free)?;
    let mut bytes = Vec::new();
    check.chain(head.catalog, head.catalog_length, |part| bytes.extend_from_slice(part))?;
    let catalog = Catalog::read(&bytes).ok_or(Ended::Wrong(head.catalog, "catalog"))?;
    for entry in catalog.documents.values() {
        check.document(*entry)?;
    }
    check.rest(head.pages)
}

impl Check {
    fn free(&mut self, first: u32) -> Result<(), Ended> {
        let mut page = first;
        while page != 0 {
            let next = self.log.read(page)?.and_then(next_free);
            let (Some(next), true) = (next, self.mark(page)) else {
                return wrong(page, "free");
            };
            page = next;
        }
        Ok(())
    }

    /// Uses a page, and answers whether it is one that wasn't used.
    fn mark(&mut self, page: u32) -> bool {
        let Some(mark @ Use::None) = self.uses.get_mut(page as usize) else {
            return false;
        };
        *mark = Use::Whole;
        true
    }

    fn chain(&mut self, first: u32, length: u64, mut give: impl FnMut(&[u8])) -> Result<(), Ended> {
        let (mut page, mut left) = (first, length);
        while left > 0 {
            let here = left.min(CHAIN_BYTES as u64);
            let link = self.log.read(page)?.and_then(chain_link);
            let link = link.filter(|&(next, content)| content.len() as u64 == here && (next == 0) == (here == left));
            let Some((next, content)) = link else {
                return wrong(page, "chain");
            };
            give(content);
            if !self.mark(page) {
                return wrong(page, "chain");
            }
            left -= here;
            page = next;
        }
        Ok(())
    }

    /// Marks a record as reached, and copies it.
    fn record(&mut self, place: Place) -> Result<Vec<u8>, Ended> {
        let Some(uses) = self.uses.get_mut(place.page as usize) else {
            return wrong(place.page, "slotted");
        };
        let page = self.log.read(place.page)?.ok_or(Ended::Wrong(place.page, "missing"))?;
        if let Use::None = uses {
            if !slots::is_slotted(page) {
                return wrong(place.page, "slotted");
            }
            *uses = Use::Slotted(left_of(page));
        }
        let (Use::Slotted(left), Some(record)) = (uses, slots::record(page, place.slot)) else {
            return wrong(place.page, "missing");
        };
        let (word, bit) = (usize::from(place.slot) / 64, 1 << (place.slot % 64));
        if left[word] & bit == 0 {
            return wrong(place.page, "twice");
        }
        left[word] &= !bit;
        Ok(record.to_vec())
    }

    fn document(&mut self, entry: Entry) -> Result<(), Ended> {
        (self.nodes, self.elements) = (0, 0);
        self.interval(Proxy { place: entry.root, roots: 1 }, LEVELS, &mut Siblings::new(None))?;
        if self.elements == 0 || self.nodes != entry.nodes || self.nodes > MOST_NODES {
            return wrong(entry.root.page, "nodes");
        }
        Ok(())
    }

    fn interval(&mut self, proxy: Proxy, levels: u32, beside: &mut Siblings) -> Result<(), Ended> {
        let page = proxy.place.page;
        let record = self.record(proxy.place)?;
        let mut list = Vec::new();
        if let Some((first, length)) = list_of(&record) {
            self.chain(first, length, |part| list.extend_from_slice(part))?;
        }
        let piece = Piece::read(&record, &list).ok_or(Ended::Wrong(page, "form"))?;
        if piece.roots != proxy.roots {
            return wrong(page, "roots");
        }
        if piece.size > self.k {
            return wrong(page, "weight");
        }
        self.items(&piece, 0, piece.items.len() as u32, page, levels, beside)
    }

    fn items(&mut self, piece: &Piece, first: u32, end: u32, page: u32, levels: u32, beside: &mut Siblings) -> Result<(), Ended> {
        for index in piece.beside(first, end) {
            let item = &piece.items[index as usize];
            match item.what {
                What::Run(count) => {
                    for proxy in piece.proxies(item, count) {
                        self.interval(proxy, levels, beside)?;
                    }
                }
                What::Node {
                    kind,
                    name,
                    content,
                } => {
                    let length = match content {
                        Content::Near(content) => content.len(),
                        Content::Far(far) => {
                            self.chain(far.first, far.length.into(), |_| {})?;
                            far.length as usize
                        }
                    };
                    if levels == 0 || !beside.add(kind, name) || !may_stand(kind, name, length) {
                        return wrong(page, "document");
                    }
                    self.nodes += 1;
                    self.elements += u32::from(kind == Kind::Element);
                    self.items(piece, index + 1, item.end, page, levels - 1, &mut Siblings::new(Some(kind)))?;
                }
            }
        }
        Ok(())
    }

    fn rest(&mut self, pages: u32) -> Result<(), Ended> {
        for (page, uses) in (0..).zip(&self.uses) {
            let used = match uses {
                Use::None => false,
                Use::Whole => true,
                Use::Slotted(left) => left.iter().all(|&word| word == 0),
            };
            if !used {
                return wrong(page, "unused");
            }
        }
        let count = self.log.page_count()?;
        if count > pages { wrong(count - 1, "unused") } else { Ok(()) }
    }
}

/// The slots of a page that have records, as bits.
fn left_of(page: &Page) -> Box<[u64]> {
    let count = slots::count(page);
    let mut left = vec![0; count.div_ceil(64)].into_boxed_slice();
    for slot in 0..count as u16 {
        if slots::record(page, slot).is_some() {
            left[usize::from(slot) / 64] |= 1 << (slot % 64);
        }
    }
    left
}

fn main() -> ExitCode {
    let words = Vec::from_iter(env::args().skip(1));
    let [name, _] = &words[..] else {
        return ExitCode::from(1);
    };
    match check(name) {
        Ok(()) => println!("sound"),
        Err(Ended::Wrong(page, rule)) => {
            println!("wrong {page} {rule}");
            return ExitCode::from(8);
        }
        Err(Ended::Failed(Failure::NotAStore)) => return ExitCode::from(7),
        Err(Ended::Failed(_)) => return ExitCode::from(3),
    }
    ExitCode::SUCCESS
}
