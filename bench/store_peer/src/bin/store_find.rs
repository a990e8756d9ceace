//! The nodes that name steps reach in stored documents: `STORE find` answers lines `find NAME STEPS`, and `STORE pairs` how many
//! records each document has, and how many pairs of a record and a label at or below it. A program of its own, as `store_check`.

#![allow(dead_code)]

#[path = "../cache.rs"]
mod cache;
#[path = "../catalog.rs"]
mod catalog;
#[path = "../failure.rs"]
mod failure;
#[path = "../header.rs"]
mod header;
#[path = "../log.rs"]
mod log;
#[path = "../page.rs"]
mod page;
#[path = "../piece.rs"]
mod piece;
#[path = "../records.rs"]
mod records;
#[path = "../rules.rs"]
mod rules;
#[path = "../slots.rs"]
mod slots;
#[path = "../stored.rs"]
mod stored;

#[path = "../../../peer/src/fields.rs"]
mod fields;
#[path = "../../../peer/src/pyx.rs"]
mod pyx;
#[path = "../../../peer/src/tree.rs"]
mod tree;

pub use failure::Failure;

use crate::catalog::{Catalog, Entry};
use crate::fields::{field, write_path};
use crate::piece::{Piece, Proxy, What};
use crate::records::{Place, Records};
use crate::stored::{Stored, root_of};
use crate::tree::Kind;
use std::collections::HashMap;
use std::env;
use std::io::{self, BufRead, BufReader, Write};
use std::process::ExitCode;

const LEVELS: u32 = 257;
const MOST_STEPS: usize = 64;
const LONGEST_LABEL: usize = 1_024;
/// The bytes of an answer that are given at once, and those of input that are read at once.
const BLOCK: usize = 65_536;

/// What a walk over a document's records is shown.
trait Looks {
    fn enter(&mut self, _: Place) {}
    fn begin(&mut self, kind: Kind, name: &[u8]);
    fn end(&mut self, _: Kind) {}
    fn leave(&mut self) {}
    /// Whether to go into the record there.
    fn wants(&self, _: Place) -> bool {
        true
    }
    /// So many nodes beside each other are passed over.
    fn pass(&mut self, _: u16) {}
}

struct Walk<'a, L> {
    records: &'a mut Records,
    looks: L,
    /// How many nodes may still come.
    left: u32,
}

impl<L: Looks> Walk<'_, L> {
    fn interval(&mut self, proxy: Proxy, levels: u32) -> Result<(), Failure> {
        let stored = Stored::read(self.records, proxy)?;
        let piece = stored.piece()?;
        self.looks.enter(proxy.place);
        self.items(&piece, 0, piece.items.len() as u32, proxy.place.page, levels)?;
        self.looks.leave();
        Ok(())
    }

    fn items(&mut self, piece: &Piece, first: u32, end: u32, page: u32, levels: u32) -> Result<(), Failure> {
        for index in piece.beside(first, end) {
            let item = &piece.items[index as usize];
            match item.what {
                What::Run(count) => {
                    for proxy in piece.proxies(item, count) {
                        if self.looks.wants(proxy.place) {
                            self.interval(proxy, levels)?;
                        } else {
                            self.looks.pass(proxy.roots);
                        }
                    }
                }
                What::Node { kind, name, .. } => {
                    if levels == 0 || self.left == 0 {
                        return Err(Failure::Damaged(page));
                    }
                    self.left -= 1;
                    self.looks.begin(kind, name);
                    self.items(piece, index + 1, item.end, page, levels - 1)?;
                    self.looks.end(kind);
                }
            }
        }
        Ok(())
    }
}

/// For each label the numbers of the records that have it at or below them, in order. Records are numbered as a walk comes to them.
#[derive(Default)]
struct Labels {
    numbers: HashMap<Place, u32>,
    holders: HashMap<Vec<u8>, Vec<u32>>,
}

impl Labels {
    fn pairs(&self) -> usize {
        self.holders.values().map(Vec::len).sum()
    }
}

#[derive(Default)]
struct Gathering {
    labels: Labels,
    /// The records around the walk.
    around: Vec<u32>,
    label: Vec<u8>,
    /// Whether a record came twice.
    twice: bool,
}

fn mark_of(kind: Kind) -> &'static [u8] {
    match kind {
        Kind::Doc => b"#doc",
        Kind::Text => b"#text",
        Kind::Element => b"",
        Kind::Attribute => b"@",
        Kind::Instruction => b"?",
    }
}

impl Looks for Gathering {
    fn enter(&mut self, place: Place) {
        let number = self.labels.numbers.len() as u32;
        self.twice |= self.labels.numbers.insert(place, number).is_some();
        self.around.push(number);
    }

    fn begin(&mut self, kind: Kind, name: &[u8]) {
        self.label.clear();
        self.label.extend_from_slice(mark_of(kind));
        self.label.extend_from_slice(name);
        match self.labels.holders.get_mut(&self.label) {
            // Where a record is in the list, those around it are.
            Some(holders) => {
                let last = holders.last().copied();
                let new = self.around.partition_point(|&number| Some(number) <= last);
                holders.extend_from_slice(&self.around[new..]);
            }
            None => {
                self.labels.holders.insert(self.label.clone(), self.around.clone());
            }
        }
    }

    fn leave(&mut self) {
        self.around.pop();
    }
}

fn gather(records: &mut Records, entry: Entry) -> Result<Labels, Failure> {
    let mut walk = Walk {
        records,
        looks: Gathering::default(),
        left: entry.nodes,
    };
    walk.interval(root_of(entry.root), LEVELS)?;
    if walk.left > 0 || walk.looks.twice {
        return Err(Failure::Damaged(entry.root.page));
    }
    Ok(walk.looks.labels)
}

struct Step<'a> {
    is_below: bool,
    label: &'a [u8],
    kind: Kind,
    name: &'a [u8],
}

fn step_of(is_below: bool, label: &[u8]) -> Option<Step<'_>> {
    let (kind, name) = match label.split_first() {
        Some((b'@', name)) => (Kind::Attribute, name),
        Some((b'?', name)) => (Kind::Instruction, name),
        _ if label == b"#text" => (Kind::Text, &label[..0]),
        _ => (Kind::Element, label),
    };
    let fits = |&byte: &u8| byte > b' ' && !b"#*/?@\\".contains(&byte);
    let named = kind == Kind::Text || (!name.is_empty() && name.iter().all(fits));
    (named && label.len() <= LONGEST_LABEL).then_some(Step { is_below, label, kind, name })
}

fn steps_of(text: &[u8]) -> Option<Vec<Step<'_>>> {
    let mut steps = Vec::new();
    let mut rest = text;
    while !rest.is_empty() {
        rest = rest.strip_prefix(b"/")?;
        let below = rest.strip_prefix(b"/");
        let named = below.unwrap_or(rest);
        let end = named.iter().position(|&byte| byte == b'/').unwrap_or(named.len());
        steps.push(step_of(below.is_some(), &named[..end])?);
        rest = &named[end..];
    }
    (1..=MOST_STEPS).contains(&steps.len()).then_some(steps)
}

struct Looking<'a> {
    numbers: &'a HashMap<Place, u32>,
    /// The records that have the last step's label.
    holders: &'a [u32],
    steps: &'a [Step<'a>],
    /// A bit for each step that is open below the node that the walk is in, and those of the nodes around it.
    open: u64,
    around: Vec<u64>,
    path: Vec<u32>,
    next: u32,
    found: &'a mut Vec<u8>,
}

impl Looks for Looking<'_> {
    fn begin(&mut self, kind: Kind, name: &[u8]) {
        if kind == Kind::Doc {
            return;
        }
        self.path.push(self.next);
        self.next = 0;
        let (mut below, mut fit) = (0, false);
        for (at, step) in self.steps.iter().enumerate() {
            let is_open = self.open >> at & 1 == 1;
            if fit || (step.is_below && is_open) {
                below |= 1 << at;
            }
            fit = is_open && step.kind == kind && step.name == name;
        }
        self.around.push(self.open);
        self.open = below;
        if fit {
            self.found.extend_from_slice(b"at ");
            write_path(&self.path, self.found).expect("memory");
            self.found.push(b'\n');
        }
    }

    fn end(&mut self, kind: Kind) {
        if kind == Kind::Doc {
            return;
        }
        self.next = self.path.pop().map_or(0, |position| position + 1);
        self.open = self.around.pop().unwrap_or(0);
    }

    fn wants(&self, place: Place) -> bool {
        let number = self.numbers.get(&place);
        number.is_some_and(|number| self.holders.binary_search(number).is_ok())
    }

    fn pass(&mut self, roots: u16) {
        self.next += u32::from(roots);
    }
}

/// Writes the paths that the steps reach.
fn find(records: &mut Records, entry: Entry, labels: &Labels, steps: &[Step], found: &mut Vec<u8>) -> Result<(), Failure> {
    let last = steps.last().map_or(&b""[..], |step| step.label);
    let mut walk = Walk {
        records,
        looks: Looking {
            numbers: &labels.numbers,
            holders: labels.holders.get(last).map_or(&[], Vec::as_slice),
            steps,
            open: 1,
            around: Vec::new(),
            path: Vec::new(),
            next: 0,
            found,
        },
        left: entry.nodes,
    };
    walk.interval(root_of(entry.root), LEVELS)
}

struct Session {
    records: Records,
    catalog: Catalog,
    gathered: HashMap<Vec<u8>, Labels>,
}

fn is_document_name(name: &[u8]) -> bool {
    (1..=255).contains(&name.len()) && name[0] != b'-' && name.iter().all(|byte| (b'!'..=b'~').contains(byte))
}

fn question(line: &[u8]) -> Option<(&[u8], Vec<Step<'_>>)> {
    let (word, rest) = field(line)?;
    let (name, said) = field(rest)?;
    let steps = steps_of(said)?;
    (word == b"find" && is_document_name(name)).then_some((name, steps))
}

impl Session {
    fn open(store: &str) -> Result<Session, Failure> {
        let mut records = Records::open(store)?;
        let bytes = records.catalog()?.bytes;
        let damaged = Failure::Damaged(records.head.catalog);
        Ok(Session {
            catalog: Catalog::read(&bytes).ok_or(damaged)?,
            records,
            gathered: HashMap::new(),
        })
    }

    fn answer(&mut self, line: &[u8], found: &mut Vec<u8>) -> Result<(), Failure> {
        let Some((name, steps)) = question(line) else {
            found.extend_from_slice(b"error syntax\n");
            return Ok(());
        };
        let Some(&entry) = self.catalog.documents.get(name) else {
            found.extend_from_slice(b"error no-document\n");
            return Ok(());
        };
        if !self.gathered.contains_key(name) {
            let labels = gather(&mut self.records, entry)?;
            self.gathered.insert(name.to_vec(), labels);
        }
        find(&mut self.records, entry, &self.gathered[name], &steps, found)?;
        found.extend_from_slice(b".\n");
        Ok(())
    }

    /// Answers every line, each before the next one is taken.
    fn run(&mut self) -> Result<(), Failure> {
        let mut input = BufReader::with_capacity(BLOCK, io::stdin().lock());
        let mut out = io::stdout().lock();
        let (mut line, mut found) = (Vec::new(), Vec::new());
        while input.read_until(b'\n', &mut line).map_err(|_| Failure::Read)? > 0 {
            let asked = line.strip_suffix(b"\n").unwrap_or(&line);
            self.answer(asked.strip_suffix(b"\r").unwrap_or(asked), &mut found)?;
            for block in found.chunks(BLOCK) {
                out.write_all(block).map_err(|_| Failure::Write)?;
            }
            out.flush().map_err(|_| Failure::Write)?;
            found.clear();
            line.clear();
        }
        Ok(())
    }

    fn pairs(&mut self) -> Result<(), Failure> {
        for (name, &entry) in &self.catalog.documents {
            let labels = gather(&mut self.records, entry)?;
            println!("{} {} {}", String::from_utf8_lossy(name), labels.numbers.len(), labels.pairs());
        }
        Ok(())
    }
}

fn main() -> ExitCode {
    let words = Vec::from_iter(env::args().skip(1));
    let words = Vec::from_iter(words.iter().map(String::as_str));
    let ended = match words[..] {
        [store, "find"] => Session::open(store).and_then(|mut session| session.run()),
        [store, "pairs"] => Session::open(store).and_then(|mut session| session.pairs()),
        _ => Err(Failure::Usage),
    };
    ExitCode::from(match ended {
        Ok(()) => 0,
        Err(Failure::Usage) => 1,
        Err(Failure::Read) => 4,
        Err(Failure::Write) => 5,
        Err(Failure::NotAStore) => 7,
        Err(Failure::Damaged(_)) => 8,
        Err(_) => 3,
    })
}
