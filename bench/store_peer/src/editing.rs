//! Edits of stored documents: one way down the path, and back with the records that change. All others stay.

use crate::Failure;
use crate::catalog::Entry;
use crate::dividing::{add, divide};
use crate::draft::{Draft, Line, Row, Writer};
use crate::fields::write_path;
use crate::piece::{Content, Item, Piece, Proxy, What};
use crate::pyx::{CONTENT_LIMIT, DEPTH_LIMIT, NODE_LIMIT};
use crate::records::Records;
use crate::rules::{Asked, Named, Rules};
use crate::stored::{Away, Child, Stored, child_at, root_of, way};
use crate::tree::{Kind, Node};

/// Why a document isn't edited.
pub enum Stop {
    Failure(Failure),
    /// With the words of the refusal.
    Refused(String),
}

impl From<Failure> for Stop {
    fn from(failure: Failure) -> Stop {
        Stop::Failure(failure)
    }
}

fn refused<T>(words: &str) -> Result<T, Stop> {
    Err(Stop::Refused(words.to_string()))
}

pub enum Change<'a> {
    /// Another content of the node at the path.
    Content(&'a [u8]),
    /// A node that comes to the path.
    Comes(&'a Node),
    /// The tree at the path goes.
    Goes,
}

/// Edits a document, and answers its new entry. Nothing is committed.
pub fn edit(
    records: &mut Records,
    rules: &Rules,
    entry: Entry,
    path: &[u32],
    change: &Change,
) -> Result<Entry, Stop> {
    let (way, comes) = match (change, path.split_last()) {
        (Change::Content(_), _) => (path, 0),
        (Change::Goes, Some(_)) => (path, 0),
        (Change::Comes(_), Some((_, above))) => (above, 1),
        (_, None) => return refused("bad-place"),
    };
    let mut editing = Editing {
        records,
        rules,
        entry,
        path,
        change,
        gone: 0,
        writer: Writer::new(),
    };
    let row = editing.interval(root_of(entry.root), None, 0, 0, way)?;
    match row.only() {
        Some(Proxy { place, roots: 1 }) => Ok(Entry {
            root: place,
            nodes: entry.nodes + comes - editing.gone,
        }),
        _ => Err(Failure::Damaged(entry.root.page).into()),
    }
}

/// Takes the records of a document away.
pub fn remove_document(records: &mut Records, rules: &Rules, entry: Entry) -> Result<(), Failure> {
    let mut editing = Editing {
        records,
        rules,
        entry,
        path: &[],
        change: &Change::Goes,
        gone: 0,
        writer: Writer::new(),
    };
    editing.remove_row(vec![root_of(entry.root)])
}

/// A place among the children of a node.
enum Gap {
    /// Before an item, or behind so many of its proxies where it is a run.
    Between { item: u32, taken: u32 },
    /// Before a tree of another record, which isn't the first there.
    Within(Away),
}

fn gap_at(piece: &Piece, parent: u32, position: u32) -> Option<Gap> {
    let end = piece.items[parent as usize].end;
    match child_at(piece, parent + 1, end, position) {
        Child::Here(item) => Some(Gap::Between { item, taken: 0 }),
        Child::Away(away) if away.member > 0 => Some(Gap::Within(away)),
        Child::Away(Away { run, index, .. }) => Some(Gap::Between {
            item: run,
            taken: index - piece.proxies_before(run),
        }),
        // Behind the last child, if there is one at the position before.
        Child::Nowhere => {
            let last = position.checked_sub(1);
            let last = last.map(|last| child_at(piece, parent + 1, end, last));
            let behind = Gap::Between {
                item: end,
                taken: 0,
            };
            (!matches!(last, Some(Child::Nowhere))).then_some(behind)
        }
    }
}

/// The node that is this item.
fn named<'a>(piece: &Piece<'a>, item: u32) -> Named<'a> {
    piece.items[item as usize].what.named()
}

/// The item that is a root.
fn root_item(piece: &Piece, root: u32) -> u32 {
    let mut roots = piece.beside(0, piece.items.len() as u32);
    roots.nth(root as usize).expect("a root of the piece")
}

struct Editing<'a> {
    records: &'a mut Records,
    rules: &'a Rules,
    entry: Entry,
    path: &'a [u32],
    change: &'a Change<'a>,
    /// How many nodes went.
    gone: u32,
    writer: Writer,
}

impl Editing<'_> {
    /// Edits below or in an interval, from one of its members on, and answers what comes in its place. `above` is the
    /// node above it, and `room` what that node's part may still weigh.
    fn interval(
        &mut self,
        at: Proxy,
        above: Option<Named>,
        room: u32,
        member: u32,
        path: &[u32],
    ) -> Result<Row, Stop> {
        let stored = Stored::read(self.records, at)?;
        let piece = stored.piece()?;
        let way = way(&piece, member, path);
        match way.child {
            Child::Here(item) => match self.change {
                Change::Content(content) => {
                    self.retext(&stored, &piece, item, content, above, room)
                }
                Change::Comes(node) => self.insert(&stored, &piece, item, node, above, room),
                Change::Goes => self.delete(&stored, &piece, item, above, room),
            },
            Child::Away(away) => {
                let below = piece.proxy(away.index);
                let parent = way.above.map(|item| named(&piece, item));
                let inner = self.room_in(&piece);
                let row = self.interval(below, parent, inner, away.member, way.rest)?;
                if row.only() == Some(below) {
                    return Ok(Row::of(&[at]));
                }
                let mut draft = Draft::new(&piece);
                draft.replace_proxy(away.run, away.index, &row);
                Ok(self.put(&stored, &mut draft, above, room)?)
            }
            Child::Nowhere => match self.change {
                Change::Content(content) if content.len() > CONTENT_LIMIT => {
                    refused("pyx 1 long-line")
                }
                _ => refused("no-node"),
            },
        }
    }

    fn retext<'p>(
        &mut self,
        stored: &Stored,
        piece: &Piece<'p>,
        item: u32,
        content: &'p [u8],
        above: Option<Named>,
        room: u32,
    ) -> Result<Row, Stop> {
        let (kind, name) = named(piece, item);
        if name.len() + content.len() > CONTENT_LIMIT {
            return refused("pyx 1 long-line");
        }
        if matches!(kind, Kind::Doc | Kind::Element) {
            return refused("no-content");
        }
        let what = What::Node {
            kind,
            name,
            content: Content::Near(content),
        };
        self.check_weight(what)?;
        let mut draft = Draft::new(piece);
        draft.lines[item as usize].what = what;
        let row = self.put(stored, &mut draft, above, room)?;
        self.remove_contents(&piece.items[item as usize..][..1])?;
        Ok(row)
    }

    fn delete(
        &mut self,
        stored: &Stored,
        piece: &Piece,
        item: u32,
        above: Option<Named>,
        room: u32,
    ) -> Result<Row, Stop> {
        if self.path.len() == 1 && named(piece, item).0 == Kind::Element {
            return refused("bad-place");
        }
        let end = piece.items[item as usize].end;
        let own = &piece.items[item as usize..end as usize];
        self.gone += own.iter().filter(|item| item.what.is_node()).count() as u32;
        self.remove_contents(own)?;
        let proxies = (piece.proxies_before(item), piece.proxies_before(end));
        let below = (proxies.0..proxies.1).map(|index| piece.proxy(index));
        self.remove_row(below.collect())?;
        let mut draft = Draft::new(piece);
        draft.cut((item, end), proxies);
        if draft.lines.is_empty() {
            self.remove(stored)?;
            return Ok(Row::default());
        }
        Ok(self.put(stored, &mut draft, above, room)?)
    }

    /// Puts a node below the one that is this item.
    fn insert<'p>(
        &mut self,
        stored: &Stored,
        piece: &Piece<'p>,
        parent: u32,
        node: &'p Node,
        above: Option<Named>,
        room: u32,
    ) -> Result<Row, Stop> {
        let position = *self.path.last().expect("a path to a child");
        let gap = gap_at(piece, parent, position);
        let gap = gap.filter(|_| may_have(named(piece, parent).0, node.kind));
        let Some(gap) = gap else {
            return refused("bad-place");
        };
        self.check_place(piece, parent, position, node)?;
        let what = What::Node {
            kind: node.kind,
            name: &node.name,
            content: Content::Near(&node.content),
        };
        self.check_weight(what)?;
        let around = named(piece, parent);
        let asked = self.rules.asked(around, what.named());
        let row = match &gap {
            Gap::Within(away) => {
                let inner = self.room_in(piece);
                let proxy = piece.proxy(away.index);
                Some(self.within(proxy, away.member, asked, what, around, inner)?)
            }
            Gap::Between { .. } => None,
        };
        let mut draft = Draft::new(piece);
        self.plant(piece, parent, gap, row.as_ref(), asked, what, &mut draft)?;
        Ok(self.put(stored, &mut draft, above, room)?)
    }

    /// What the part of a piece may still weigh.
    fn room_in(&self, piece: &Piece) -> u32 {
        let weight: u32 = piece.items.iter().map(|item| item.what.weight()).sum();
        u32::from(self.records.head.k).saturating_sub(weight)
    }

    /// Puts a node into a gap between the children of the one that is this item: into the draft of the piece, where
    /// it isn't for another record. Of an interval that it falls into this row comes in the place of its proxy.
    fn plant<'p>(
        &mut self,
        piece: &Piece,
        parent: u32,
        gap: Gap,
        row: Option<&'p Row>,
        asked: Asked,
        what: What<'p>,
        draft: &mut Draft<'p>,
    ) -> Result<(), Failure> {
        let depth = draft.lines[parent as usize].depth + 1;
        match gap {
            Gap::Within(away) => {
                let row = row.expect("a row for the interval");
                draft.replace_proxy(away.run, away.index, row);
                if asked == Asked::Cluster {
                    let before = away.index - piece.proxies_before(away.run);
                    draft.plant(away.run, before + 1, Line { depth, what });
                }
            }
            Gap::Between { item, taken } if asked == Asked::Standalone => {
                let alone = self.alone(what)?;
                let what = What::Run(1);
                draft.plant(item, taken, Line { depth, what });
                draft.insert_proxy(piece.proxies_before(item) + taken, alone);
            }
            Gap::Between { item, taken } => draft.plant(item, taken, Line { depth, what }),
        }
        Ok(())
    }

    /// What becomes of an interval that a node falls into, with the proxy of that node where it is to be alone.
    fn within(
        &mut self,
        proxy: Proxy,
        member: u32,
        asked: Asked,
        what: What,
        above: Named,
        room: u32,
    ) -> Result<Row, Failure> {
        let stored = Stored::read(self.records, proxy)?;
        let piece = stored.piece()?;
        let mut draft = Draft::new(&piece);
        let root = root_item(&piece, member);
        if asked == Asked::Free {
            draft.plant(root, 0, Line { depth: 0, what });
            return self.put(&stored, &mut draft, Some(above), room);
        }
        let end = piece.items.len() as u32;
        let (lines, proxies) = (
            (root, end),
            (piece.proxies_before(root), piece.proxies_before(end)),
        );
        draft.make_far(self.records)?;
        let mut behind = draft.part(lines, proxies);
        draft.cut(lines, proxies);
        let mut row = vec![self.replace(&stored, &draft)?];
        if asked == Asked::Standalone {
            row.push(self.alone(what)?);
        }
        row.push(self.add(&mut behind)?);
        Ok(Row::of(&row))
    }

    /// Puts the record of a node that is an interval alone.
    fn alone(&mut self, what: What) -> Result<Proxy, Failure> {
        self.add(&mut Draft {
            lines: vec![Line { depth: 0, what }],
            proxies: Vec::new(),
        })
    }

    fn check_place(
        &mut self,
        piece: &Piece,
        parent: u32,
        position: u32,
        node: &Node,
    ) -> Result<(), Stop> {
        if node.kind == Kind::Attribute {
            let before = match position.checked_sub(1) {
                Some(before) => self.kind_at(piece, parent, before)?,
                None => Some(Kind::Attribute),
            };
            if before != Some(Kind::Attribute) {
                return refused("bad-place");
            }
            if self.has_attribute(piece, parent, &node.name)? {
                return refused("twice");
            }
        } else if self.kind_at(piece, parent, position)? == Some(Kind::Attribute) {
            return refused("bad-place");
        }
        if self.path.len() > DEPTH_LIMIT {
            return refused("too-deep");
        }
        if self.entry.nodes as usize >= NODE_LIMIT {
            return refused("too-many");
        }
        Ok(())
    }

    /// The kind of the child at a position, if there is one.
    fn kind_at(
        &mut self,
        piece: &Piece,
        parent: u32,
        position: u32,
    ) -> Result<Option<Kind>, Failure> {
        // Attributes stand before all other children.
        let first = piece.items.get(parent as usize + 1).map(|item| item.what);
        if let Some(What::Node { kind, .. }) = first
            && piece.items[parent as usize].end > parent + 1
            && kind != Kind::Attribute
        {
            return Ok(Some(kind));
        }
        let end = piece.items[parent as usize].end;
        match child_at(piece, parent + 1, end, position) {
            Child::Here(item) => Ok(Some(named(piece, item).0)),
            Child::Nowhere => Ok(None),
            Child::Away(away) => {
                let stored = Stored::read(self.records, piece.proxy(away.index))?;
                let piece = stored.piece()?;
                Ok(Some(named(&piece, root_item(&piece, away.member)).0))
            }
        }
    }

    /// Whether the node that is this item has an attribute of that name. Attributes stand before all other children.
    fn has_attribute(&mut self, piece: &Piece, parent: u32, name: &[u8]) -> Result<bool, Failure> {
        let end = piece.items[parent as usize].end;
        for index in piece.beside(parent + 1, end) {
            let item = &piece.items[index as usize];
            let What::Run(count) = item.what else {
                match named(piece, index) {
                    (Kind::Attribute, other) if other != name => continue,
                    (kind, _) => return Ok(kind == Kind::Attribute),
                }
            };
            for proxy in piece.proxies(item, count) {
                let stored = Stored::read(self.records, proxy)?;
                let piece = stored.piece()?;
                for root in piece.beside(0, piece.items.len() as u32) {
                    match named(&piece, root) {
                        (Kind::Attribute, other) if other != name => {}
                        (kind, _) => return Ok(kind == Kind::Attribute),
                    }
                }
            }
        }
        Ok(false)
    }

    fn check_weight(&self, what: What) -> Result<(), Stop> {
        let weight = what.weight();
        if weight <= self.records.head.k.into() {
            return Ok(());
        }
        let mut path = Vec::new();
        write_path(self.path, &mut path).expect("memory");
        let path = String::from_utf8_lossy(&path);
        refused(&format!("too-heavy {path} {weight}"))
    }

    /// Takes the records of intervals away, and all below them.
    fn remove_row(&mut self, mut row: Vec<Proxy>) -> Result<(), Failure> {
        while let Some(proxy) = row.pop() {
            let stored = Stored::read(self.records, proxy)?;
            let piece = stored.piece()?;
            let nodes = piece.items.iter().filter(|item| item.what.is_node());
            self.gone += nodes.count() as u32;
            if self.gone > self.entry.nodes {
                return Err(Failure::Damaged(proxy.place.page));
            }
            row.extend((0..piece.proxies_before(u32::MAX)).map(|index| piece.proxy(index)));
            self.remove_contents(&piece.items)?;
            self.remove(&stored)?;
        }
        Ok(())
    }

    fn remove(&mut self, stored: &Stored) -> Result<(), Failure> {
        self.records.remove(stored.proxy.place)?;
        if let Some(list) = &stored.list {
            self.records.remove_list(list);
        }
        Ok(())
    }

    /// Takes the lists of these items' far contents away.
    fn remove_contents(&mut self, items: &[Item]) -> Result<(), Failure> {
        for item in items {
            if let What::Node {
                content: Content::Far(far),
                ..
            } = item.what
            {
                self.records.remove_far(far)?;
            }
        }
        Ok(())
    }

    /// Puts a piece in the place of a record, or the records of a split of it, where it is too heavy.
    fn put(
        &mut self,
        stored: &Stored,
        draft: &mut Draft,
        above: Option<Named>,
        room: u32,
    ) -> Result<Row, Failure> {
        let k = self.records.head.k.into();
        draft.make_far(self.records)?;
        if draft.weight() <= k {
            return Ok(Row::of(&[self.replace(stored, draft)?]));
        }
        if draft.lines.iter().any(|line| line.what.weight() > k) {
            return Err(Failure::Damaged(stored.proxy.place.page));
        }
        self.records.remove(stored.proxy.place)?;
        let list = stored.list.as_ref();
        divide(self.records, self.rules, draft, above, room, list)
    }

    fn replace(&mut self, stored: &Stored, draft: &Draft) -> Result<Proxy, Failure> {
        let (records, writer) = (&mut *self.records, &mut self.writer);
        writer.clear();
        draft.write(writer);
        let list = match (writer.piece.long_proxies(), &stored.list) {
            (Some(proxies), Some(old)) => Some(records.change_list(old, proxies)?),
            (Some(proxies), None) => Some(records.add_list(proxies)?),
            (None, old) => {
                old.iter().for_each(|old| records.remove_list(old));
                None
            }
        };
        let roots = writer.roots;
        let record = writer.piece.record(roots, list);
        let mut place = stored.proxy.place;
        if record != stored.record {
            place = records.replace(place, record)?;
        }
        Ok(Proxy { place, roots })
    }

    fn add(&mut self, draft: &mut Draft) -> Result<Proxy, Failure> {
        draft.make_far(self.records)?;
        self.writer.clear();
        draft.write(&mut self.writer);
        add(self.records, &mut self.writer, &mut None)
    }
}

fn may_have(parent: Kind, child: Kind) -> bool {
    match parent {
        Kind::Doc => child == Kind::Instruction,
        Kind::Element => true,
        _ => false,
    }
}
