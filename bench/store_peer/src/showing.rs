//! Stored documents: the node at a path, the text, the layout.

use crate::Failure;
use crate::catalog::Entry;
use crate::fields::write_path;
use crate::piece::{Content, Item, Piece, Proxy, What};
use crate::pyx::{write_escaped, write_parts, write_start};
use crate::records::{Place, Records};
use crate::script::BLOCK;
use crate::stored::{Child, Stored, root_of, way};
use crate::tree::Kind;
use std::io::{self, Write};

/// The levels of a document.
const LEVELS: u32 = 257;

fn count_children(piece: &Piece, index: u32) -> u32 {
    let below = piece.beside(index + 1, piece.items[index as usize].end);
    let count = |item: &Item| match item.what {
        What::Node { .. } => 1,
        What::Run(count) => piece
            .proxies(item, count)
            .map(|proxy| u32::from(proxy.roots))
            .sum(),
    };
    below.map(|index| count(&piece.items[index as usize])).sum()
}

/// Writes the reply to a `get`, and answers whether the path leads to a node.
pub fn get(
    records: &mut Records,
    root: Place,
    path: &[u32],
    out: &mut Vec<u8>,
) -> Result<bool, Failure> {
    let (mut proxy, mut member, mut rest) = (root_of(root), 0, path);
    loop {
        let stored = Stored::read(records, proxy)?;
        let piece = stored.piece()?;
        let way = way(&piece, member, rest);
        match way.child {
            Child::Here(index) => {
                write_shown(records, &piece, index, out)?;
                return Ok(true);
            }
            Child::Away(away) => {
                (proxy, member, rest) = (piece.proxy(away.index), away.member, way.rest);
            }
            Child::Nowhere => return Ok(false),
        }
    }
}

fn write_shown(
    records: &mut Records,
    piece: &Piece,
    index: u32,
    out: &mut Vec<u8>,
) -> Result<(), Failure> {
    const MEMORY: &str = "memory";
    let What::Node {
        kind,
        name,
        content,
    } = piece.items[index as usize].what
    else {
        return Ok(());
    };
    write!(out, "node {} ", count_children(piece, index)).expect(MEMORY);
    match content {
        Content::Near(content) => write_parts(kind, name, content, out).expect(MEMORY),
        Content::Far(far) => {
            write_start(kind, name, false, out).expect(MEMORY);
            records.each_part(far, |part| {
                write_escaped(part, out).expect(MEMORY);
                Ok(())
            })?;
            out.push(b'\n');
        }
    }
    Ok(())
}

/// What a walk over a document tells of it, in document order.
trait Teller {
    /// An interval begins, with so many members, whose part weighs so much.
    fn begin(&mut self, roots: u16, weight: u32) -> io::Result<()>;
    fn open(&mut self, kind: Kind, name: &[u8], content: &[u8]) -> io::Result<()>;
    fn close(&mut self, kind: Kind, name: &[u8]) -> io::Result<()>;
    /// Opens a node whose content comes in parts, if the teller asks for it.
    fn open_far(&mut self, kind: Kind, name: &[u8]) -> io::Result<()>;
    const TAKES_PARTS: bool;
    fn part(&mut self, content: &[u8]) -> io::Result<()>;
    fn end_parts(&mut self) -> io::Result<()>;
}

struct Walk<'a, T> {
    records: &'a mut Records,
    teller: T,
    /// How many nodes may still come.
    left: u32,
}

fn tell(records: &mut Records, entry: Entry, teller: impl Teller) -> Result<(), Failure> {
    let mut walk = Walk {
        records,
        teller,
        left: entry.nodes,
    };
    walk.interval(root_of(entry.root), LEVELS)?;
    if walk.left > 0 {
        return Err(Failure::Damaged(entry.root.page));
    }
    Ok(())
}

impl<T: Teller> Walk<'_, T> {
    fn interval(&mut self, proxy: Proxy, levels: u32) -> Result<(), Failure> {
        let stored = Stored::read(self.records, proxy)?;
        let piece = stored.piece()?;
        let begun = self.teller.begin(proxy.roots, piece.weight);
        begun.map_err(|_| Failure::Write)?;
        self.items(&piece, 0, piece.items.len() as u32, proxy, levels)
    }

    /// Tells the items from one to an end, which stand in the record of this proxy.
    fn items(
        &mut self,
        piece: &Piece,
        first: u32,
        end: u32,
        at: Proxy,
        levels: u32,
    ) -> Result<(), Failure> {
        for index in piece.beside(first, end) {
            let item = &piece.items[index as usize];
            match item.what {
                What::Run(count) => {
                    for proxy in piece.proxies(item, count) {
                        self.interval(proxy, levels)?;
                    }
                }
                What::Node {
                    kind,
                    name,
                    content,
                } => {
                    if levels == 0 || self.left == 0 {
                        return Err(Failure::Damaged(at.place.page));
                    }
                    self.left -= 1;
                    self.open(kind, name, content)?;
                    self.items(piece, index + 1, item.end, at, levels - 1)?;
                    let closed = self.teller.close(kind, name);
                    closed.map_err(|_| Failure::Write)?;
                }
            }
        }
        Ok(())
    }

    fn open(&mut self, kind: Kind, name: &[u8], content: Content) -> Result<(), Failure> {
        let far = match content {
            Content::Near(content) => {
                let opened = self.teller.open(kind, name, content);
                return opened.map_err(|_| Failure::Write);
            }
            Content::Far(far) => far,
        };
        let opened = self.teller.open_far(kind, name);
        opened.map_err(|_| Failure::Write)?;
        if T::TAKES_PARTS {
            let teller = &mut self.teller;
            self.records
                .each_part(far, |part| teller.part(part).map_err(|_| Failure::Write))?;
            teller.end_parts().map_err(|_| Failure::Write)?;
        }
        Ok(())
    }
}

/// The canonical text, which is given in blocks.
struct Text<'a, W> {
    block: &'a mut Vec<u8>,
    out: &'a mut W,
}

impl<W: Write> Text<'_, W> {
    fn give(&mut self) -> io::Result<()> {
        if self.block.len() >= BLOCK {
            self.out.write_all(self.block)?;
            self.block.clear();
        }
        Ok(())
    }
}

impl<W: Write> Teller for Text<'_, W> {
    fn begin(&mut self, _: u16, _: u32) -> io::Result<()> {
        self.give()
    }

    fn open(&mut self, kind: Kind, name: &[u8], content: &[u8]) -> io::Result<()> {
        if kind == Kind::Doc {
            return Ok(());
        }
        write_parts(kind, name, content, self.block)
    }

    fn close(&mut self, kind: Kind, name: &[u8]) -> io::Result<()> {
        if kind != Kind::Element {
            return Ok(());
        }
        self.block.push(b')');
        self.block.extend_from_slice(name);
        self.block.push(b'\n');
        Ok(())
    }

    fn open_far(&mut self, kind: Kind, name: &[u8]) -> io::Result<()> {
        write_start(kind, name, false, self.block)
    }

    const TAKES_PARTS: bool = true;

    fn part(&mut self, content: &[u8]) -> io::Result<()> {
        self.give()?;
        write_escaped(content, self.block)
    }

    fn end_parts(&mut self) -> io::Result<()> {
        self.block.push(b'\n');
        Ok(())
    }
}

/// Writes a document's text. The last part of it is left in the block.
pub fn export(
    records: &mut Records,
    entry: Entry,
    block: &mut Vec<u8>,
    out: &mut impl Write,
) -> Result<(), Failure> {
    tell(records, entry, Text { block, out })
}

/// The intervals with the weights of their parts.
struct Layout<'a> {
    lines: &'a mut Vec<u8>,
    path: Vec<u32>,
    position: u32,
}

impl Teller for Layout<'_> {
    fn begin(&mut self, roots: u16, weight: u32) -> io::Result<()> {
        // The path begins with the root's own position.
        let Some((_, parent)) = self.path.split_first() else {
            return writeln!(self.lines, "root {weight}");
        };
        let last = self.position + u32::from(roots) - 1;
        self.lines.extend_from_slice(b"run ");
        write_path(parent, self.lines)?;
        writeln!(self.lines, " {} {last} {weight}", self.position)
    }

    fn open(&mut self, _: Kind, _: &[u8], _: &[u8]) -> io::Result<()> {
        self.path.push(self.position);
        self.position = 0;
        Ok(())
    }

    fn close(&mut self, _: Kind, _: &[u8]) -> io::Result<()> {
        self.position = self.path.pop().map_or(0, |last| last + 1);
        Ok(())
    }

    fn open_far(&mut self, kind: Kind, name: &[u8]) -> io::Result<()> {
        self.open(kind, name, &[])
    }

    const TAKES_PARTS: bool = false;

    fn part(&mut self, _: &[u8]) -> io::Result<()> {
        Ok(())
    }

    fn end_parts(&mut self) -> io::Result<()> {
        Ok(())
    }
}

/// Writes the intervals of a document.
pub fn layout(records: &mut Records, entry: Entry, lines: &mut Vec<u8>) -> Result<(), Failure> {
    let (path, position) = (Vec::new(), 0);
    tell(
        records,
        entry,
        Layout {
            lines,
            path,
            position,
        },
    )
}
