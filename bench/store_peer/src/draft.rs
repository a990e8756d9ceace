//! A piece that is changed: its items in document order with their depths, and its proxies.

use crate::Failure;
use crate::piece::{Content, Far, Growing, PROXY, Piece, Proxy, What};
use crate::records::Records;
use crate::tree::Kind;

#[derive(Clone, Copy)]
pub struct Line<'a> {
    /// 0 for a root. A node's children have one more.
    pub depth: usize,
    pub what: What<'a>,
}

pub struct Draft<'a> {
    pub lines: Vec<Line<'a>>,
    pub proxies: Vec<u8>,
}

impl<'a> Draft<'a> {
    pub fn new(piece: &Piece<'a>) -> Draft<'a> {
        let mut lines = Vec::with_capacity(piece.items.len() + 2);
        let mut open = Vec::new();
        for item in &piece.items {
            while open.last().is_some_and(|&end| end as usize <= lines.len()) {
                open.pop();
            }
            lines.push(Line {
                depth: open.len(),
                what: item.what,
            });
            open.push(item.end);
        }
        Draft {
            lines,
            proxies: piece.proxies.to_vec(),
        }
    }

    /// Puts each long content that stands in no list yet into one.
    pub fn make_far(&mut self, records: &mut Records) -> Result<(), Failure> {
        for line in &mut self.lines {
            if let What::Node { content, .. } = &mut line.what
                && let Some(long) = content.long()
            {
                *content = Content::Far(records.add_far(long)?);
            }
        }
        Ok(())
    }

    pub fn weight(&self) -> u32 {
        self.lines.iter().map(|line| line.what.weight()).sum()
    }

    /// Puts a row in the place of a proxy, which is the one with this index and stands in the run that is this item.
    pub fn replace_proxy(&mut self, run: u32, index: u32, row: &'a Row) {
        let at = PROXY * index as usize;
        let bytes = row.proxies.iter().copied();
        self.proxies.splice(at..at + PROXY, bytes);
        let run = run as usize;
        let own = self.lines[run];
        let What::Run(count) = own.what else {
            return;
        };
        let part = |count| Line {
            what: What::Run(count),
            ..own
        };
        let more = match row.lines[..] {
            [] => Some(0),
            [RowLine { what: RowWhat::Run(more), .. }] => Some(more),
            _ => None,
        };
        if let Some(more) = more {
            self.lines[run] = part(count + more - 1);
            return;
        }
        let first: u32 = self.lines[..run].iter().map(|line| line.what.proxies()).sum();
        let before = index - first;
        let inner = row.lines.iter().map(|line| line.below(own.depth));
        let lines: Vec<Line> = [part(before)]
            .into_iter()
            .chain(inner)
            .chain([part(count - before - 1)])
            .collect();
        self.lines.splice(run..run + 1, lines);
    }

    /// Puts a line before an item, or behind so many of its proxies where it is a run.
    pub fn plant(&mut self, item: u32, taken: u32, line: Line<'a>) {
        let mut at = item as usize;
        if taken > 0
            && let Some(run) = self.lines.get(at).copied()
            && let What::Run(count) = run.what
        {
            let part = |count| Line {
                what: What::Run(count),
                ..run
            };
            self.lines[at] = part(taken);
            at += 1;
            self.lines.insert(at, part(count - taken));
        }
        self.lines.insert(at, line);
    }

    /// Puts a proxy before the one with this index.
    pub fn insert_proxy(&mut self, index: u32, proxy: Proxy) {
        let at = PROXY * index as usize;
        self.proxies.splice(at..at, proxy.bytes());
    }

    /// The lines from one up to an end with these proxies, as a draft of its own.
    pub fn part(&self, lines: (u32, u32), proxies: (u32, u32)) -> Draft<'a> {
        let bytes = PROXY * proxies.0 as usize..PROXY * proxies.1 as usize;
        Draft {
            lines: self.lines[lines.0 as usize..lines.1 as usize].to_vec(),
            proxies: self.proxies[bytes].to_vec(),
        }
    }

    /// Takes the lines from one up to an end out, with these proxies.
    pub fn cut(&mut self, lines: (u32, u32), proxies: (u32, u32)) {
        self.lines.drain(lines.0 as usize..lines.1 as usize);
        let bytes = PROXY * proxies.0 as usize..PROXY * proxies.1 as usize;
        self.proxies.drain(bytes);
    }

    pub fn write(&self, writer: &mut Writer) {
        let mut proxies = self.proxies.as_slice();
        for line in &self.lines {
            match line.what {
                What::Node { .. } => writer.node(line.depth, line.what),
                What::Run(count) => {
                    let (run, rest) = proxies.split_at(PROXY * count as usize);
                    writer.run(line.depth, run);
                    proxies = rest;
                }
            }
        }
        writer.finish();
    }
}

/// What a piece is written into, node by node.
pub trait Sink {
    fn node(&mut self, depth: usize, what: What);
    fn run(&mut self, depth: usize, proxies: &[u8]);
}

enum RowWhat {
    Near(Kind, Vec<u8>, Vec<u8>),
    Far(Kind, Vec<u8>, Far),
    Run(u32),
}

struct RowLine {
    depth: usize,
    what: RowWhat,
}

impl RowLine {
    /// The line below a node of that depth.
    fn below(&self, depth: usize) -> Line<'_> {
        let what = match &self.what {
            RowWhat::Near(kind, name, content) => What::Node {
                kind: *kind,
                name,
                content: Content::Near(content),
            },
            RowWhat::Far(kind, name, far) => What::Node {
                kind: *kind,
                name,
                content: Content::Far(*far),
            },
            RowWhat::Run(count) => What::Run(*count),
        };
        Line {
            depth: depth + self.depth,
            what,
        }
    }
}

/// What comes in the place of one proxy: proxies, and where a root joins the piece above, its tree among them.
#[derive(Default)]
pub struct Row {
    lines: Vec<RowLine>,
    proxies: Vec<u8>,
}

impl Row {
    pub fn of(proxies: &[Proxy]) -> Row {
        let mut row = Row::default();
        for proxy in proxies {
            row.run(0, &proxy.bytes());
        }
        row
    }

    /// Its one proxy, where there is nothing else.
    pub fn only(&self) -> Option<Proxy> {
        match self.lines[..] {
            [RowLine { what: RowWhat::Run(1), .. }] => Some(Proxy::read(&self.proxies)),
            _ => None,
        }
    }
}

impl Sink for Row {
    fn node(&mut self, depth: usize, what: What) {
        let what = match what {
            What::Node {
                kind,
                name,
                content: Content::Near(content),
            } => RowWhat::Near(kind, name.to_vec(), content.to_vec()),
            What::Node {
                kind,
                name,
                content: Content::Far(far),
            } => RowWhat::Far(kind, name.to_vec(), far),
            What::Run(count) => RowWhat::Run(count),
        };
        self.lines.push(RowLine { depth, what });
    }

    fn run(&mut self, depth: usize, proxies: &[u8]) {
        let more = (proxies.len() / PROXY) as u32;
        self.proxies.extend_from_slice(proxies);
        match self.lines.last_mut() {
            Some(RowLine {
                depth: last,
                what: RowWhat::Run(count),
            }) if *last == depth => *count += more,
            _ => self.lines.push(RowLine {
                depth,
                what: RowWhat::Run(more),
            }),
        }
    }
}

/// A node to which children come.
struct Open {
    /// Where the number of its child items is to be put.
    at: usize,
    items: u16,
    /// Its last child item, where that is a run.
    run: Option<usize>,
}

/// Makes a piece of lines. Runs beside each other become one, and those without proxies go.
pub struct Writer {
    pub piece: Growing,
    pub roots: u16,
    open: Vec<Open>,
}

impl Writer {
    pub fn new() -> Writer {
        Writer {
            piece: Growing::new(),
            roots: 0,
            open: Vec::new(),
        }
    }

    /// Closes the nodes that no line of this depth stands below.
    fn close(&mut self, depth: usize) {
        for node in self.open.drain(depth..) {
            self.piece.set_items(node.at, node.items);
        }
    }

    /// Nothing more comes.
    pub fn finish(&mut self) {
        self.close(0);
    }

    pub fn clear(&mut self) {
        self.piece.clear();
        self.roots = 0;
        self.open.clear();
    }
}

impl Sink for Writer {
    fn node(&mut self, depth: usize, what: What) {
        let What::Node {
            kind,
            name,
            content,
        } = what
        else {
            return;
        };
        self.close(depth);
        match self.open.last_mut() {
            Some(parent) => {
                parent.items += 1;
                parent.run = None;
            }
            None => self.roots += 1,
        }
        let at = self.piece.push_node(kind, name, content);
        self.open.push(Open {
            at,
            items: 0,
            run: None,
        });
    }

    fn run(&mut self, depth: usize, proxies: &[u8]) {
        self.close(depth);
        let Some(parent) = self.open.last_mut().filter(|_| !proxies.is_empty()) else {
            return;
        };
        let run = *parent.run.get_or_insert_with(|| {
            parent.items += 1;
            self.piece.push_run()
        });
        self.piece.push_proxies(run, proxies);
    }
}
