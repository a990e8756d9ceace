//! A piece that became too heavy, divided into records of its own.

use crate::Failure;
use crate::draft::{Draft, Row, Sink, Writer};
use crate::piece::{PROXY, Proxy, What};
use crate::records::{List, Records};
use crate::rules::{Asked, Named, Rules};
use crate::split::{Cut, Spot, split};

/// Puts a record for each interval of a split of a piece, and answers what comes in the place of its proxy: the proxies
/// of those that hold its roots, and the tree that joins the piece above. `above` is the node above the piece, if there
/// is one, `room` what its part may still weigh, and `list` the list that the piece had.
pub fn divide(
    records: &mut Records,
    rules: &Rules,
    draft: &Draft,
    above: Option<Named>,
    room: u32,
    list: Option<&List>,
) -> Result<Row, Failure> {
    let head = &records.head;
    let spots = spots_of(draft, rules, above);
    let cuts = split(
        &spots,
        room,
        head.k.into(),
        head.target.into(),
        head.tolerance.into(),
    );
    let mut dividing = Dividing {
        records,
        draft,
        cuts: &cuts,
        list,
        line: 0,
        proxy: 0,
    };
    let mut row = Row::default();
    while dividing.line < draft.lines.len() {
        if dividing.cuts.first() == Some(&Cut::Stays) {
            dividing.tree(0, 0, &mut row)?;
        } else {
            let proxy = dividing.interval(0)?;
            row.run(0, &proxy.bytes());
        }
    }
    if let Some(list) = dividing.list {
        dividing.records.remove_list(list);
    }
    Ok(row)
}

/// A node below which lines may come.
struct Open<'a> {
    spot: usize,
    named: Named<'a>,
    /// The position of its next child.
    next: u32,
}

/// The nodes of a piece as a split sees them.
fn spots_of(draft: &Draft, rules: &Rules, above: Option<Named>) -> Vec<Spot> {
    let mut spots: Vec<Spot> = Vec::with_capacity(draft.lines.len());
    let mut open: Vec<Open> = Vec::new();
    let mut proxies = draft.proxies.chunks_exact(PROXY);
    let mut roots = 0;
    for line in &draft.lines {
        open.truncate(line.depth);
        let next = match open.last_mut() {
            Some(parent) => &mut parent.next,
            None => &mut roots,
        };
        let position = *next;
        if let What::Run(count) = line.what {
            let run = proxies.by_ref().take(count as usize);
            *next += run
                .map(|proxy| u32::from(Proxy::read(proxy).roots))
                .sum::<u32>();
            continue;
        }
        *next += 1;
        let named = line.what.named();
        let parent = open.last().map(|parent| parent.named);
        let asked = match (parent, above.map(|above| rules.asked(above, named))) {
            (Some(parent), _) => rules.asked(parent, named),
            // One that is to stay with the node above may go on without it.
            (None, Some(Asked::Standalone)) => Asked::Standalone,
            (None, _) => Asked::Free,
        };
        let weight = line.what.weight();
        for above in &open {
            spots[above.spot].within += weight;
            spots[above.spot].below += 1;
        }
        open.push(Open {
            spot: spots.len(),
            named,
            next: 0,
        });
        spots.push(Spot {
            position,
            weight,
            within: weight,
            asked,
            below: 0,
        });
    }
    spots
}

struct Dividing<'a> {
    records: &'a mut Records,
    draft: &'a Draft<'a>,
    /// Those of the nodes that are left.
    cuts: &'a [Cut],
    /// A list that is no longer one, for the next piece that needs one: most of its pages may stay.
    list: Option<&'a List>,
    /// The next line, and where the next proxy begins.
    line: usize,
    proxy: usize,
}

impl Dividing<'_> {
    /// Puts the record of the interval that begins with the next line, once those below it are put.
    fn interval(&mut self, depth: usize) -> Result<Proxy, Failure> {
        let mut writer = Writer::new();
        loop {
            self.tree(depth, depth, &mut writer)?;
            let next = self.draft.lines.get(self.line);
            let beside = next.is_some_and(|line| line.depth == depth && line.what.is_node());
            if !beside || self.cuts.first() != Some(&Cut::GoesOn) {
                break;
            }
        }
        writer.finish();
        add(self.records, &mut writer, &mut self.list)
    }

    /// Adds the tree that begins with the next line to a piece whose roots have depth `base`.
    fn tree(&mut self, depth: usize, base: usize, writer: &mut impl Sink) -> Result<(), Failure> {
        let draft = self.draft;
        writer.node(depth - base, draft.lines[self.line].what);
        self.line += 1;
        self.cuts = &self.cuts[1..];
        while let Some(line) = draft.lines.get(self.line).filter(|line| line.depth > depth) {
            let inner = depth + 1 - base;
            match line.what {
                What::Run(count) => {
                    let end = self.proxy + PROXY * count as usize;
                    writer.run(inner, &draft.proxies[self.proxy..end]);
                    self.line += 1;
                    self.proxy = end;
                }
                _ if self.cuts.first() == Some(&Cut::Stays) => {
                    self.tree(depth + 1, base, writer)?;
                }
                _ => {
                    let proxy = self.interval(depth + 1)?;
                    writer.run(inner, &proxy.bytes());
                }
            }
        }
        Ok(())
    }
}

/// Adds the record of a piece, and the list of its proxies where they don't stand in it, in the place of an old one.
pub fn add(
    records: &mut Records,
    writer: &mut Writer,
    old: &mut Option<&List>,
) -> Result<Proxy, Failure> {
    let list = match writer.piece.long_proxies() {
        Some(proxies) => Some(match old.take() {
            Some(old) => records.change_list(old, proxies)?,
            None => records.add_list(proxies)?,
        }),
        None => None,
    };
    let roots = writer.roots;
    let place = records.add(writer.piece.record(roots, list))?;
    Ok(Proxy { place, roots })
}
