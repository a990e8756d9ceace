//! A document put into records, one for each interval.

use crate::Failure;
use crate::partition::Cut;
use crate::piece::{Content, Growing, Proxy};
use crate::records::{Place, Records};
use crate::shape::Shape;
use crate::tree::{Node, Tree};
use std::slice::from_ref;

/// Puts a document whose nodes lie so, and answers the place of the record of its root.
pub fn store(
    records: &mut Records,
    document: &Tree,
    shape: &Shape,
    cuts: &[Cut],
) -> Result<Place, Failure> {
    let mut building = Building {
        records,
        shape,
        cuts,
        spare: Vec::new(),
    };
    Ok(building.members(from_ref(document), 0)?.place)
}

struct Building<'a> {
    records: &'a mut Records,
    shape: &'a Shape,
    cuts: &'a [Cut],
    /// Room of earlier pieces.
    spare: Vec<Growing>,
}

impl Building<'_> {
    /// Puts the record of an interval, whose first member has this number, once those below it are put.
    fn members(&mut self, trees: &[Tree], first: usize) -> Result<Proxy, Failure> {
        let mut piece = self.spare.pop().unwrap_or_else(Growing::new);
        let mut node = first;
        for tree in trees {
            self.add_tree(tree, node, &mut piece)?;
            node = self.shape.end(node);
        }
        let list = match piece.long_proxies() {
            Some(proxies) => Some(self.records.add_list(proxies)?),
            None => None,
        };
        let roots = trees.len() as u16;
        let place = self.records.add(piece.record(roots, list))?;
        piece.clear();
        self.spare.push(piece);
        Ok(Proxy { place, roots })
    }

    /// Adds a tree that has this number to a piece. The recursion ends at the depth limit of documents.
    fn add_tree(&mut self, tree: &Tree, node: usize, piece: &mut Growing) -> Result<(), Failure> {
        let Node {
            kind,
            name,
            content,
        } = &tree.node;
        let content = match Content::Near(content) {
            near if near.long().is_none() => near,
            _ => Content::Far(self.records.add_far(content)?),
        };
        let at = piece.push_node(*kind, name, content);
        let mut items = 0;
        let mut run = None;
        let mut position = 0;
        let mut child = node + 1;
        while let Some(below) = tree.children.get(position) {
            if self.cuts[child] == Cut::Uncut {
                self.add_tree(below, child, piece)?;
                (position, child) = (position + 1, self.shape.end(child));
                items += 1;
                run = None;
                continue;
            }
            let (begin, first) = (position, child);
            loop {
                (position, child) = (position + 1, self.shape.end(child));
                if position == tree.children.len() || self.cuts[child] != Cut::Next {
                    break;
                }
            }
            let proxy = self.members(&tree.children[begin..position], first)?;
            let run = *run.get_or_insert_with(|| {
                items += 1;
                piece.push_run()
            });
            piece.push_proxies(run, &proxy.bytes());
        }
        piece.set_items(at, items);
        Ok(())
    }
}
