//! Sibling intervals of a tree, and what their parts weigh.

use crate::tree::Tree;
use std::ops::Range;

pub enum Interval {
    /// The root of the tree alone.
    Root,
    /// Children of the node at `parent`, the last one counted.
    Run {
        parent: Vec<u32>,
        first: u32,
        last: u32,
    },
}

/// What is claimed of the partitionings of a node's subtree.
#[derive(Clone, Copy, Default)]
pub struct Bound {
    /// The fewest intervals.
    pub least: u32,
    /// The least weight of the node's part with that many.
    pub lean: u32,
    /// The least weight with at most one more.
    pub nearly: u32,
}

#[derive(Default)]
pub struct Plan {
    pub parts: Vec<Interval>,
    /// What the part of each interval weighs.
    pub weights: Vec<u64>,
    /// One for each node in document order.
    pub bounds: Vec<Bound>,
}

/// The nodes of a tree by number: the root has 0, and the children of each node follow
/// in turn, so that they have numbers in a row.
struct Numbers {
    weights: Vec<u32>,
    /// Where the children of each node begin, and at last the number of nodes.
    starts: Vec<u32>,
}

impl Numbers {
    fn new(tree: &Tree) -> Numbers {
        let mut queue = vec![tree];
        let mut weights = Vec::new();
        let mut starts = Vec::new();
        while let Some(&tree) = queue.get(weights.len()) {
            weights.push(tree.node.weight());
            starts.push(queue.len() as u32);
            queue.extend(&tree.children);
        }
        starts.push(queue.len() as u32);
        Numbers { weights, starts }
    }

    fn child(&self, node: u32, position: u32) -> Option<u32> {
        let child = self.starts[node as usize].checked_add(position)?;
        (child < self.starts[node as usize + 1]).then_some(child)
    }

    fn members(&self, interval: &Interval) -> Option<Range<usize>> {
        let Interval::Run {
            parent,
            first,
            last,
        } = interval
        else {
            return Some(0..1);
        };
        let mut positions = parent.iter();
        let parent = positions.try_fold(0, |node, &position| self.child(node, position))?;
        let (first, last) = (self.child(parent, *first)?, self.child(parent, *last)?);
        (first <= last).then_some(first as usize..last as usize + 1)
    }
}

/// What the part of each interval weighs, or why they are no partitioning.
pub fn part_weights(tree: &Tree, parts: &[Interval]) -> Result<Vec<u64>, String> {
    let numbers = Numbers::new(tree);
    let members = (0..).zip(parts).map(|(index, part)| {
        let members = numbers.members(part);
        members.ok_or_else(|| format!("out-of-tree {index}"))
    });
    let members = members.collect::<Result<Vec<_>, _>>()?;
    let mut owners = owners(numbers.weights.len(), &members)?;
    if owners[0].is_none() {
        return Err("no-root".to_string());
    }
    let mut sums = vec![0; parts.len()];
    for node in 0..owners.len() {
        let owner = owners[node].expect("a node's owner");
        sums[owner as usize] += u64::from(numbers.weights[node]);
        let children = numbers.starts[node] as usize..numbers.starts[node + 1] as usize;
        for child in &mut owners[children] {
            child.get_or_insert(owner);
        }
    }
    Ok(sums)
}

/// The interval of each number that is a member of one.
fn owners(count: usize, members: &[Range<usize>]) -> Result<Vec<Option<u32>>, String> {
    let mut owners = vec![None; count];
    for (index, members) in (0..).zip(members) {
        for owner in &mut owners[members.clone()] {
            if owner.replace(index).is_some() {
                return Err(format!("overlap {index}"));
            }
        }
    }
    Ok(owners)
}
