//! Lean optimal partitionings.

use crate::fields::write_path;
use crate::fronts::{Child, Fronts};
use crate::parts::{Bound, Interval, Plan};
use crate::shape::Shape;
use crate::tree::Tree;

/// How a node lies in a partitioning.
#[derive(Clone, Copy, PartialEq)]
pub enum Cut {
    /// In the part of its parent.
    Uncut,
    /// As the first member of an interval.
    First,
    /// In the interval of the sibling before it.
    Next,
}

/// A lean optimal partitioning, its intervals in document order of their first members,
/// and the minima of each node's subtree.
pub fn plan(document: &Tree, k: u32) -> Result<Plan, String> {
    let shape = Shape::new(document);
    let Lean { cuts, bounds } = lean(&shape, k)?;
    let mut assembly = Assembly {
        shape: &shape,
        cuts: &cuts,
        path: Vec::new(),
        parts: vec![Interval::Root],
        weights: vec![shape.weights[0].into()],
    };
    assembly.add_children(0, 0);
    let Assembly { parts, weights, .. } = assembly;
    Ok(Plan {
        parts,
        weights,
        bounds,
    })
}

/// A lean optimal partitioning by nodes: how each lies in it, and the minima of its subtree.
pub struct Lean {
    pub cuts: Vec<Cut>,
    bounds: Vec<Bound>,
}

pub fn lean(shape: &Shape, k: u32) -> Result<Lean, String> {
    check_weights(shape, k)?;
    let bounds = minima(shape, k);
    let cuts = cuts(shape, k, &bounds);
    Ok(Lean { cuts, bounds })
}

fn check_weights(shape: &Shape, k: u32) -> Result<(), String> {
    let Some(node) = shape.weights.iter().position(|&weight| weight > k) else {
        return Ok(());
    };
    let mut path = Vec::new();
    write_path(&shape.path(node), &mut path).expect("memory");
    let path = String::from_utf8_lossy(&path);
    Err(format!("too-heavy {path} {}", shape.weights[node]))
}

fn build(fronts: &mut Fronts, shape: &Shape, k: u32, bounds: &[Bound], node: usize) {
    let children = shape.children(node);
    let children = children.map(|child| Child::new(k, shape.weights[child], bounds[child]));
    fronts.build(k, k - shape.weights[node], children);
}

/// Children stand behind their parents, so they come first here.
fn minima(shape: &Shape, k: u32) -> Vec<Bound> {
    let mut bounds = vec![Bound::default(); shape.count()];
    let mut fronts = Fronts::default();
    for node in (0..shape.count()).rev() {
        build(&mut fronts, shape, k, &bounds, node);
        let [first, nearly] = fronts.forms();
        let children = shape.children(node);
        let below: u32 = children.map(|child| bounds[child].least - 1).sum();
        bounds[node] = Bound {
            least: 1 + below + first.extra,
            lean: shape.weights[node] + u32::from(first.weight),
            nearly: shape.weights[node] + u32::from(nearly.weight),
        };
    }
    bounds
}

/// How each node lies in one lean optimal partitioning.
fn cuts(shape: &Shape, k: u32, bounds: &[Bound]) -> Vec<Cut> {
    let mut cuts = vec![Cut::Uncut; shape.count()];
    // The nodes whose subtrees have one interval more than the fewest.
    let mut upgraded = vec![false; shape.count()];
    let mut fronts = Fronts::default();
    let mut children = Vec::new();
    for node in 0..shape.count() {
        build(&mut fronts, shape, k, bounds, node);
        children.clear();
        children.extend(shape.children(node));
        let form = usize::from(upgraded[node]);
        fronts.walk_back(fronts.forms()[form], |members, second| {
            cuts[children[members.start]] = Cut::First;
            for member in members.skip(1) {
                cuts[children[member]] = Cut::Next;
            }
            for &member in second {
                upgraded[children[member]] = true;
            }
        });
    }
    cuts
}

struct Assembly<'a> {
    shape: &'a Shape,
    cuts: &'a [Cut],
    path: Vec<u32>,
    parts: Vec<Interval>,
    weights: Vec<u64>,
}

impl Assembly<'_> {
    /// Adds what is below a node whose part has this index. The recursion ends at the
    /// depth limit of documents.
    fn add_children(&mut self, node: usize, owner: usize) {
        let shape = self.shape;
        let mut interval = owner;
        for (position, child) in (0..).zip(shape.children(node)) {
            let part = match self.cuts[child] {
                Cut::Uncut => owner,
                Cut::First => {
                    interval = self.parts.len();
                    self.begin(position);
                    interval
                }
                Cut::Next => {
                    self.prolong(interval, position);
                    interval
                }
            };
            self.weights[part] += u64::from(shape.weights[child]);
            self.path.push(position);
            self.add_children(child, part);
            self.path.pop();
        }
    }

    fn begin(&mut self, position: u32) {
        self.weights.push(0);
        self.parts.push(Interval::Run {
            parent: self.path.clone(),
            first: position,
            last: position,
        });
    }

    fn prolong(&mut self, interval: usize, position: u32) {
        if let Interval::Run { last, .. } = &mut self.parts[interval] {
            *last = position;
        }
    }
}
