//! The nodes of a tree by number, in document order.

use crate::tree::Tree;
use std::iter::from_fn;

#[derive(Default)]
pub struct Shape {
    /// What each node weighs.
    pub weights: Vec<u32>,
    /// How many nodes the subtree of each has.
    sizes: Vec<u32>,
}

impl Shape {
    pub fn new(tree: &Tree) -> Shape {
        let mut shape = Shape::default();
        shape.add(tree);
        shape
    }

    /// The recursion ends at the depth limit of documents.
    fn add(&mut self, tree: &Tree) {
        let node = self.sizes.len();
        self.weights.push(tree.node.weight());
        self.sizes.push(0);
        for child in &tree.children {
            self.add(child);
        }
        self.sizes[node] = (self.sizes.len() - node) as u32;
    }

    pub fn count(&self) -> usize {
        self.sizes.len()
    }

    /// The number behind those of a node and all below it.
    pub fn end(&self, node: usize) -> usize {
        node + self.sizes[node] as usize
    }

    pub fn children(&self, node: usize) -> impl Iterator<Item = usize> {
        let end = self.end(node);
        let mut next = node + 1;
        from_fn(move || {
            let child = next;
            (child < end).then(|| {
                next = self.end(child);
                child
            })
        })
    }

    pub fn path(&self, node: usize) -> Vec<u32> {
        let mut path = Vec::new();
        let mut above = 0;
        while above != node {
            let mut children = (0..).zip(self.children(above));
            let (position, child) = children
                .find(|&(_, child)| node < self.end(child))
                .expect("a node of the tree");
            path.push(position);
            above = child;
        }
        path
    }
}
