//! Nodes and trees.

#[derive(Clone, Copy, Default, PartialEq, Eq)]
pub enum Kind {
    #[default]
    Doc,
    Element,
    Attribute,
    Text,
    Instruction,
}

#[derive(Clone, Default)]
pub struct Node {
    pub kind: Kind,
    pub name: Vec<u8>,
    pub content: Vec<u8>,
}

/// A content with more bytes stands outside of records.
pub const LONGEST_NEAR: usize = 1_024;

/// What a node with a name and a content of so many bytes counts for, in slots of 8 bytes.
pub fn weight_of(name: usize, content: usize) -> u32 {
    let counted = if content <= LONGEST_NEAR { content } else { 8 };
    1 + (name + counted).div_ceil(8) as u32
}

impl Node {
    pub fn weight(&self) -> u32 {
        weight_of(self.name.len(), self.content.len())
    }
}

#[derive(Default)]
pub struct Tree {
    pub node: Node,
    pub children: Vec<Tree>,
}

impl Tree {
    pub fn new(kind: Kind, name: &[u8], content: Vec<u8>) -> Tree {
        Tree {
            node: Node {
                kind,
                name: name.to_vec(),
                content,
            },
            children: Vec::new(),
        }
    }

    pub fn is_element(&self) -> bool {
        matches!(self.node.kind, Kind::Element)
    }

    pub fn is_attribute(&self) -> bool {
        matches!(self.node.kind, Kind::Attribute)
    }
}
