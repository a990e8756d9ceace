//! What is asked of a child below its parent, by the labels of both.

use crate::tree::Kind;
use std::borrow::Cow;
use std::collections::BTreeMap;

/// As many rules as there are at most.
const MOST: usize = 4_096;

#[derive(Clone, Copy, PartialEq)]
pub enum Asked {
    /// To be an interval alone.
    Standalone,
    /// To stand in the part of its parent.
    Cluster,
    Free,
}

impl Asked {
    const WORDS: [(Asked, &'static str); 3] = [
        (Asked::Standalone, "standalone"),
        (Asked::Cluster, "cluster"),
        (Asked::Free, "free"),
    ];

    pub fn named(word: &[u8]) -> Option<Asked> {
        let mut words = Self::WORDS.iter();
        words.find_map(|&(asked, name)| (name.as_bytes() == word).then_some(asked))
    }

    pub fn word(self) -> &'static str {
        let mut words = Self::WORDS.iter();
        let found = words.find(|&&(asked, _)| asked == self);
        found.expect("one of three").1
    }
}

/// A node's kind and name, which give its label.
pub type Named<'a> = (Kind, &'a [u8]);

fn label((kind, name): Named<'_>) -> Cow<'_, [u8]> {
    match kind {
        Kind::Doc => Cow::Borrowed(b"#doc"),
        Kind::Text => Cow::Borrowed(b"#text"),
        Kind::Element => Cow::Borrowed(name),
        Kind::Attribute => Cow::Owned([b"@", name].concat()),
        Kind::Instruction => Cow::Owned([b"?", name].concat()),
    }
}

/// The rules by the labels of parents, and then of children. None of them is `Free`.
#[derive(Clone, Default)]
pub struct Rules {
    below: BTreeMap<Vec<u8>, BTreeMap<Vec<u8>, Asked>>,
}

impl Rules {
    pub fn asked(&self, parent: Named, child: Named) -> Asked {
        if self.below.is_empty() {
            return Asked::Free;
        }
        let rules = self.below.get(label(parent).as_ref());
        let asked = rules.and_then(|rules| rules.get(label(child).as_ref()));
        asked.copied().unwrap_or(Asked::Free)
    }

    pub fn len(&self) -> usize {
        self.below.values().map(BTreeMap::len).sum()
    }

    /// In the order of the parents' labels, and then of the children's.
    pub fn iter(&self) -> impl Iterator<Item = (&[u8], &[u8], Asked)> {
        self.below.iter().flat_map(|(parent, rules)| {
            let children = rules.iter();
            children.map(|(child, &asked)| (parent.as_slice(), child.as_slice(), asked))
        })
    }

    /// Sets the rule of a pair and answers the one before, or nothing where it would be one too many.
    pub fn set(&mut self, parent: &[u8], child: &[u8], asked: Asked) -> Option<Asked> {
        let there = self.below.get(parent).and_then(|rules| rules.get(child));
        let before = there.copied().unwrap_or(Asked::Free);
        if asked != Asked::Free {
            if before == Asked::Free && self.len() == MOST {
                return None;
            }
            let rules = self.below.entry(parent.to_vec()).or_default();
            rules.insert(child.to_vec(), asked);
        } else if let Some(rules) = self.below.get_mut(parent) {
            rules.remove(child);
            if rules.is_empty() {
                self.below.remove(parent);
            }
        }
        Some(before)
    }
}
