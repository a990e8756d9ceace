//! The catalog: where each document stands, and the rules.

use crate::page::{u16_at, u32_at};
use crate::records::Place;
use crate::rules::{Asked, Rules};
use std::collections::BTreeMap;

#[derive(Clone, Copy, PartialEq)]
pub struct Entry {
    pub root: Place,
    pub nodes: u32,
}

#[derive(Clone, Default)]
pub struct Catalog {
    pub documents: BTreeMap<Vec<u8>, Entry>,
    pub rules: Rules,
}

/// Takes a text behind its length from the bytes that are left.
fn text<'a>(rest: &mut &'a [u8]) -> Option<&'a [u8]> {
    let (length, behind) = rest.split_at_checked(2)?;
    let (text, behind) = behind.split_at_checked(u16_at(length, 0).into())?;
    *rest = behind;
    Some(text)
}

fn count(rest: &mut &[u8]) -> Option<u32> {
    let (count, behind) = rest.split_at_checked(4)?;
    *rest = behind;
    Some(u32_at(count, 0))
}

impl Catalog {
    pub fn read(bytes: &[u8]) -> Option<Catalog> {
        let mut rest = bytes;
        let mut documents = BTreeMap::new();
        for _ in 0..count(&mut rest)? {
            let name = text(&mut rest)?;
            let (entry, behind) = rest.split_at_checked(10)?;
            let root = Place {
                page: u32_at(entry, 0),
                slot: u16_at(entry, 4),
            };
            let nodes = u32_at(entry, 6);
            if documents
                .last_key_value()
                .is_some_and(|(last, _): (&Vec<u8>, _)| last.as_slice() >= name)
            {
                return None;
            }
            documents.insert(name.to_vec(), Entry { root, nodes });
            rest = behind;
        }
        let mut rules = Rules::default();
        for _ in 0..count(&mut rest)? {
            let (parent, child) = (text(&mut rest)?, text(&mut rest)?);
            let (asked, behind) = rest.split_first()?;
            let asked = match asked {
                1 => Asked::Standalone,
                2 => Asked::Cluster,
                _ => return None,
            };
            if rules.set(parent, child, asked)? != Asked::Free {
                return None;
            }
            rest = behind;
        }
        rest.is_empty().then_some(Catalog { documents, rules })
    }

    pub fn bytes(&self) -> Vec<u8> {
        let mut bytes = Vec::from((self.documents.len() as u32).to_be_bytes());
        for (name, entry) in &self.documents {
            bytes.extend((name.len() as u16).to_be_bytes());
            bytes.extend_from_slice(name);
            bytes.extend(entry.root.page.to_be_bytes());
            bytes.extend(entry.root.slot.to_be_bytes());
            bytes.extend(entry.nodes.to_be_bytes());
        }
        bytes.extend((self.rules.len() as u32).to_be_bytes());
        for (parent, child, asked) in self.rules.iter() {
            for label in [parent, child] {
                bytes.extend((label.len() as u16).to_be_bytes());
                bytes.extend_from_slice(label);
            }
            bytes.push(if asked == Asked::Standalone { 1 } else { 2 });
        }
        bytes
    }
}
