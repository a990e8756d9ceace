//! Stored pieces, and where paths lead in them.

use crate::Failure;
use crate::piece::{Piece, Proxy, What, list_of};
use crate::records::{List, Place, Records};

/// The bytes of a record that holds a piece, and the list of its proxies.
pub struct Stored {
    pub proxy: Proxy,
    pub record: Vec<u8>,
    /// One where they don't stand in the record.
    pub list: Option<List>,
}

impl Stored {
    pub fn read(records: &mut Records, proxy: Proxy) -> Result<Stored, Failure> {
        let record = records.record(proxy.place)?.to_vec();
        let list = match list_of(&record) {
            Some((first, length)) => Some(records.list(first, length)?),
            None => None,
        };
        Ok(Stored {
            proxy,
            record,
            list,
        })
    }

    pub fn piece(&self) -> Result<Piece<'_>, Failure> {
        let list = self.list.as_ref().map_or(&[][..], |list| &list.bytes);
        let piece = Piece::read(&self.record, list);
        let piece = piece.filter(|piece| piece.roots == self.proxy.roots);
        piece.ok_or(Failure::Damaged(self.proxy.place.page))
    }
}

pub fn root_of(place: Place) -> Proxy {
    Proxy { place, roots: 1 }
}

/// Where a position among siblings leads.
#[derive(Clone, Copy)]
pub enum Child {
    /// To the node that is this item.
    Here(u32),
    /// To a tree of another record.
    Away(Away),
    Nowhere,
}

#[derive(Clone, Copy)]
pub struct Away {
    /// The item that is the run with its proxy, and which of all proxies that is.
    pub run: u32,
    pub index: u32,
    /// Which of the trees there.
    pub member: u32,
}

/// The child at a position among the items from one to an end.
pub fn child_at(piece: &Piece, first: u32, end: u32, position: u32) -> Child {
    let mut left = position;
    for at in piece.beside(first, end) {
        let item = &piece.items[at as usize];
        match item.what {
            What::Node { .. } if left == 0 => return Child::Here(at),
            What::Node { .. } => left -= 1,
            What::Run(count) => {
                for (index, proxy) in (item.before..).zip(piece.proxies(item, count)) {
                    let roots = u32::from(proxy.roots);
                    if left < roots {
                        return Child::Away(Away {
                            run: at,
                            index,
                            member: left,
                        });
                    }
                    left -= roots;
                }
            }
        }
    }
    Child::Nowhere
}

/// Where a path leads from one of the trees of a piece on: the last step that it takes in the piece, the node from
/// which it takes it, if it isn't the first, and the rest.
pub struct Way<'a> {
    pub child: Child,
    pub above: Option<u32>,
    pub rest: &'a [u32],
}

pub fn way<'a>(piece: &Piece, member: u32, path: &'a [u32]) -> Way<'a> {
    let child = child_at(piece, 0, piece.items.len() as u32, member);
    let mut way = Way {
        child,
        above: None,
        rest: path,
    };
    while let Child::Here(at) = way.child
        && let Some((&position, rest)) = way.rest.split_first()
    {
        let child = child_at(piece, at + 1, piece.items[at as usize].end, position);
        way = Way {
            child,
            above: Some(at),
            rest,
        };
    }
    way
}
