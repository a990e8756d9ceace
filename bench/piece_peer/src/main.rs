//! Reads the record of its standard input again and again, as `nx_piece_driver` does, without proofs: the
//! same checks, the same tree, and the same answer.

use std::env;
use std::io::{self, Read};

#[allow(dead_code)]
#[derive(Clone, Copy)]
enum Kind {
    Doc,
    Element,
    Attribute,
    Text,
    Instruction,
}

#[allow(dead_code)]
struct Node {
    kind: Kind,
    name: Vec<u8>,
    content: Vec<u8>,
}

#[derive(Clone, Copy)]
#[allow(dead_code)]
struct Far {
    first: u32,
    length: u32,
}

struct PieceTree {
    node: Node,
    far: Option<Far>,
    children: Vec<Item>,
}

#[allow(dead_code)]
enum Item {
    Tree(PieceTree),
    Run { count: u32 },
}

#[allow(dead_code)]
struct Proxy {
    page: u32,
    slot: u16,
    roots: u16,
}

#[allow(dead_code)]
enum Stored {
    Inline {
        roots: Vec<PieceTree>,
        proxies: Vec<Proxy>,
    },
    Chained {
        roots: Vec<PieceTree>,
        count: u32,
        chain: u32,
    },
}

/// What the rest of a piece may have.
struct Left {
    room: u32,
    proxies: u32,
    items: u32,
}

fn short(bytes: &[u8]) -> u16 {
    u16::from_be_bytes([bytes[0], bytes[1]])
}

fn long(bytes: &[u8]) -> u32 {
    u32::from_be_bytes([bytes[0], bytes[1], bytes[2], bytes[3]])
}

fn weight(tree: &PieceTree) -> u32 {
    let length = tree.far.map_or(tree.node.content.len(), |far| far.length as usize);
    let counted = if length <= 1_024 { length } else { 8 };
    1 + (tree.node.name.len() + counted).div_ceil(8) as u32
}

/// What an item says of a far content.
fn far(bytes: &[u8]) -> Option<Far> {
    if bytes.len() != 8 {
        return None;
    }
    let (first, length) = (long(bytes), long(&bytes[4..]));
    (1_025..=1_048_576).contains(&length).then_some(Far { first, length })
}

fn decode(bytes: &[u8]) -> Option<Stored> {
    let (head, behind) = bytes.split_at_checked(16)?;
    let (form, roots) = (head[0], short(&head[2..]));
    let (count, chain) = (long(&head[8..]), long(&head[12..]));
    if head[1] != 0 || roots == 0 || roots > 256 || count > 524_288 {
        return None;
    }
    let mut left = Left {
        room: 256,
        proxies: count,
        items: long(&head[4..]),
    };
    let mut rest = behind;
    let mut trees = Vec::new();
    for _ in 0..roots {
        trees.push(tree(&mut rest, &mut left)?);
    }
    if left.proxies != 0 || left.items != 0 {
        return None;
    }
    let length = 16 + (behind.len() - rest.len()) + 8 * count as usize;
    match form {
        1 if chain == 0 && length <= 8176 => Some(Stored::Inline {
            roots: trees,
            proxies: proxies(rest, count)?,
        }),
        2 if length > 8176 && rest.is_empty() => Some(Stored::Chained {
            roots: trees,
            count,
            chain,
        }),
        _ => None,
    }
}

fn tree(rest: &mut &[u8], left: &mut Left) -> Option<PieceTree> {
    if left.items == 0 {
        return None;
    }
    let (head, behind) = rest.split_at_checked(8)?;
    let kind = match head[0] {
        1 => Kind::Doc,
        2 => Kind::Element,
        3 => Kind::Attribute,
        4 => Kind::Text,
        5 => Kind::Instruction,
        _ => return None,
    };
    let name = usize::from(short(&head[2..]));
    let end = name + usize::from(short(&head[4..]));
    let slots = end.div_ceil(8);
    if head[1] > 1 || slots as u32 >= left.room {
        return None;
    }
    let (bytes, behind) = behind.split_at_checked(8 * slots)?;
    if bytes[end..].iter().any(|byte| *byte != 0) {
        return None;
    }
    let content = &bytes[name..end];
    let far = if head[1] == 1 { Some(far(content)?) } else { None };
    let node = Node {
        kind,
        name: bytes[..name].to_vec(),
        content: if far.is_some() { Vec::new() } else { content.to_vec() },
    };
    *rest = behind;
    left.room -= 1 + slots as u32;
    left.items -= 1;
    let mut children = Vec::new();
    let mut after_run = false;
    for _ in 0..short(&head[6..]) {
        let found = if after_run { None } else { run(rest, left) };
        after_run = found.is_some();
        children.push(match found {
            Some(count) => Item::Run { count },
            None => Item::Tree(tree(rest, left)?),
        });
    }
    Some(PieceTree { node, far, children })
}

fn run(rest: &mut &[u8], left: &mut Left) -> Option<u32> {
    let (head, behind) = rest.split_at_checked(8)?;
    if left.items == 0 || head[..4] != [6, 0, 0, 0] {
        return None;
    }
    let count = long(&head[4..]);
    if count == 0 || left.proxies < count {
        return None;
    }
    *rest = behind;
    left.proxies -= count;
    left.items -= 1;
    Some(count)
}

fn proxies(bytes: &[u8], count: u32) -> Option<Vec<Proxy>> {
    if bytes.len() != 8 * count as usize {
        return None;
    }
    bytes
        .chunks_exact(8)
        .map(|bytes| {
            let roots = short(&bytes[6..]);
            (1..=256).contains(&roots).then(|| Proxy {
                page: long(bytes),
                slot: short(&bytes[4..]),
                roots,
            })
        })
        .collect()
}

fn tree_weight(tree: &PieceTree) -> u64 {
    let mut sum = u64::from(weight(tree));
    for item in &tree.children {
        if let Item::Tree(child) = item {
            sum += tree_weight(child);
        }
    }
    sum
}

fn main() -> io::Result<()> {
    let rounds: u32 = env::args().nth(1).and_then(|word| word.parse().ok()).unwrap_or(1);
    let mut bytes = Vec::new();
    io::stdin().read_to_end(&mut bytes)?;
    let mut slots = 0u64;
    for _ in 0..rounds {
        if let Some(Stored::Inline { roots, .. } | Stored::Chained { roots, .. }) = decode(&bytes) {
            slots += roots.iter().map(tree_weight).sum::<u64>();
        }
    }
    println!("{rounds} times, {slots} slots");
    Ok(())
}
