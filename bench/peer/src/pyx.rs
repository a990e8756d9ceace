//! PYX lines: read to a document as they come, and written.

use crate::tree::{Kind, Node, Tree};
use std::collections::BTreeSet;
use std::io::{self, Write};
use std::mem;

/// The bytes of a node's name and content together.
pub const CONTENT_LIMIT: usize = 1_048_576;
/// The bytes that a line within the content limit may have at most: a code, a
/// space, a content of escapes alone and a CR.
const LINE_LIMIT: usize = 2 * CONTENT_LIMIT + 3;
pub const DEPTH_LIMIT: usize = 256;
/// The document's own node counts too.
pub const NODE_LIMIT: usize = 524_288;

#[derive(Clone, Copy)]
pub enum Fault {
    BadCode,
    LongLine,
    BadName,
    BadNesting,
    BadAttribute,
    Twice,
    TooDeep,
    TooMany,
    Unclosed,
    Empty,
}

impl Fault {
    pub fn word(&self) -> &'static str {
        match self {
            Fault::BadCode => "bad-code",
            Fault::LongLine => "long-line",
            Fault::BadName => "bad-name",
            Fault::BadNesting => "bad-nesting",
            Fault::BadAttribute => "bad-attribute",
            Fault::Twice => "twice",
            Fault::TooDeep => "too-deep",
            Fault::TooMany => "too-many",
            Fault::Unclosed => "unclosed",
            Fault::Empty => "empty",
        }
    }
}

/// A line and its fault.
pub struct Refusal(pub u64, pub Fault);

/// Builds a document from a stream of lines that comes in pieces.
#[derive(Default)]
pub struct Reader {
    document: Tree,
    /// The elements that have no end line yet, the outermost first.
    open: Vec<Tree>,
    /// The names of the attributes since the last start line.
    attributes: BTreeSet<Vec<u8>>,
    /// The nodes below the document's own.
    nodes: usize,
    pub lines: u64,
    /// The beginning of a line that goes on in the next piece.
    pending: Vec<u8>,
}

impl Reader {
    pub fn feed(&mut self, piece: &[u8]) -> Result<(), Refusal> {
        self.feed_to(piece, |_| false).map(drop)
    }

    /// Takes the lines up to a line `.`, and answers what stands behind it.
    pub fn feed_to_dot<'a>(&mut self, piece: &'a [u8]) -> Result<Option<&'a [u8]>, Refusal> {
        self.feed_to(piece, is_dot)
    }

    fn feed_to<'a>(
        &mut self,
        mut piece: &'a [u8],
        is_end: impl Fn(&[u8]) -> bool,
    ) -> Result<Option<&'a [u8]>, Refusal> {
        while let Some(end) = piece.iter().position(|&byte| byte == b'\n') {
            let (line, rest) = (&piece[..end], &piece[end + 1..]);
            if self.pending.is_empty() {
                if is_end(line) {
                    return Ok(Some(rest));
                }
                self.line(line)?;
            } else {
                self.keep(line)?;
                if is_end(&self.pending) {
                    self.pending.clear();
                    return Ok(Some(rest));
                }
                self.pending_line()?;
            }
            piece = rest;
        }
        self.keep(piece)?;
        Ok(None)
    }

    /// The document before a line `.` or the end.
    pub fn finish_at_dot(mut self) -> Result<Tree, Refusal> {
        if is_dot(&self.pending) {
            self.pending.clear();
        }
        self.finish()
    }

    pub fn finish(mut self) -> Result<Tree, Refusal> {
        if !self.pending.is_empty() {
            self.pending_line()?;
        }
        let fault = if !self.open.is_empty() {
            Fault::Unclosed
        } else if !self.has_element() {
            Fault::Empty
        } else {
            return Ok(self.document);
        };
        Err(Refusal(self.lines, fault))
    }

    /// Adds to the pending line. One past the limit is refused however it goes on.
    fn keep(&mut self, part: &[u8]) -> Result<(), Refusal> {
        self.pending.extend_from_slice(part);
        if self.pending.len() > LINE_LIMIT {
            self.pending_line()?;
        }
        Ok(())
    }

    fn pending_line(&mut self) -> Result<(), Refusal> {
        let mut line = mem::take(&mut self.pending);
        self.line(&line)?;
        line.clear();
        self.pending = line;
        Ok(())
    }

    /// Takes a line that is whole, where no other one is begun.
    pub fn line(&mut self, line: &[u8]) -> Result<(), Refusal> {
        self.lines += 1;
        let line = line.strip_suffix(b"\r").unwrap_or(line);
        let read = match line.split_first() {
            Some((b'(', name)) => self.start(name),
            Some((b')', name)) => self.end(name),
            Some((b'A', rest)) => self.attribute(rest),
            Some((b'-', rest)) => self.text(rest),
            Some((b'?', rest)) => self.instruction(rest),
            _ => Err(Fault::BadCode),
        };
        read.map_err(|fault| Refusal(self.lines, fault))
    }

    fn start(&mut self, name: &[u8]) -> Result<(), Fault> {
        check_length(name, b"")?;
        check_name(name)?;
        if self.open.is_empty() && self.has_element() {
            return Err(Fault::BadNesting);
        }
        self.count_node()?;
        self.attributes.clear();
        self.open.push(Tree::new(Kind::Element, name, Vec::new()));
        Ok(())
    }

    fn end(&mut self, name: &[u8]) -> Result<(), Fault> {
        check_length(name, b"")?;
        let ended = self.open.pop_if(|element| element.node.name == name);
        let element = ended.ok_or(Fault::BadNesting)?;
        self.add(element);
        Ok(())
    }

    fn attribute(&mut self, rest: &[u8]) -> Result<(), Fault> {
        let (name, content) = read_named(rest)?;
        let element = self.open.last().ok_or(Fault::BadAttribute)?;
        if !element.children.last().is_none_or(Tree::is_attribute) {
            return Err(Fault::BadAttribute);
        }
        if !self.attributes.insert(name.to_vec()) {
            return Err(Fault::Twice);
        }
        self.count_node()?;
        self.add(Tree::new(Kind::Attribute, name, content));
        Ok(())
    }

    fn text(&mut self, rest: &[u8]) -> Result<(), Fault> {
        let content = unescape(rest);
        check_length(b"", &content)?;
        if self.open.is_empty() {
            return Err(Fault::BadNesting);
        }
        self.count_node()?;
        self.add(Tree::new(Kind::Text, b"", content));
        Ok(())
    }

    fn instruction(&mut self, rest: &[u8]) -> Result<(), Fault> {
        let (name, content) = read_named(rest)?;
        self.count_node()?;
        self.add(Tree::new(Kind::Instruction, name, content));
        Ok(())
    }

    fn has_element(&self) -> bool {
        self.document.children.iter().any(Tree::is_element)
    }

    /// Counts a node below the innermost open element.
    fn count_node(&mut self) -> Result<(), Fault> {
        if self.open.len() >= DEPTH_LIMIT {
            return Err(Fault::TooDeep);
        }
        if self.nodes + 1 >= NODE_LIMIT {
            return Err(Fault::TooMany);
        }
        self.nodes += 1;
        Ok(())
    }

    fn add(&mut self, tree: Tree) {
        let parent = self.open.last_mut().unwrap_or(&mut self.document);
        parent.children.push(tree);
    }
}

fn is_dot(line: &[u8]) -> bool {
    line.strip_suffix(b"\r").unwrap_or(line) == b"."
}

/// Reads what follows the code of an attribute or an instruction.
fn read_named(rest: &[u8]) -> Result<(&[u8], Vec<u8>), Fault> {
    let (name, content) = match rest.iter().position(|&byte| byte == b' ') {
        Some(space) => (&rest[..space], unescape(&rest[space + 1..])),
        None => (rest, Vec::new()),
    };
    check_length(name, &content)?;
    check_name(name)?;
    Ok((name, content))
}

fn check_length(name: &[u8], content: &[u8]) -> Result<(), Fault> {
    if name.len() + content.len() > CONTENT_LIMIT {
        return Err(Fault::LongLine);
    }
    Ok(())
}

pub fn check_name(name: &[u8]) -> Result<(), Fault> {
    let outside = |byte: &u8| matches!(byte, 0..=b' ' | b'#' | b'*' | b'/' | b'?' | b'@' | b'\\');
    if name.is_empty() || name.iter().any(outside) {
        return Err(Fault::BadName);
    }
    Ok(())
}

/// A backslash that begins no escape stands for itself.
pub fn unescape(mut escaped: &[u8]) -> Vec<u8> {
    if !escaped.contains(&b'\\') {
        return escaped.to_vec();
    }
    let mut content = Vec::with_capacity(escaped.len());
    while let Some(at) = escaped.iter().position(|&byte| byte == b'\\') {
        let (byte, length) = match escaped.get(at + 1) {
            Some(b'n') => (b'\n', 2),
            Some(b't') => (b'\t', 2),
            Some(b'r') => (b'\r', 2),
            Some(b'\\') => (b'\\', 2),
            _ => (b'\\', 1),
        };
        content.extend_from_slice(&escaped[..at]);
        content.push(byte);
        escaped = &escaped[at + length..];
    }
    content.extend_from_slice(escaped);
    content.shrink_to_fit();
    content
}

/// What one line says as a node without children, for `bench/store_peer`.
#[allow(dead_code)]
pub fn line_node(line: &[u8]) -> Result<Node, Fault> {
    let (kind, name, content) = match line.split_first() {
        Some((b'(', name)) => (Kind::Element, name, Vec::new()),
        Some((b')', name)) => {
            check_length(name, b"")?;
            return Err(Fault::BadNesting);
        }
        Some((b'-', rest)) => (Kind::Text, &rest[..0], unescape(rest)),
        Some((code @ (b'A' | b'?'), rest)) => {
            let (name, content) = read_named(rest)?;
            let attribute = *code == b'A';
            (if attribute { Kind::Attribute } else { Kind::Instruction }, name, content)
        }
        _ => return Err(Fault::BadCode),
    };
    check_length(name, &content)?;
    if kind == Kind::Element {
        check_name(name)?;
    }
    Ok(Node {
        kind,
        name: name.to_vec(),
        content,
    })
}

/// The recursion ends at the depth limit of documents.
pub fn write_tree(tree: &Tree, out: &mut impl Write) -> io::Result<()> {
    if tree.node.kind != Kind::Doc {
        write_node(&tree.node, out)?;
    }
    write_trees(&tree.children, out)?;
    match tree.node.kind {
        Kind::Element => {
            out.write_all(b")")?;
            out.write_all(&tree.node.name)?;
            out.write_all(b"\n")
        }
        _ => Ok(()),
    }
}

/// The line of a node, with its LF.
pub fn write_node(node: &Node, out: &mut impl Write) -> io::Result<()> {
    write_parts(node.kind, &node.name, &node.content, out)
}

pub fn write_parts(
    kind: Kind,
    name: &[u8],
    content: &[u8],
    out: &mut impl Write,
) -> io::Result<()> {
    write_start(kind, name, content.is_empty(), out)?;
    write_escaped(content, out)?;
    out.write_all(b"\n")
}

/// Writes what stands in a node's line before its content.
pub fn write_start(
    kind: Kind,
    name: &[u8],
    is_empty: bool,
    out: &mut impl Write,
) -> io::Result<()> {
    let (code, behind): (&[u8], &[u8]) = match kind {
        Kind::Doc => (b"#doc", b""),
        Kind::Element => (b"(", b""),
        Kind::Attribute => (b"A", b" "),
        Kind::Text => (b"-", b""),
        Kind::Instruction if is_empty => (b"?", b""),
        Kind::Instruction => (b"?", b" "),
    };
    out.write_all(code)?;
    out.write_all(name)?;
    out.write_all(behind)
}

fn write_trees(trees: &[Tree], out: &mut impl Write) -> io::Result<()> {
    trees.iter().try_for_each(|tree| write_tree(tree, out))
}

/// Writes a content, or a part of one, escaped.
pub fn write_escaped(mut content: &[u8], out: &mut impl Write) -> io::Result<()> {
    // Most contents have none of the four, and a search for one byte is fast.
    let plain = !b"\n\t\r\\".iter().any(|byte| content.contains(byte));
    let escaped = |byte: &u8| matches!(byte, b'\n' | b'\t' | b'\r' | b'\\');
    while !plain && let Some(at) = content.iter().position(escaped) {
        out.write_all(&content[..at])?;
        out.write_all(match content[at] {
            b'\n' => b"\\n",
            b'\t' => b"\\t",
            b'\r' => b"\\r",
            _ => b"\\\\",
        })?;
        content = &content[at + 1..];
    }
    out.write_all(content)
}
