//! Scripts over a store: commands in, replies out.

use crate::Failure;
use crate::catalog::Entry;
use crate::editing::Change;
use crate::fields::{field, path_of};
use crate::pyx::{self, CONTENT_LIMIT, Reader, Refusal};
use crate::rules::Asked;
use crate::showing;
use crate::store::Store;
use std::io::{BufRead, ErrorKind, Read, Write};

/// The bytes of input that are read at once, and those of replies that are given at once.
pub const BLOCK: usize = 65_536;
const INPUT_LIMIT: u64 = 4_294_967_296;
/// The bytes of a line that is part of no document.
const LINE_LIMIT: usize = 4_194_304;
/// The bytes of a label in a rule.
const LABEL_LIMIT: usize = 1_024;

/// A document whose lines come.
struct Load {
    name: Option<Vec<u8>>,
    reader: Reader,
    refusal: Option<Refusal>,
}

/// A transaction whose lines come. Its commands are carried out as they come, and committed at its end.
struct Together {
    /// Whether nothing stands behind `begin`.
    is_bare: bool,
    commands: u64,
    /// The number of the first command that was refused, and why.
    refusal: Option<(u64, Vec<u8>)>,
}

struct Session<W> {
    store: Store,
    load: Option<Load>,
    together: Option<Together>,
    /// The beginning of a line that goes on in the next piece.
    pending: Vec<u8>,
    replies: Vec<u8>,
    out: W,
}

/// What a command is answered: lines that were added to the replies, or the word of a refusal.
type Reply = Result<Result<(), &'static str>, Failure>;

/// Where the line ends that begins here.
fn line_end(mut piece: &[u8]) -> Option<usize> {
    let whole = piece;
    // The search of the standard library, which is a fast one.
    let length = piece.skip_until(b'\n').expect("bytes in memory");
    whole[..length].ends_with(b"\n").then(|| length - 1)
}

impl<W: Write> Session<W> {
    fn feed(&mut self, mut piece: &[u8]) -> Result<(), Failure> {
        while let Some(end) = line_end(piece) {
            if self.pending.is_empty() {
                self.line(&piece[..end])?;
            } else {
                self.keep(&piece[..end]);
                let mut line = std::mem::take(&mut self.pending);
                self.line(&line)?;
                line.clear();
                self.pending = line;
            }
            piece = &piece[end + 1..];
        }
        self.keep(piece);
        self.give()
    }

    fn keep(&mut self, part: &[u8]) {
        let limit = if self.load.is_some() {
            2 * CONTENT_LIMIT + 4
        } else {
            LINE_LIMIT + 2
        };
        let room = limit.saturating_sub(self.pending.len());
        self.pending
            .extend_from_slice(&part[..part.len().min(room)]);
    }

    fn give(&mut self) -> Result<(), Failure> {
        if self.together.is_some() {
            return Ok(());
        }
        let given = self.out.write_all(&self.replies);
        self.replies.clear();
        given.map_err(|_| Failure::Write)
    }

    fn finish(&mut self) -> Result<(), Failure> {
        if !self.pending.is_empty() {
            let line = std::mem::take(&mut self.pending);
            self.line(&line)?;
        }
        let is_loading = self.load.take().is_some();
        if self.together.take().is_some() {
            self.store.roll_back();
            self.replies.clear();
            self.error("syntax");
        } else if is_loading {
            self.error("syntax");
        }
        self.give()
    }

    /// Begins a transaction. Earlier replies are out before.
    fn begin(&mut self, is_bare: bool) -> Result<(), Failure> {
        self.give()?;
        if is_bare {
            self.store.begin()?;
        }
        self.together = Some(Together {
            is_bare,
            commands: 0,
            refusal: None,
        });
        Ok(())
    }

    /// Carries out a command, which in a transaction is one of its own.
    fn answer(
        &mut self,
        is_change: bool,
        command: impl FnOnce(&mut Self) -> Reply,
    ) -> Result<(), Failure> {
        let mark = self.replies.len();
        let number = match &mut self.together {
            Some(together) => {
                together.commands += 1;
                if !together.is_bare || together.refusal.is_some() {
                    return Ok(());
                }
                Some(together.commands)
            }
            None => None,
        };
        let answered = if number.is_some() && !is_change {
            Err("syntax")
        } else {
            command(self)?
        };
        if let Err(word) = answered {
            self.error(word);
        }
        if let (Some(number), Some(together)) = (number, &mut self.together)
            && let Some(words) = self.replies[mark..].strip_prefix(b"error ")
        {
            together.refusal = Some((number, words.to_vec()));
        }
        Ok(())
    }

    /// Ends a transaction: all of it is kept, or nothing.
    fn end(&mut self, together: Together) -> Result<(), Failure> {
        match together {
            Together { is_bare: false, .. } => {
                self.store.roll_back();
                self.error("syntax");
            }
            Together {
                refusal: Some((number, words)),
                ..
            } => {
                self.store.roll_back();
                self.replies.clear();
                write!(self.replies, "error at {number} ").expect("memory");
                self.replies.extend_from_slice(&words);
            }
            Together { commands, .. } => {
                if commands == 0 {
                    self.store.roll_back();
                } else {
                    self.store.commit()?;
                }
                self.replies.extend_from_slice(b".\n");
            }
        }
        self.give()
    }

    fn line(&mut self, line: &[u8]) -> Result<(), Failure> {
        let stripped = line.strip_suffix(b"\r").unwrap_or(line);
        if let Some(load) = &mut self.load {
            if stripped == b"." {
                let load = self.load.take().expect("a load");
                return self.answer(true, |session| session.loaded(load).map(Ok));
            }
            if load.refusal.is_none() {
                load.refusal = load.reader.line(line).err();
            }
            return Ok(());
        }
        if stripped == b"load" || stripped.starts_with(b"load ") {
            let name = stripped
                .get(5..)
                .filter(|name| is_name(name) && stripped.len() <= LINE_LIMIT);
            self.load = Some(Load {
                name: name.map(<[u8]>::to_vec),
                reader: Reader::default(),
                refusal: None,
            });
            return Ok(());
        }
        match stripped.strip_prefix(b"begin") {
            _ if self.together.is_some() => {}
            Some(rest) if matches!(rest.first(), None | Some(b' ')) => {
                return self.begin(rest.is_empty());
            }
            _ => {}
        }
        if stripped == b"commit"
            && let Some(together) = self.together.take()
        {
            return self.end(together);
        }
        let word = field(stripped).map_or(stripped, |(word, _)| word);
        let is_change = matches!(
            word,
            b"drop" | b"rename" | b"insert" | b"delete" | b"retext" | b"rule"
        );
        self.answer(is_change, |session| session.command(stripped))?;
        if self.replies.len() >= BLOCK {
            self.give()?;
        }
        Ok(())
    }

    fn error(&mut self, words: &str) {
        writeln!(self.replies, "error {words}").expect("memory");
    }

    fn loaded(&mut self, load: Load) -> Result<(), Failure> {
        let Some(name) = load.name else {
            self.error("syntax");
            return Ok(());
        };
        if self.store.entry(&name).is_some() {
            self.error("exists");
            return Ok(());
        }
        let read = match load.refusal {
            Some(refusal) => Err(refusal),
            None => load.reader.finish(),
        };
        let document = match read {
            Ok(document) => document,
            Err(Refusal(line, fault)) => {
                self.error(&format!("pyx {line} {}", fault.word()));
                return Ok(());
            }
        };
        // Earlier replies are out before a commit begins.
        self.give()?;
        match self.store.load(&name, &document)? {
            Ok(loaded) => {
                writeln!(self.replies, "ok {} {}", loaded.nodes, loaded.intervals).expect("memory");
            }
            Err(refusal) => self.error(&refusal),
        }
        Ok(())
    }

    fn command(&mut self, line: &[u8]) -> Reply {
        if line.len() > LINE_LIMIT {
            return Ok(Err("syntax"));
        }
        match line {
            b"names" => return self.names(),
            b"rules" => return self.rules(),
            b"checkpoint" => return self.checkpoint(),
            _ => {}
        }
        match field(line) {
            Some((b"rule", rest)) => self.rule(rest),
            Some((b"rename", rest)) => self.rename(rest),
            Some((word @ (b"get" | b"insert" | b"delete" | b"retext"), rest)) => {
                self.at_place(word, rest)
            }
            Some((word @ (b"drop" | b"export" | b"layout"), name)) if is_name(name) => {
                match self.store.entry(name) {
                    Some(entry) => self.whole(word, name, entry),
                    None => Ok(Err("no-document")),
                }
            }
            _ => Ok(Err("syntax")),
        }
    }

    fn names(&mut self) -> Reply {
        for (name, entry) in &self.store.catalog.documents {
            self.replies.extend_from_slice(b"doc ");
            self.replies.extend_from_slice(name);
            writeln!(self.replies, " {}", entry.nodes).expect("memory");
        }
        self.replies.extend_from_slice(b".\n");
        Ok(Ok(()))
    }

    fn rules(&mut self) -> Reply {
        for (parent, child, asked) in self.store.catalog.rules.iter() {
            for part in [
                b"rule ",
                parent,
                b" ",
                child,
                b" ",
                asked.word().as_bytes(),
                b"\n",
            ] {
                self.replies.extend_from_slice(part);
            }
        }
        self.replies.extend_from_slice(b".\n");
        Ok(Ok(()))
    }

    fn rule(&mut self, rest: &[u8]) -> Reply {
        let Some((parent, child, word)) = three(rest) else {
            return Ok(Err("syntax"));
        };
        let labels = is_parent(parent) && is_child(child);
        let Some(asked) = Asked::named(word).filter(|_| labels) else {
            return Ok(Err("syntax"));
        };
        self.give()?;
        let done = self.store.set_rule(parent, child, asked)?;
        self.done(done)
    }

    fn rename(&mut self, rest: &[u8]) -> Reply {
        let Some((old, new)) = field(rest).filter(|(old, new)| is_name(old) && is_name(new)) else {
            return Ok(Err("syntax"));
        };
        let Some(entry) = self.store.entry(old) else {
            return Ok(Err("no-document"));
        };
        if self.store.entry(new).is_some() {
            return Ok(Err("exists"));
        }
        self.give()?;
        let done = self.store.rename(old, entry, new)?;
        self.done(done)
    }

    /// What a command that changes the store is answered.
    fn done(&mut self, done: Result<(), String>) -> Reply {
        match done {
            Ok(()) => self.replies.extend_from_slice(b"ok\n"),
            Err(refusal) => self.error(&refusal),
        }
        Ok(Ok(()))
    }

    fn checkpoint(&mut self) -> Reply {
        self.give()?;
        self.store.records.checkpoint()?;
        self.replies.extend_from_slice(b"ok\n");
        Ok(Ok(()))
    }

    /// Takes a document away, or adds it to the replies, its text or its intervals.
    fn whole(&mut self, word: &[u8], name: &[u8], entry: Entry) -> Reply {
        if word == b"drop" {
            self.give()?;
            let done = self.store.discard(name, entry)?;
            return self.done(done);
        }
        let (records, replies) = (&mut self.store.records, &mut self.replies);
        match word {
            b"export" => showing::export(records, entry, replies, &mut self.out)?,
            _ => showing::layout(records, entry, replies)?,
        }
        self.replies.extend_from_slice(b".\n");
        Ok(Ok(()))
    }

    fn at_place(&mut self, word: &[u8], rest: &[u8]) -> Reply {
        let Some((name, rest)) = field(rest) else {
            return Ok(Err("syntax"));
        };
        let (path, last) = match field(rest) {
            Some((path, last)) => (path, Some(last)),
            None => (rest, None),
        };
        let whole = match word {
            b"insert" => last.is_some(),
            b"retext" => true,
            _ => last.is_none(),
        };
        let Some(path) = path_of(path).filter(|_| whole && is_name(name)) else {
            return Ok(Err("syntax"));
        };
        let Some(entry) = self.store.entry(name) else {
            return Ok(Err("no-document"));
        };
        match word {
            b"get" => self.get(entry, &path),
            b"delete" => self.edit(name, entry, &path, &Change::Goes),
            b"retext" => {
                let content = pyx::unescape(last.unwrap_or(b""));
                self.edit(name, entry, &path, &Change::Content(&content))
            }
            _ => match pyx::line_node(last.unwrap_or(b"")) {
                Ok(node) => self.edit(name, entry, &path, &Change::Comes(&node)),
                Err(fault) => {
                    self.error(&format!("pyx 1 {}", fault.word()));
                    Ok(Ok(()))
                }
            },
        }
    }

    fn edit(&mut self, name: &[u8], entry: Entry, path: &[u32], change: &Change) -> Reply {
        // Earlier replies are out before a commit begins.
        self.give()?;
        let done = self.store.edit(name, entry, path, change)?;
        self.done(done)
    }

    fn get(&mut self, entry: Entry, path: &[u32]) -> Reply {
        let (records, replies) = (&mut self.store.records, &mut self.replies);
        let found = showing::get(records, entry.root, path, replies)?;
        Ok(if found { Ok(()) } else { Err("no-node") })
    }
}

/// Three fields, the last of which goes to the end.
fn three(rest: &[u8]) -> Option<(&[u8], &[u8], &[u8])> {
    let (one, rest) = field(rest)?;
    let (two, three) = field(rest)?;
    Some((one, two, three))
}

fn is_parent(label: &[u8]) -> bool {
    label == b"#doc" || is_label(label)
}

fn is_child(label: &[u8]) -> bool {
    let unmarked = label.strip_prefix(b"@").or(label.strip_prefix(b"?"));
    label == b"#text" || (is_label(unmarked.unwrap_or(label)) && label.len() <= LABEL_LIMIT)
}

/// Whether this is a node's name that may stand in a rule.
fn is_label(label: &[u8]) -> bool {
    label.len() <= LABEL_LIMIT && pyx::check_name(label).is_ok()
}

fn is_name(name: &[u8]) -> bool {
    !name.is_empty()
        && name.len() <= 255
        && name[0] != b'-'
        && name.iter().all(|byte| (b'!'..=b'~').contains(byte))
}

pub fn run(store: Store, input: impl Read, out: impl Write) -> Result<(), Failure> {
    let mut session = Session {
        store,
        load: None,
        together: None,
        pending: Vec::new(),
        replies: Vec::new(),
        out,
    };
    let mut input = input.take(INPUT_LIMIT);
    let mut block = vec![0; BLOCK];
    loop {
        match input.read(&mut block) {
            Ok(0) if input.limit() == 0 => return Err(Failure::TooMuch),
            Ok(0) => return session.finish(),
            Ok(length) => session.feed(&block[..length])?,
            Err(error) if error.kind() == ErrorKind::Interrupted => {}
            Err(_) => return Err(Failure::Read),
        }
    }
}
