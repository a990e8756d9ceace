//! Many questions at once: `STORE ask WORKERS` answers the commands of a script over a snapshot of a store, 1,024 at a time, by threads that
//! share it. A program of its own, as `store_check`.

#![allow(dead_code)]

#[path = "../cache.rs"]
mod cache;
#[path = "../catalog.rs"]
mod catalog;
#[path = "../failure.rs"]
mod failure;
#[path = "../log.rs"]
mod files;
#[path = "../header.rs"]
mod header;
#[path = "../snapshot.rs"]
mod log;
#[path = "../page.rs"]
mod page;
#[path = "../piece.rs"]
mod piece;
#[path = "../records.rs"]
mod records;
#[path = "../rules.rs"]
mod rules;
#[path = "../showing.rs"]
mod showing;
#[path = "../slots.rs"]
mod slots;
#[path = "../stored.rs"]
mod stored;

#[path = "../../../peer/src/fields.rs"]
mod fields;
#[path = "../../../peer/src/pyx.rs"]
mod pyx;
#[path = "../../../peer/src/tree.rs"]
mod tree;

mod script {
    pub const BLOCK: usize = 65_536;
}

pub use failure::Failure;

use crate::catalog::Catalog;
use crate::fields::{field, number_of, path_of};
use crate::records::Records;
use std::env;
use std::io::{self, BufRead, BufReader, Write};
use std::process::ExitCode;
use std::thread;

const BATCH: usize = 1_024;
/// The bytes of a line that is part of no document.
const LINE_LIMIT: usize = 4_194_304;

/// The lines of some commands, one behind the other, and where each ends.
#[derive(Default)]
struct Batch {
    lines: Vec<u8>,
    ends: Vec<usize>,
}

impl Batch {
    fn line(&self, index: usize) -> &[u8] {
        let from = index.checked_sub(1).map_or(0, |before| self.ends[before]);
        let line = &self.lines[from..self.ends[index]];
        let line = line.strip_suffix(b"\n").unwrap_or(line);
        line.strip_suffix(b"\r").unwrap_or(line)
    }

    /// Takes the next commands. The lines of a document and of a transaction are left out, since these are no questions.
    fn fill(&mut self, input: &mut impl BufRead) -> Result<(), Failure> {
        self.lines.clear();
        self.ends.clear();
        while self.ends.len() < BATCH && self.add(input)? {
            let line = self.line(self.ends.len() - 1);
            if is_load(line) {
                skip_body(input)?;
            } else if line.len() <= LINE_LIMIT && (line == b"begin" || line.starts_with(b"begin ")) {
                skip_transaction(input)?;
            }
        }
        Ok(())
    }

    fn add(&mut self, input: &mut impl BufRead) -> Result<bool, Failure> {
        let taken = input.read_until(b'\n', &mut self.lines);
        let some = taken.map_err(|_| Failure::Read)? > 0;
        if some {
            self.ends.push(self.lines.len());
        }
        Ok(some)
    }
}

fn is_load(line: &[u8]) -> bool {
    line == b"load" || line.starts_with(b"load ")
}

fn skip_transaction(input: &mut impl BufRead) -> Result<(), Failure> {
    let mut line = Vec::new();
    while input.read_until(b'\n', &mut line).map_err(|_| Failure::Read)? > 0 {
        let bare = line.strip_suffix(b"\n").unwrap_or(&line);
        let bare = bare.strip_suffix(b"\r").unwrap_or(bare);
        if bare == b"commit" {
            break;
        }
        if is_load(bare) {
            skip_body(input)?;
        }
        line.clear();
    }
    Ok(())
}

fn skip_body(input: &mut impl BufRead) -> Result<(), Failure> {
    let mut line = Vec::new();
    while input.read_until(b'\n', &mut line).map_err(|_| Failure::Read)? > 0 {
        if matches!(&line[..], b".\n" | b".\r\n" | b"." | b".\r") {
            break;
        }
        line.clear();
    }
    Ok(())
}

struct Worker {
    records: Records,
    catalog: Catalog,
    replies: Vec<u8>,
}

impl Worker {
    fn new(pages: &log::Pages) -> Result<Worker, Failure> {
        let pages = pages.clone();
        let mut records = Records::over(log::Log { pages })?;
        let catalog = Catalog::read(&records.catalog()?.bytes).ok_or(Failure::Damaged(0))?;
        Ok(Worker {
            records,
            catalog,
            replies: Vec::new(),
        })
    }

    fn answer(&mut self, batch: &Batch, from: usize, to: usize) -> Result<(), Failure> {
        self.replies.clear();
        for index in from..to {
            if let Err(word) = self.command(batch.line(index))? {
                writeln!(self.replies, "error {word}").expect("memory");
            }
        }
        Ok(())
    }

    fn command(&mut self, line: &[u8]) -> Result<Result<(), &'static str>, Failure> {
        match field(line) {
            None if line == b"names" => self.names(),
            None if line == b"rules" => self.rules(),
            Some((b"get", rest)) => return self.get(rest),
            Some((word @ (b"export" | b"layout"), name)) => return self.whole(word, name),
            _ => return Ok(Err("syntax")),
        }
        self.replies.extend_from_slice(b".\n");
        Ok(Ok(()))
    }

    fn names(&mut self) {
        for (name, entry) in &self.catalog.documents {
            self.replies.extend_from_slice(b"doc ");
            self.replies.extend_from_slice(name);
            writeln!(self.replies, " {}", entry.nodes).expect("memory");
        }
    }

    fn rules(&mut self) {
        for (parent, child, asked) in self.catalog.rules.iter() {
            let words: [&[u8]; 3] = [parent, child, asked.word().as_bytes()];
            self.replies.extend_from_slice(b"rule ");
            self.replies.extend_from_slice(&words.join(&b' '));
            self.replies.push(b'\n');
        }
    }

    fn get(&mut self, rest: &[u8]) -> Result<Result<(), &'static str>, Failure> {
        let Some((name, path)) = field(rest).filter(|(name, _)| is_name(name)) else {
            return Ok(Err("syntax"));
        };
        let Some(path) = path_of(path) else {
            return Ok(Err("syntax"));
        };
        let Some(entry) = self.catalog.documents.get(name).copied() else {
            return Ok(Err("no-document"));
        };
        let found = showing::get(&mut self.records, entry.root, &path, &mut self.replies)?;
        Ok(if found { Ok(()) } else { Err("no-node") })
    }

    fn whole(&mut self, word: &[u8], name: &[u8]) -> Result<Result<(), &'static str>, Failure> {
        if !is_name(name) {
            return Ok(Err("syntax"));
        }
        let Some(entry) = self.catalog.documents.get(name).copied() else {
            return Ok(Err("no-document"));
        };
        if word == b"export" {
            let mut text = Vec::new();
            let mut last = Vec::new();
            showing::export(&mut self.records, entry, &mut last, &mut text)?;
            self.replies.extend(text);
            self.replies.extend(last);
        } else {
            showing::layout(&mut self.records, entry, &mut self.replies)?;
        }
        self.replies.extend_from_slice(b".\n");
        Ok(Ok(()))
    }
}

fn is_name(name: &[u8]) -> bool {
    (1..=255).contains(&name.len())
        && name[0] != b'-'
        && name.iter().all(|byte| (b'!'..=b'~').contains(byte))
}

/// Answers a batch, each worker a row of its commands.
fn answer(workers: &mut [Worker], batch: &Batch) -> Result<(), Failure> {
    let (all, count) = (workers.len(), batch.ends.len());
    let mut rows = workers.iter_mut().enumerate();
    let (_, first) = rows.next().expect("a worker");
    let bounds = |index: usize| (count * index / all, count * (index + 1) / all);
    thread::scope(|scope| {
        let threads = Vec::from_iter(rows.map(|(index, worker)| {
            let (from, to) = bounds(index);
            scope.spawn(move || worker.answer(batch, from, to))
        }));
        let answered = first.answer(batch, 0, bounds(0).1);
        threads
            .into_iter()
            .map(|thread| thread.join().expect("a thread"))
            .fold(answered, Result::and)
    })
}

fn ask(store: &str, workers: usize) -> Result<(), Failure> {
    let pages = log::take(store)?;
    let workers: Result<Vec<Worker>, Failure> = (0..workers).map(|_| Worker::new(&pages)).collect();
    let mut workers = workers?;
    let mut input = BufReader::with_capacity(script::BLOCK, io::stdin().lock());
    let mut output = io::stdout().lock();
    let mut batch = Batch::default();
    loop {
        batch.fill(&mut input)?;
        answer(&mut workers, &batch)?;
        for worker in &workers {
            let given = output.write_all(&worker.replies);
            given.map_err(|_| Failure::Write)?;
        }
        output.flush().map_err(|_| Failure::Write)?;
        if batch.ends.len() < BATCH {
            return Ok(());
        }
    }
}

fn main() -> ExitCode {
    let words = Vec::from_iter(env::args().skip(1));
    let words = Vec::from_iter(words.iter().map(String::as_str));
    let ended = match words[..] {
        [store, "ask", workers] => match number_of(workers.as_bytes()) {
            Some(workers @ 1..=64) => ask(store, workers as usize),
            _ => Err(Failure::Usage),
        },
        _ => Err(Failure::Usage),
    };
    ExitCode::from(match ended {
        Ok(()) => 0,
        Err(Failure::Usage) => 1,
        Err(Failure::Read) => 4,
        Err(Failure::Write) => 5,
        Err(Failure::NotAStore) => 7,
        Err(Failure::Damaged(_)) => 8,
        Err(_) => 3,
    })
}
