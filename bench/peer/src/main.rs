//! natix's commands over plain trees, without proofs: `tidy`, `plan` and `verify` do what natix's
//! do, and refuse what those refuse. Of several plans that are as good `plan` may give another one.

mod certificate;
mod fields;
mod fronts;
mod partition;
mod parts;
mod plan_text;
mod profiles;
mod pyx;
mod shape;
mod tree;

use certificate::certified;
use partition::plan;
use parts::Plan;
use plan_text::{read_plan, write_plan};
use pyx::{Reader, Refusal, write_tree};
use std::env;
use std::ffi::OsStr;
use std::io::{self, BufWriter, ErrorKind, Read, StdoutLock, Write};
use std::process::ExitCode;
use tree::Tree;

const BLOCK: usize = 65_536;
const INPUT_LIMIT: u64 = 4_294_967_296;
/// The weight that a part may have at most.
const K_LIMIT: u32 = 256;

enum Failure {
    Usage,
    /// With what stands behind `refused`.
    Refused(String),
    Read,
    Write,
    TooMuch,
}

impl From<Refusal> for Failure {
    fn from(Refusal(line, fault): Refusal) -> Failure {
        Failure::Refused(format!("pyx {line} {}", fault.word()))
    }
}

impl From<String> for Failure {
    fn from(refusal: String) -> Failure {
        Failure::Refused(refusal)
    }
}

/// Hands the input on in blocks, up to its end.
fn read_blocks(
    input: impl Read,
    mut take: impl FnMut(&[u8]) -> Result<(), Failure>,
) -> Result<(), Failure> {
    let mut input = input.take(INPUT_LIMIT);
    let mut block = vec![0; BLOCK];
    loop {
        match input.read(&mut block) {
            Ok(0) if input.limit() == 0 => return Err(Failure::TooMuch),
            Ok(0) => return Ok(()),
            Ok(length) => take(&block[..length])?,
            Err(error) if error.kind() == ErrorKind::Interrupted => {}
            Err(_) => return Err(Failure::Read),
        }
    }
}

fn read_document(input: impl Read) -> Result<Tree, Failure> {
    let mut reader = Reader::default();
    read_blocks(input, |block| Ok(reader.feed(block)?))?;
    Ok(reader.finish()?)
}

/// Reads a document, and behind a line `.` a plan.
fn read_certificate(input: impl Read) -> Result<(Tree, Plan), Failure> {
    let mut reader = Reader::default();
    let mut text = Vec::new();
    let mut in_document = true;
    read_blocks(input, |block| {
        if !in_document {
            text.extend_from_slice(block);
        } else if let Some(rest) = reader.feed_to_dot(block)? {
            in_document = false;
            text.extend_from_slice(rest);
        }
        Ok(())
    })?;
    let document = reader.finish_at_dot()?;
    Ok((document, read_plan(&text)?))
}

fn verify(input: impl Read, k: u32) -> Result<usize, Failure> {
    let (document, plan) = read_certificate(input)?;
    Ok(certified(&document, k, &plan)?)
}

/// Emits the answer, or the line that refuses it.
fn emit<T>(
    answer: Result<T, Failure>,
    write: impl FnOnce(&T, &mut BufWriter<StdoutLock<'static>>) -> io::Result<()>,
) -> Result<(), Failure> {
    let mut out = BufWriter::with_capacity(BLOCK, io::stdout().lock());
    let written = match &answer {
        Ok(answer) => write(answer, &mut out),
        Err(Failure::Refused(words)) => writeln!(out, "refused {words}"),
        Err(_) => Ok(()),
    };
    written
        .and_then(|()| out.flush())
        .map_err(|_| Failure::Write)?;
    answer.map(drop)
}

fn k_of(word: &OsStr) -> Result<u32, Failure> {
    let k = fields::number_of(word.as_encoded_bytes());
    k.filter(|k| (1..=K_LIMIT).contains(k))
        .ok_or(Failure::Usage)
}

fn main() -> ExitCode {
    let words: Vec<_> = env::args_os().skip(1).collect();
    // natix takes a store's name before the command, `_` for none.
    let command = words.strip_prefix(&["_".into()]).unwrap_or(&words);
    let input = io::stdin().lock();
    let ended = match command {
        [word] if word == "tidy" => emit(read_document(input), write_tree),
        [word, k] if word == "plan" => k_of(k).and_then(|k| {
            let plan = read_document(input).and_then(|document| Ok(plan(&document, k)?));
            emit(plan, write_plan)
        }),
        [word, k] if word == "verify" => k_of(k).and_then(|k| {
            emit(verify(input, k), |count, out| {
                writeln!(out, "certified {count}")
            })
        }),
        _ => Err(Failure::Usage),
    };
    let (status, message) = match ended {
        Ok(()) => return ExitCode::SUCCESS,
        Err(Failure::Refused(_)) => return ExitCode::from(2),
        Err(Failure::Usage) => (1, "usage: peer [_] tidy|plan K|verify K"),
        Err(Failure::Read) => (4, "read fault"),
        Err(Failure::Write) => (5, "write fault"),
        Err(Failure::TooMuch) => (9, "too much input"),
    };
    eprintln!("{message}");
    ExitCode::from(status)
}
